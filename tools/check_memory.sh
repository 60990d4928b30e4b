#!/usr/bin/env bash
# Refuses the program memory, one growth after another: each script below is run over real folders once for each
# call that the program or the C library makes for memory, and that call is refused. Then the exit status and the
# answers must be those of a run without a refusal; or `memory` stands in one place where docs/FORMATS.md lets it
# stand, and all answers after it are those of a store in which that line wasn't taken; or the line of status 1 is
# all that was written; or, where the folders' own memory was refused, a failure of the disk. The store must open
# again, at the versions that were published, and its check must agree.
#
#   check_memory.sh [PROGRAM]
#
# PROGRAM is the path of the built program; with none it is built with `rt`. Of a script with more than 200 growths
# each of the first 200 is refused, and then each 50th. The calls for memory are counted and refused by a library
# that is loaded before the C library; it lets `fsync` do nothing, since nothing is stopped here. Needs python3, cc
# and the GNU C library, and 0.3 GB below TMPDIR.
set -u
. "$(dirname "$0")/built.sh" || exit 2
need python3 cc

folder=$(mktemp -d)
trap 'rm -rf "$folder"' EXIT
if [ $# -gt 0 ]; then program=$(realpath "$1"); else program=$(built cdb_cli "$folder") || exit; fi

cat >"$folder/refuse.c" <<'C'
#include <errno.h>
#include <fcntl.h>
#include <stdio.h>
#include <stdlib.h>
#include <unistd.h>

void *__libc_malloc(size_t);
void *__libc_calloc(size_t, size_t);
void *__libc_realloc(void *, size_t);

static unsigned long calls, refused;
static int counts;

__attribute__((constructor)) static void begin(void)
{
    const char *number = getenv("REFUSED");
    refused = number ? strtoul(number, NULL, 10) : 0;
    counts = 1;
}

/* Writes how many calls there were. */
__attribute__((destructor)) static void end(void)
{
    const char *path = getenv("CALLS");
    char text[32];
    int length = snprintf(text, sizeof text, "%lu\n", calls);
    int file = path ? open(path, O_WRONLY | O_CREAT | O_TRUNC, 0644) : -1;
    if (file < 0 || write(file, text, length) != length)
        _exit(99);
}

static int is_refused(void)
{
    if (!counts || ++calls != refused)
        return 0;
    errno = ENOMEM;
    return 1;
}

void *malloc(size_t size)
{
    return is_refused() ? NULL : __libc_malloc(size);
}

void *calloc(size_t count, size_t size)
{
    return is_refused() ? NULL : __libc_calloc(count, size);
}

void *realloc(void *old, size_t size)
{
    return is_refused() ? NULL : __libc_realloc(old, size);
}

int fsync(int file)
{
    (void)file;
    return 0;
}
C
cc -O1 -shared -fPIC -o "$folder/refuse.so" "$folder/refuse.c" || exit 2

python3 - "$program" "$folder" <<'PYTHON'
import collections
import os
import shutil
import struct
import subprocess
import sys

program, folder = sys.argv[1:3]
EACH, STRIDE = 200, 50
BY_HAND = ("--background", "0")
CHECK = ("--mode", "check")
TILE = "tile %d N46E007_D001_S001_T001_LC10_U0_R0.tif"
# What becomes of a run in which one growth was refused; how a run ends whose store wasn't opened.
UNCHANGED, MEMORY, DEVICE = "no answer changed", "`memory` in place of an answer", "a failure of a device"
ENDED = {(1, b"cdb: out of memory\n"): "status 1", (1, b""): "status 1, nothing written",
         (5, b"cdb: store fault\n"): DEVICE}
failures = 0


def fail(text):
    global failures
    failures += 1
    print("wrong:", text)


# The lines of sources; what the first two give for one tile, and how many tiles each publication of them has.
FIRST = "inline elev -10 46 7 1 1 1 1 500"
SECOND = "inline elev -10 46 7 1 1 1 1 600"
DEGREE = "source elev 1 47 11 1/3600 1/3600 -32768 n47e011.tif"
POSTS = {FIRST: b"\xF4\x01", SECOND: b"\x58\x02"}
TILES = {FIRST: 3, SECOND: 3, DEGREE: 159}

ASKED = ["open", TILE % 1]
BESIDE = [SECOND, "publish", "step 4", TILE % 1, "step all", TILE % 1, "open", TILE % 2]
SCRIPTS = {
    "one post, from its line to its tile": ([], [FIRST, "publish", "step all", *ASKED]),
    "a second post beside a reader of the first": ([], [FIRST, "publish", "step all", *ASKED, *BESIDE]),
    "a second post over the store of the first": ([FIRST, "publish", "step all"], [*ASKED, *BESIDE]),
    "a degree an arc second apart": ([], [DEGREE, "publish", "step all"]),
}


# The machine that answers lines, over a store of publications, each a list of the lines of its sources. Memory is
# wanting in one line, or the device fails in one; these two are numbers of lines.
class Machine:
    def __init__(self, publications, wanting=None, failing=None):
        self.list, self.wanting, self.failing = list(publications), wanting, failing
        self.pending, self.going, self.left, self.halted, self.given_up, self.sessions = [], None, 0, False, None, {}

    def answer(self, number, line):
        word, *words = line.split()
        if self.halted and word in ("inline", "source", "publish", "step"):
            return "refused halted"
        if self.going and word in ("inline", "source", "publish"):
            return "refused busy"
        answer = getattr(self, "source" if word == "inline" else word)
        return answer(number == self.wanting, number == self.failing, line, words)

    def source(self, wanting, failing, line, words):
        if wanting or failing:
            return "refused memory" if wanting else "refused shelf"
        self.pending = [*self.pending, line]
        return f"source {len(self.pending)}"

    def publish(self, wanting, failing, line, words):
        if not self.pending:
            return "refused nothing"
        if wanting:
            return "refused memory"
        # one post lies in three folders: that of the sources and two of tiles
        self.going, self.left, self.pending = self.pending, len(self.pending) + 3 + 3 + 2, []
        return f"begun {len(self.list) + 1} {TILES[self.going[0]]}"

    def step(self, wanting, failing, line, words):
        if not self.going:
            return "refused nothing"
        if failing:
            self.given_up, self.going, self.halted = self.going, None, True
            return "refused fault"
        if words[0] != "all" and int(words[0]) < self.left:
            self.left -= int(words[0])
            return "going"
        self.list, self.going = [*self.list, self.going], None
        return f"published {len(self.list)}"

    def open(self, wanting, failing, line, words):
        if wanting:
            return "refused memory"
        self.sessions[len(self.sessions) + 1] = len(self.list)
        return f"session {len(self.sessions)} {len(self.list)}"

    def tile(self, wanting, failing, line, words):
        version = self.sessions.get(int(words[0]))
        if version is None:
            return "refused session"
        if version == 0:
            return "missing"
        return "refused fault" if failing else b"tile 188\n" + HEAD + POSTS[self.list[version - 1][-1]]

    def run(self, lines):
        told = [self.answer(number, line) for number, line in enumerate(lines)]
        return b"".join(text if isinstance(text, bytes) else text.encode() + b"\n" for text in told)


# How many versions and files a check tells of these publications.
def agreed(publications):
    return len(publications), sum(TILES[lines[0]] + len(lines) + 1 for lines in publications)


# The texts that a run may write, each with its status, what became of it, and what a check may tell then.
def allowed(before, lines):
    machines = [(UNCHANGED, Machine(before))]
    for number, line in enumerate(lines):
        word = line.split()[0]
        if word in ("inline", "source", "publish", "open"):
            machines.append((MEMORY, Machine(before, wanting=number)))
        if word in ("source", "step", "tile"):
            machines.append((DEVICE, Machine(before, failing=number)))
    texts = {answer: (what, [agreed(before)]) for answer, what in ENDED.items()}
    for what, machine in machines:
        written = machine.run(lines)
        given_up = [agreed([*machine.list, machine.given_up])] if machine.given_up else []
        texts.setdefault((0, written), (what, [agreed(machine.list), *given_up]))
    return texts


def run(where, words, script=b"", refused=None):
    more = {"LD_PRELOAD": folder + "/refuse.so", "CALLS": folder + "/calls"}
    if refused is not None:
        more["REFUSED"] = str(refused)
    made = subprocess.run([program, *words], input=script, cwd=where, capture_output=True, env={**os.environ, **more})
    if made.stderr:
        fail(f"{words}: {made.stderr[-200:]!r} on the standard error")
    return made.returncode, made.stdout, int(open(folder + "/calls").read())


def text_of(lines):
    return "".join(line + "\n" for line in lines).encode()


# A folder with a store of what these lines publish.
def store_of(lines):
    where = folder + "/store"
    shutil.rmtree(where, ignore_errors=True)
    os.makedirs(where)
    os.symlink(folder + "/in", where + "/in")
    if lines:
        run(where, BY_HAND, text_of(lines))
    return where


# Whether the store opens at one of these numbers of versions, and agrees.
def opens(where, counts):
    code, out, _ = run(where, BY_HAND, b"versions\n")
    told, checked, _ = run(where, CHECK)
    wanted = [(b"versions %d\n" % versions, b"agrees %d %d\n" % (versions, files)) for versions, files in counts]
    return code == told == 0 and (out, checked) in wanted


def growths(total):
    return [*range(1, min(total, EACH) + 1), *range(EACH + STRIDE, total + 1, STRIDE)]


def check_script(name, first, lines):
    machine = Machine([])
    machine.run(first)
    texts = allowed(machine.list, lines)
    code, whole, total = run(store_of(first), BY_HAND, text_of(lines))
    if texts.get((code, whole), ("", 0))[0] != UNCHANGED:
        return fail(f"{name}: status {code}, {whole[-200:]!r}")
    found = collections.Counter()
    for refused in growths(total):
        where = store_of(first)
        code, written, _ = run(where, BY_HAND, text_of(lines), refused)
        what, counts = texts.get((code, written), ("another answer", []))
        if not counts:
            fail(f"{name}: growth {refused} refused: status {code}, {written[-200:]!r}")
        elif not opens(where, counts):
            fail(f"{name}: growth {refused} refused: the store doesn't open, or doesn't agree")
        found[what] += 1
    tell(name, total, found)


def tell(name, total, found):
    became = ", ".join(f"{count} {what}" for what, count in sorted(found.items()))
    print(f"{name}: {total} growths, {sum(found.values())} refused: {became}", flush=True)


# A mode, over a store of the first post: what it writes, or the line of status 1 or 5.
def check_mode(name, words, counts):
    first = [FIRST, "publish", "step all"]
    code, whole, total = run(store_of(first), words)
    texts = {(0, whole): UNCHANGED, **ENDED}
    if code != 0:
        return fail(f"{name}: status {code}, {whole!r}")
    found = collections.Counter()
    for refused in growths(total):
        where = store_of(first)
        answer = run(where, words, refused=refused)[:2]
        if answer not in texts:
            fail(f"{name}: growth {refused} refused: {answer}")
        elif not opens(where, counts):
            fail(f"{name}: growth {refused} refused: the store doesn't open, or doesn't agree")
        found[texts.get(answer, "another answer")] += 1
    tell(name, total, found)


# The head of a tile's file of one element of 16 bits.
def tile_head():
    entries = [(256, 3, 1), (257, 3, 1), (258, 3, 16), (259, 3, 1), (262, 3, 1), (273, 4, 186), (277, 3, 1),
               (278, 3, 1), (279, 4, 2), (282, 5, 170), (283, 5, 178), (296, 3, 1), (339, 3, 2)]
    body = b"".join(struct.pack("<HHII", tag, kind, 1, value) for tag, kind, value in entries)
    return b"II*\0" + struct.pack("<IH", 8, len(entries)) + body + bytes(4) + struct.pack("<IIII", 1, 1, 1, 1)


# A TIFF file of 3,601 rows and columns of 16 bits, in one strip.
def degree_file(path):
    side, raster = 3601, 8 + 2 + 12 * 8 + 4
    tags = [(256, 3, side), (257, 3, side), (258, 3, 16), (259, 3, 1), (273, 4, raster), (278, 3, side),
            (279, 4, 2 * side * side), (339, 3, 2)]
    with open(path, "wb") as file:
        file.write(b"II*\0" + struct.pack("<IH", 8, len(tags)))
        for tag, kind, value in tags:
            file.write(struct.pack("<HHII", tag, kind, 1, value))
        file.write(bytes(4))
        for row in range(side):
            file.write(struct.pack(f"<{side}h", *((row + col) % 2001 for col in range(side))))


HEAD = tile_head()
os.makedirs(folder + "/in")
degree_file(folder + "/in/n47e011.tif")
for name, (first, lines) in SCRIPTS.items():
    check_script(name, first, lines)
check_mode("mode check", CHECK, [(1, 5)])
check_mode("mode generate", ("--mode", "generate", "--count", "1"), [(1, 5), (2, 62)])
print(f"{failures} failures")
sys.exit(1 if failures else 0)
PYTHON
