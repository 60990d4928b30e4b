#!/usr/bin/env bash
# Checks what the program does to real folders. Its file calls are counted; the files that it leaves are
# compared with the listing that docs/FORMATS.md gives, and its tiles are read by tiffinfo and GDAL. Then it
# is stopped before and after each system call of a publication and of an opening, and each of these calls
# fails once; each time the store must open again, at a version that was published. Needs `rt`, which
# builds the program crates/cdb_cli, and python3; what needs strace, tiffinfo or gdal_translate is skipped
# where that is missing.
set -u
. "$(dirname "$0")/built.sh" || exit 2
need python3

folder=$(mktemp -d)
trap 'rm -rf "$folder"' EXIT

program=$(built cdb_cli "$folder") || exit

python3 - "$program" "$folder" <<'PYTHON'
import collections
import os
import re
import shutil
import struct
import subprocess
import sys

program, folder = sys.argv[1:3]
failures = 0

PUBLISH = b"publish\nstep all\n"
FIRST = b"inline elev -10 46 7 1 1 1 1 500\n" + PUBLISH
SECOND = b"inline elev -10 46 7 1 1 1 1 600\n" + PUBLISH
DEGREE = b"source elev 1 47 11 1/3600 1/3600 -32768 n47e011.tif\n" + PUBLISH


def fail(text):
    global failures
    failures += 1
    print("wrong:", text)


def there(part, *programs):
    missing = [name for name in programs if shutil.which(name) is None]
    if missing:
        print(f"{part}: skipped, {missing[0]} is missing")
    return not missing


def empty_folder(name):
    path = os.path.join(folder, name)
    shutil.rmtree(path, ignore_errors=True)
    os.makedirs(path + "/in")
    return path


def run(where, script, words=("--background", "0"), before=()):
    made = subprocess.run([*before, program, *words], input=script, cwd=where, capture_output=True)
    return made.returncode, made.stdout


# A TIFF file of 3,601 rows and columns of 16 bits, in one strip.
def degree_file(path):
    side, raster = 3601, 8 + 2 + 12 * 8 + 4
    tags = [(256, 3, side), (257, 3, side), (258, 3, 16), (259, 3, 1), (273, 4, raster), (278, 3, side),
            (279, 4, 2 * side * side), (339, 3, 2)]
    values = struct.pack("<7000h", *(k % 2001 - 60 for k in range(7000)))
    with open(path, "wb") as file:
        file.write(b"II*\0" + struct.pack("<IH", 8, len(tags)))
        for tag, kind, value in tags:
            file.write(struct.pack("<HHII", tag, kind, 1, value))
        file.write(bytes(4))
        for row in range(side):
            at = 2 * (7 * row % 2001)
            file.write(values[at:at + 2 * side])


# The tile's path in its version's folder, and the length of its file.
def tile(family, lat, lon, level, up, right):
    data, code = {"Elev": ("001_Elevation", "D001_S001_T001"), "Low": ("002_MinMaxElevation", "D002_S001_T001"),
                  "High": ("002_MinMaxElevation", "D002_S001_T002")}[family]
    cell = f"N{lat:02}E{lon:03}"
    name = f"L{level:02}" if level >= 0 else f"LC{-level:02}"
    within = name if level >= 0 else "LC"
    side = 1024 if level >= 0 else 2 ** (10 + level)
    return (f"Tiles/N{lat:02}/E{lon:03}/{data}/{within}/U{up}/{cell}_{code}_{name}_U{up}_R{right}.tif",
            186 + 2 * side * side)


def listing(tiles, posts):
    files = dict(tile(family, *place) for family in ("Elev", "Low", "High") for place in tiles)
    files["Sources/S0001"] = 52 + 2 * posts
    files["Metadata/record"] = 20 + 44 + 16 * len(files) - 16
    return {f"V00000001/{path}": size for path, size in files.items()}


def files_of(store):
    found = {}
    for at, _, names in os.walk(store):
        for name in names:
            path = os.path.join(at, name)
            found[os.path.relpath(path, store)] = os.path.getsize(path)
    return found


ONE_POST = [(46, 7, -10, 0, 0)]
# The box ends at the south and west edges of the geocells to the north and east, and reaches into them.
ONE_DEGREE = [(47 + a, 11 + b, 1, up, right) for a in (0, 1) for b in (0, 1)
              for up in range(2 - a) for right in range(2 - b)]
ONE_DEGREE += [(47 + a, 11 + b, level, 0, 0) for level in range(-10, 1) for a in (0, 1) for b in (0, 1)]


# How often the program makes each file call, and the bytes that it writes in its store.
def count_calls(log, where):
    counts = collections.Counter()
    for line in open(log, errors="replace"):
        call = re.match(r"\d+ +(\w+)\(([^)]*).* = (\d+)", line)
        if call is None:
            continue
        name, words, result = call[1], call[2], int(call[3])
        if re.match(r"p?write(v|64)?$", name):
            path = re.match(r"\d+<(.*?)>", words)
            if path and path[1].startswith(where + "/cdb/"):
                counts["head" if path[1].endswith("/HEAD.tmp") else "bytes"] += result
        else:
            counts[re.sub(r"at2?$", "", name)] += 1
    return counts


def check_files(what, script, tiles, posts, fsyncs, mkdirs, bytes_written):
    where = empty_folder(what.replace(" ", "_"))
    if b"n47e011" in script:
        degree_file(where + "/in/n47e011.tif")
    log, before = folder + "/log", ()
    if there(f"{what}: the counts of calls", "strace"):
        names = ("fsync,?fdatasync,?syncfs,?sync_file_range,?mkdir,?mkdirat,?rename,?renameat,?renameat2,"
                 "write,?pwrite64,?writev")
        before = ("strace", "-f", "-y", "-s", "0", "-o", log, "-e", "trace=" + names)
    code, out = run(where, script, before=before)
    if code != 0 or not out.endswith(b"published 1\n"):
        fail(f"{what}: status {code}, answers {out[-60:]!r}")
    if before:
        wanted = {"fsync": fsyncs, "mkdir": mkdirs, "rename": 1, "bytes": bytes_written, "head": 2}
        counts = dict(count_calls(log, where))
        if counts != wanted:
            fail(f"{what}: {counts}, and not {wanted}")
        print(f"{what}: {fsyncs} fsyncs, {mkdirs} mkdirs, 1 rename, {bytes_written:,} bytes and 2")
    wanted = listing(tiles, posts)
    wanted["HEAD"] = 2
    found = files_of(where + "/cdb")
    for path in sorted(set(found) | set(wanted)):
        if found.get(path) != wanted.get(path):
            fail(f"{what}: {path} has {found.get(path)} bytes, and not {wanted.get(path)}")
    if open(where + "/cdb/HEAD", "rb").read() != b"1\n":
        fail(f"{what}: HEAD")
    print(f"{what}: {len(found)} files, compared with their listing")
    return [os.path.join(where, "cdb", path) for path in sorted(found) if path.endswith(".tif")]


def say_nothing(*words):
    made = subprocess.run(words, stdout=subprocess.DEVNULL, stderr=subprocess.PIPE)
    if made.returncode != 0 or made.stderr:
        fail(f"{words[0]} of {words[-1]}: {made.stderr[:200]!r}")
        return False
    return True


def check_readers(tiles):
    if there("tiffinfo", "tiffinfo"):
        for path in tiles:
            say_nothing("tiffinfo", "-D", path)
        print(f"tiffinfo: {len(tiles)} tiles")
    if there("GDAL", "gdal_translate"):
        for path in tiles:
            raw = folder + "/raster"
            if say_nothing("gdal_translate", "-q", "-of", "ENVI", path, raw):
                bytes_of_it = open(path, "rb").read()[186:]
                if open(raw, "rb").read() != bytes_of_it:
                    fail(f"GDAL reads other values of {path}")
            for name in (raw, raw + ".hdr", raw + ".aux.xml"):
                if os.path.exists(name):
                    os.remove(name)
        print(f"GDAL: {len(tiles)} tiles")


WAYS = {"killed before": "error=EIO:signal=KILL", "killed after": "signal=TERM",
        "EIO": "error=EIO", "ENOSPC": "error=ENOSPC"}


# The numbers of the calls that a run makes of each system call, from its first one on the store on.
def calls_of(base, script):
    where, log = folder + "/stopped", folder + "/log"
    shutil.copytree(base, where)
    run(where, script, before=("strace", "-f", "-o", log))
    shutil.rmtree(where)
    counts, numbers, begun = collections.Counter(), {}, False
    for line in open(log, errors="replace"):
        call = re.match(r"\d+ +(\w+)\((.*)", line)
        if call and call[1] not in ("exit", "exit_group"):
            begun = begun or '"cdb' in call[2]
            counts[call[1]] += 1
            if begun:
                numbers.setdefault(call[1], []).append(counts[call[1]])
    return numbers


# The version at which the store opens, or 0 where something is wrong.
def opens_at(where, what, least, most):
    code, out = run(where, b"versions\n")
    version = re.fullmatch(rb"versions (\d+)\n", out)
    if code != 0 or version is None or not least <= int(version[1]) <= most:
        fail(f"{what}: opened with status {code}, {out!r}")
        return 0
    code, out = run(where, b"", ("--mode", "check"))
    if code != 0 or out != b"agrees %d %d\n" % (int(version[1]), 5 * int(version[1])):
        fail(f"{what}: checked with status {code}, {out!r}")
    return int(version[1])


def check_stops(title, base, script, most):
    where, log = folder + "/stopped", folder + "/log"
    print(f"{title}: how often the store opens at version 1 and at version 2")
    print("call".ljust(20) + "times".rjust(6) + "".join(way.rjust(16) for way in WAYS))
    sums = collections.Counter()
    for name, numbers in sorted(calls_of(base, script).items()):
        row = name.ljust(20) + str(len(numbers)).rjust(6)
        for way, injected in WAYS.items():
            counts = collections.Counter()
            for at in numbers:
                what = f"{title}: {way} {name} {at}"
                shutil.copytree(base, where)
                inject = f"inject={name}:{injected}:when={at}"
                _, out = run(where, script,
                             before=("strace", "-f", "-o", log, "-e", "trace=" + name, "-e", inject))
                told = open(log, errors="replace").read()
                if "INJECTED" not in told and "killed by" not in told:
                    fail(f"{what}: never came")
                counts[opens_at(where, what, 2 if b"published 2" in out else 1, most)] += 1
                shutil.rmtree(where)
            sums.update({(way, version): number for version, number in counts.items()})
            row += f"{counts[1]} and {counts[2]}".rjust(16)
        print(row, flush=True)
    print("together".ljust(26) + "".join(f"{sums[way, 1]} and {sums[way, 2]}".rjust(16) for way in WAYS))


tiles = check_files("one post", FIRST, ONE_POST, 1, 25, 13, 730)
tiles += check_files("one degree", DEGREE, ONE_DEGREE, 3601 * 3601, 265, 71, 116_144_164)
check_readers(tiles)
if there("stops", "strace"):
    base = folder + "/one_post"
    check_stops("a publication", base, SECOND, 2)
    left = folder + "/left"
    shutil.copytree(base, left)
    run(left, SECOND, before=("strace", "-f", "-o", folder + "/log", "-e", "trace=/^rename",
                              "-e", "inject=/^rename:error=EIO:signal=KILL"))
    if not os.path.exists(left + "/cdb/V00000002/Metadata/record"):
        fail("a publication that is stopped before its rename leaves no record")
    check_stops("an opening over what a stopped publication left", left, b"versions\n", 1)

print(f"{failures} failures")
sys.exit(1 if failures else 0)
PYTHON
