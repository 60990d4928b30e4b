#!/usr/bin/env bash
# Times the program over real folders beside the same file calls with nothing computed, and prints one
# table: a degree of an arc second published as version 1 (161 files), its compute alone, a patch of one
# chain of tiles (36 files of tiles) over it and over a store of 4,000 versions, a check of that degree, the
# opening of 4,096 versions with 999,424 entries, tiles asked for, and 12,381 touched tiles. What a tile that
# is read takes more than one that is kept stands beside opening, reading and closing its file. What is
# compared takes turns. A row has the least time of all rounds and that of what stands beside it, the ratio
# of the two and that of the medians, and the greatest memory of the program; with other work on the machine
# only the ratios say anything. How often a publication calls the system is counted by time_publication.sh.
#
#   bench.sh [PROGRAM [ROUNDS]]
#
# PROGRAM is the path of the built program; with none it is built with `rt`. ROUNDS is 5 where it isn't
# given. CUT_RS may name a plain Rust program that reads the posts as 16-bit numbers, north row first, and
# prints the seconds of each stage of the compute, as for time_values.sh. The stores (0.6 GB) are made below
# TMPDIR, which must be a real file system, and below /dev/shm. Needs Linux, python3 and cat.
set -u
. "$(dirname "$0")/built.sh" || exit 2
need python3 cat

folder=$(mktemp -d)
memory=$(mktemp -d -p /dev/shm) || exit 2
trap 'rm -rf "$folder" "$memory"' EXIT
if [ $# -gt 0 ]; then program=$(realpath "$1"); else program=$(built cdb_cli "$folder") || exit; fi
if [ -f "${CUT_RS:-}" ]; then
    need rustc
    rustc -O "$CUT_RS" -o "$folder/plain" || exit 2
fi

python3 - "$program" "$folder" "$memory" "${2:-5}" <<'PYTHON'
import os
import shutil
import statistics
import struct
import subprocess
import sys
import time

program, folder, memory = sys.argv[1:4]
rounds = int(sys.argv[4])
SIDE, VOID, TILE_BYTES = 3601, -32768, 2_097_338
DEGREE = b"source elev 1 47 11 1/3600 1/3600 -32768 n47e011.tif\npublish\n"
PATCH = b"source elev 1 47 11 1/3600 1/3600 -32768 patch.tif\npublish\n"
SMALL = b"inline elev -10 46 7 1 1 1 1 500\npublish\nstep all\n"
MANY = b"inline elev 11 46 7 1 1 1 2 5 6\npublish\n"
HEAD = bytes.fromhex("01f6000000000001000000010005af78000000000000dd7c0000000000001fa40000000000001fa400000000")


# Hills with a few rows of voids: whole numbers, so that each run has the same.
def rows_of(side):
    wave = [abs(k % 1024 - 512) for k in range(2 * side)]
    for row in range(side):
        first = wave[row] - 60
        posts = [first + wave[row + col] + (row * col >> 12) % 97 for col in range(side)]
        yield posts if row % 1000 > 2 else [VOID] * (side // 4) + posts[side // 4:]


# A TIFF file of 16-bit posts in one strip, and beside it the posts alone.
def write_source(path, side):
    raster = 8 + 2 + 8 * 12 + 4
    tags = [(256, 3, side), (257, 3, side), (258, 3, 16), (259, 3, 1), (273, 4, raster), (278, 3, side),
            (279, 4, 2 * side * side), (339, 3, 2)]
    posts = b"".join(struct.pack(f"<{side}h", *row) for row in rows_of(side))
    with open(path + ".tif", "wb") as file:
        file.write(b"II*\0" + struct.pack("<IH", 8, len(tags)))
        for tag, kind, value in tags:
            file.write(struct.pack("<HHII", tag, kind, 1, value))
        file.write(bytes(4) + posts)
    with open(path + ".posts", "wb") as file:
        file.write(posts)


# A run of the program in a folder, line by line.
class Run:
    def __init__(self, where):
        words = [program, "--background", "0"]
        self.child = subprocess.Popen(words, cwd=where, stdin=subprocess.PIPE, stdout=subprocess.PIPE, bufsize=0)

    def send(self, lines):
        self.child.stdin.write(lines)

    # Reads answers up to one that begins with these bytes, and gives it.
    def answer(self, begins):
        line = b""
        while not line.startswith(begins):
            line = self.child.stdout.readline()
            if line == b"" or line.startswith((b"refused", b"damaged", b"halted", b"cdb:")):
                sys.exit(f"wrong answer {line!r}, not {begins!r}")
        return line

    # The greatest memory up to now, in MiB.
    def memory(self):
        for line in open(f"/proc/{self.child.pid}/status"):
            if line.startswith("VmHWM:"):
                return int(line.split()[1]) / 1024

    # Ends the run, and gives its seconds of the processor, without those of the system, and its memory.
    def end(self):
        most = self.memory()
        self.child.stdin.close()
        drained(self.child.stdout)
        _, status, usage = os.wait4(self.child.pid, 0)
        self.child.returncode = status
        if status != 0:
            sys.exit(f"the program ended with {status}")
        return usage.ru_utime, most


# Reads the pipe to its end, or so many bytes of it, and gives how many came.
def drained(pipe, due=1 << 60):
    total = 0
    while total < due and (piece := os.read(pipe.fileno(), min(1 << 20, due - total))):
        total += len(piece)
    return total


# What was measured of each piece of work, and of what stands beside it; and the greatest memory.
seconds, greatest = {}, {}


def put(name, taken, most=0.0):
    seconds.setdefault(name, []).append(taken)
    greatest[name] = max(greatest.get(name, 0.0), most)


def empty_folder(path):
    shutil.rmtree(path, ignore_errors=True)
    os.makedirs(path)
    os.sync()
    return path


# Publishes what the lines give, and puts the seconds from the first line to the last answer.
def publish(name, where, lines, files):
    os.makedirs(where, exist_ok=True)
    if not os.path.exists(where + "/in"):
        os.symlink(folder + "/in", where + "/in")
    os.sync()
    run = Run(where)
    run.send(b"versions\n")
    run.answer(b"versions")
    start = time.monotonic()
    run.send(lines)
    begun = run.answer(b"begun").split()
    run.send(b"step all\n")
    run.answer(b"published")
    taken = time.monotonic() - start
    user, most = run.end()
    if int(begun[2]) != files:
        sys.exit(f"{begun}, not {files} tiles")
    put(name, taken, most)
    return user


# The files of a version, sources first and the record last, with their lengths.
def listing(store, version):
    top = f"{store}/cdb/V{version:08}"
    found = []
    for at, _, names in os.walk(top):
        for name in names:
            path = os.path.join(at, name)
            found.append((os.path.relpath(path, top), os.path.getsize(path)))
    return sorted(found, key=lambda file: ("Sources Tiles Metadata".split().index(file[0].split("/")[0]), file[0]))


# The calls of a publication in their order, with nothing computed.
class Floor:
    def __init__(self, root):
        self.root, self.made, self.block = root, set(), os.urandom(1 << 20)

    def sync(self, path):
        at = os.open(path, os.O_RDONLY)
        os.fsync(at)
        os.close(at)

    def make_folder(self, path):
        if path in self.made:
            return
        above = os.path.dirname(path)
        if path != self.root:
            self.make_folder(above)
        os.mkdir(path)
        self.made.add(path)
        self.sync(above)

    def write(self, path, length):
        at = os.open(path, os.O_WRONLY | os.O_CREAT | os.O_TRUNC, 0o644)
        while length > 0:
            length -= os.write(at, self.block[:length] if length < len(self.block) else self.block)
        os.fsync(at)
        os.close(at)

    def publish(self, files):
        folders = dict.fromkeys(os.path.dirname(path) for path, _ in files[:-1])
        for path, length in files[:-1]:
            self.make_folder(f"{self.root}/V/{os.path.dirname(path)}")
            self.write(f"{self.root}/V/{path}", length)
        for path in folders:
            self.sync(f"{self.root}/V/{path}")
        path, length = files[-1]
        self.make_folder(f"{self.root}/V/{os.path.dirname(path)}")
        self.write(f"{self.root}/V/{path}", length)
        self.sync(f"{self.root}/V/{os.path.dirname(path)}")
        self.write(self.root + "/HEAD.tmp", 2)
        os.rename(self.root + "/HEAD.tmp", self.root + "/HEAD")
        self.sync(self.root)


def floor(name, files):
    root = empty_folder(folder + "/floor") + "/cdb"
    work = Floor(root)
    start = time.monotonic()
    work.publish(files)
    put(name, time.monotonic() - start)


# Looks at each file of a store.
def check(name, where, due):
    start = time.monotonic()
    child = subprocess.Popen([program, "--mode", "check"], cwd=where, stdout=subprocess.PIPE)
    said = child.stdout.read()
    _, status, usage = os.wait4(child.pid, 0)
    child.returncode = status
    if said != due or status != 0:
        sys.exit(f"the check said {said!r}, not {due!r}")
    put(name, time.monotonic() - start, usage.ru_maxrss / 1024)


# The plain compute of the same posts.
def plain(name):
    if not os.path.exists(folder + "/plain"):
        return
    made = subprocess.run([folder + "/plain", folder + "/in/n47e011.posts"], capture_output=True, text=True, check=True)
    stages = dict(line.split()[:2] for line in made.stdout.splitlines())
    wanted = "decode_source cut_row_shift fold_elev fold_low fold_high encode".split()
    put(name, sum(float(stages[stage]) for stage in wanted))


def degree():
    full = folder + "/full"
    for k in range(rounds):
        empty_folder(full)
        publish("degree", full, DEGREE, 159)
        files = listing(full, 1)
        floor("degree floor", files)
        check("check", full, b"agrees 1 %d\n" % len(files))
        shutil.rmtree(memory, ignore_errors=True)
        user = publish("degree in memory", memory, DEGREE, 159)
        put("compute", user, greatest["degree in memory"])
        plain("compute plain")
        if k == 0:
            print(f"{len(files)} files, {sum(length for _, length in files):,} bytes", flush=True)


# A patch over the degree, and over the degree with versions that touch other tiles; each adds a version.
def patches():
    full, deep = folder + "/full", folder + "/deep"
    run = Run(memory)
    run.send(b"versions\n")
    run.answer(b"versions")
    for version in range(2, 4001):
        run.send(SMALL)
        run.answer(b"published %d\n" % version)
    run.end()
    shutil.copytree(memory, deep, symlinks=True)
    os.sync()
    for k in range(rounds):
        publish("patch", full, PATCH, 36)
        publish("deep patch", deep, PATCH, 36)
        floor("patch floor", listing(full, k + 2))


# 4,096 records of 244 tiles, each version in a geocell of its own (4,000 of them).
def write_records(where):
    for version in range(1, 4097):
        path = f"{where}/cdb/V{version:08}/Metadata"
        os.makedirs(path)
        cell, tiles = version % 4000, 244
        front = b"CDBREC1\n" + struct.pack(">III", version, 1, tiles) + HEAD
        entries = [struct.pack(">BbbBhHII", 1, 4, cell % 40, 0, cell // 40, 0, k // 16, k % 16) for k in range(tiles)]
        with open(path + "/record", "wb") as file:
            file.write(front + b"".join(entries))
    with open(where + "/cdb/HEAD", "wb") as file:
        file.write(b"4096\n")


def read_records(where):
    for version in range(1, 4097):
        at = os.open(f"{where}/cdb/V{version:08}/Metadata/record", os.O_RDONLY)
        os.read(at, 1 << 20)
        os.close(at)


def openings():
    where = empty_folder(folder + "/versions")
    write_records(where)
    for _ in range(rounds):
        start = time.monotonic()
        read_records(where)
        put("opening read", time.monotonic() - start)
        start = time.monotonic()
        run = Run(where)
        run.send(b"versions\n")
        run.answer(b"versions 4096\n")
        taken = time.monotonic() - start
        put("opening", taken, run.end()[1])


# Asks for tiles by their paths, so that each line is answered; all lines fit into the pipe.
def ask(name, paths):
    run = Run(folder + "/full")
    run.send(b"open\n")
    run.answer(b"session 1")
    lines = b"".join(b"tile 1 " + os.path.basename(path).encode() + b"\n" for path in paths)
    due = sum(len(f"tile {os.path.getsize(path)}\n") + os.path.getsize(path) for path in paths)
    start = time.monotonic()
    run.send(lines)
    got = drained(run.child.stdout, due)
    taken = time.monotonic() - start
    if got != due:
        sys.exit(f"{got} bytes of tiles, not {due}")
    put(name, taken / len(paths), run.end()[1])


# The files through a pipe, by the system's own program.
def concatenate(name, paths):
    start = time.monotonic()
    child = subprocess.Popen(["cat", *paths], stdout=subprocess.PIPE, bufsize=0)
    drained(child.stdout)
    child.wait()
    put(name, (time.monotonic() - start) / len(paths))


# The files opened, read and closed, with nothing written: into so many blocks in turn. One stays in the
# processor's cache; a program that keeps seven tiles has eight.
def read(name, paths, count):
    blocks = [memoryview(bytearray(TILE_BYTES)) for _ in range(count)]
    start = time.monotonic()
    for k, path in enumerate(paths):
        at = os.open(path, os.O_RDONLY)
        os.readv(at, [blocks[k % count]])
        os.close(at)
    put(name, (time.monotonic() - start) / len(paths))


# As many bytes through a pipe, from memory.
def copy(name, paths):
    length = os.path.getsize(paths[0])
    front, back = os.pipe()
    start = time.monotonic()
    if os.fork() == 0:
        os.close(front)
        block = memoryview(bytes(length))
        for _ in paths:
            at = 0
            while at < length:
                at += os.write(back, block[at:])
        os._exit(0)
    os.close(back)
    with open(front, "rb", buffering=0) as pipe:
        drained(pipe)
    os.wait()
    put(name, (time.monotonic() - start) / len(paths))


def tiles():
    top = folder + "/full/cdb/V00000001/"
    large = [top + path for path, length in listing(folder + "/full", 1) if length == TILE_BYTES][:16]
    small = [top + path for path, length in listing(folder + "/full", 1) if length < 1024 and "Tiles" in path][:16]
    for _ in range(rounds):
        for size, some, times in (("large", large, 20), ("small", small, 60)):
            ask(size + " cold", some * times)
            concatenate(size + " cat", some * times)
            ask(size + " warm", some[:1] * len(some) * times)
            copy(size + " copy", some[:1] * len(some) * times)
            put(size + " more", seconds[size + " cold"][-1] - seconds[size + " warm"][-1])
            read(size + " read", some * times, 1)
            read(size + " read in turn", some * times, 8)


def touched():
    for _ in range(rounds):
        run = Run(empty_folder(memory))
        run.send(b"versions\n")
        run.answer(b"versions")
        start = time.monotonic()
        run.send(MANY)
        run.answer(b"begun 1 12381\n")
        taken = time.monotonic() - start
        put("touched", taken, run.end()[1])


def show(text, name, beside=None):
    if name not in seconds:
        return
    own, other = seconds[name], seconds.get(beside)
    line = f"{text:<58}{min(own) * 1000:10.3f}"
    if other:
        medians = statistics.median(own) / statistics.median(other)
        line += f"{min(other) * 1000:10.3f}{min(own) / min(other):8.2f}{medians:8.2f}"
    print(f"{line:<94}{greatest[name]:8.1f}")


os.makedirs(folder + "/in")
write_source(folder + "/in/n47e011", SIDE)
write_source(folder + "/in/patch", 65)
degree()
tiles()
patches()
openings()
touched()
print(f"least of {rounds} rounds; load of the machine at the end {os.getloadavg()}, {os.cpu_count()} processors")
print(f"{'':<58}{'least, ms':>10}{'beside':>10}{'ratio':>8}{'medians':>8}{'MiB':>8}")
show("a degree published, beside its file calls alone", "degree", "degree floor")
show("a degree published in memory, beside the plain compute", "degree in memory", "compute plain")
show("its compute alone (user time), beside the plain compute", "compute", "compute plain")
show("a check of the degree's store, beside its publication", "check", "degree")
show("a patch, beside its file calls alone", "patch", "patch floor")
show("a patch over 4,000 versions, beside its file calls alone", "deep patch", "patch floor")
show("a patch over 4,000 versions, beside one over the degree", "deep patch", "patch")
show("999,424 entries of 4,096 versions opened, beside reading", "opening", "opening read")
show("a tile of 2 MB read, beside cat", "large cold", "large cat")
show("a tile of 2 MB kept, beside a copy to the pipe", "large warm", "large copy")
show("what it takes more than one kept, beside reading alone", "large more", "large read")
show("the same, beside reading into eight blocks in turn", "large more", "large read in turn")
show("a small tile read, beside cat", "small cold", "small cat")
show("a small tile kept, beside a copy to the pipe", "small warm", "small copy")
show("a publication of 12,381 tiles begun", "touched")
PYTHON
