#!/usr/bin/env bash
# Runs the program over a script of ten thousand lines made from a seed (random bytes, lines that are half
# right, right ones, no `quit`) and counts its answers; then times a publication of many tiles against
# publications of few, and the tiles of a level, each over a new store. Needs `rt`, which builds the program
# crates/cdb_cli, and python3. The seed is the first argument, or 1.
set -u
. "$(dirname "$0")/built.sh" || exit 2
need python3

folder=$(mktemp -d)
trap 'rm -rf "$folder"' EXIT

program=$(built cdb_cli "$folder") || exit

python3 - "$program" "$folder" "${1:-1}" <<'PYTHON'
import os
import random
import shutil
import subprocess
import sys
import time

program, folder, seed = sys.argv[1], sys.argv[2], int(sys.argv[3])
random.seed(seed)

NAMES = [
    b"N46E007_D001_S001_T001_LC10_U0_R0.tif", b"N46E007_D001_S001_T001_LC09_U0_R0.tif",
    b"N46E007_D002_S001_T001_LC10_U0_R0.tif", b"N46E007_D002_S001_T002_LC10_U0_R0.tif",
    b"N50E006_D001_S001_T001_LC10_U0_R0.tif", b"N46E007_D005_S001_T001_LC10_U0_R0.tif",
    b"N46E007_D001_S001_T001_LC11_U0_R0.tif", b"N50E007_D001_S001_T001_LC10_U0_R0.tif",
]


def number():
    return random.choice([b"0", b"1", b"-1", b"46", b"7", b"007", b"1/2", b"1/7", b"1/0", b"-32768", b"32768", b"999999999"])


def right():
    level = random.randint(-10, -6)
    step = b"1/%d" % 2 ** (level + 10)
    rows, cols = random.randint(1, 4), random.randint(1, 4)
    posts = b" ".join(b"%d" % random.randint(-500, 4000) for _ in range(rows * cols))
    return random.choice([
        b"inline elev %d %d %d %s %s %d %d %s" % (level, random.randint(-60, 60), random.randint(-100, 100), step, step, rows, cols, posts),
        b"publish", b"step all", b"open", b"versions", b"close %d" % random.randint(1, 80),
        b"tile %d %s" % (random.randint(1, 80), random.choice(NAMES)), b"",
    ])


def half_right():
    words = right().split(b" ")
    at = random.randrange(len(words))
    words[at] = random.choice([b"", number(), words[at] + b"x", words[at][:-1]])
    return b" ".join(words)


def noise():
    length = random.choice([1, 5, 40, 4096, 4097])
    return bytes(random.choice([c for c in range(256) if c != 10]) for _ in range(length))


def line():
    made = random.choice([right, right, right, half_right, noise])()
    return b"quit " if made == b"quit" else made


def new_store():
    store = os.path.join(folder, "store")
    shutil.rmtree(store, ignore_errors=True)
    os.makedirs(store + "/in")
    return store


def run(script):
    return subprocess.run([program, "--background", "0"], input=script, cwd=new_store(), capture_output=True)


lines = [line() for _ in range(10_000)]
made = run(b"\n".join(lines) + b"\n")
answers, at, out = 0, 0, made.stdout
while at < len(out):
    end = out.index(b"\n", at)
    words = out[at:end].split(b" ")
    at = end + 1 + (int(words[1]) if words[0] == b"tile" else 0)
    answers += 1
wanted = sum(1 for line in lines if line)
print(f"seed {seed}: status {made.returncode}, {answers} answers to {wanted} lines that aren't blank")
if made.returncode != 0 or answers != wanted:
    sys.exit(1)


def seconds(script):
    begin = time.time()
    if run(script).returncode != 0:
        sys.exit(1)
    return time.time() - begin


def least(script):
    return min(seconds(script) for _ in range(3))


publish = b"publish\nstep all\n"
posts = b" ".join(b"%d" % k for k in range(64))
many = b"inline elev -10 -14 -14 4 4 8 8 %s\n" % posts + publish
few = b"inline elev -10 46 7 1 1 1 1 5\n" + publish
empty = least(b"")
a, b = (least(many) - empty) / 2523, (least(few * 100) - empty) / (100 * 3)
print(f"a publication of 2,523 tiles: {a * 1e6:.0f} microseconds a tile; of 3 tiles: {b * 1e6:.0f}; ratio {a / b:.2f}")

level0 = b"inline elev 0 46 7 1/1024 1/1024 8 8 %s\npublish\nstep all\nopen\n" % posts
tile = least(level0 + b"tile 1 N46E007_D001_S001_T001_L00_U0_R0.tif\n") - least(level0)
print(f"a tile of level 0 over one source of 64 posts: {tile:.3f} seconds")

finest = b"inline elev 23 403726925823/8589934592 68719476735/8589934592 1 1 1 1 7\npublish\nstep all\nopen\n"
for name in (b"N46E007_D001_S001_T001_LC10_U0_R0.tif", b"N46E007_D001_S001_T001_L23_U8388607_R8388607.tif"):
    tile = least(finest + b"tile 1 " + name + b"\n") - least(finest)
    print(f"{name.decode()} over one post at level 23: {tile:.3f} seconds")
PYTHON
