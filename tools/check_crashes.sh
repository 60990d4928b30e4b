#!/usr/bin/env bash
# Records the file calls of a publication of the program on real folders, and opens the store over every image
# that a crash may leave at any moment of them, by the file model of docs/FILE_MODEL.md: version 1 before the rename of
# the head, either at it, version 2 after it, each with all of its tiles, and the check of the store agrees. Then each
# sync is taken out of the record in turn: the images must hold faults then, but for a sync of recovery, which is for
# what an earlier run may have left, and one of a folder that is synced once more before the rename. The arguments are
# the program's path and that of a program `crash_images.py`, which records and replays. Needs python3 and strace.
set -u
. "$(dirname "$0")/built.sh" || exit 2
[ $# = 2 ] || { echo "usage: check_crashes.sh PROGRAM CRASH_IMAGES" >&2; exit 2; }
[ -f "$2" ] || { echo "skipped: $2 is missing"; exit 0; }
need python3 strace

folder=$(mktemp -d)
trap 'rm -rf "$folder"' EXIT

python3 - "$(realpath "$1")" "$(realpath "$2")" "$folder" <<'PYTHON'
import concurrent.futures
import os
import re
import shutil
import subprocess
import sys

program, images, folder = sys.argv[1:4]
os.chdir(folder)

FIRST = b"inline elev -9 46 7 1/2 1/2 2 2 30 40 10 20\npublish\nstep all\n"
SECOND = b"""inline elev -9 46 7 1/2 1/2 1 1 600
inline mat -9 47 8 1/2 1/2 2 2 1 2 3 4
publish
step all
"""
CELLS = [("N46E007", "D001_S001_T001"), ("N46E007", "D002_S001_T001"), ("N46E007", "D002_S001_T002"), ("N47E008", "D005_S001_T001")]
NAMES = [f"{cell}_{dataset}_LC{level:02d}_U0_R0.tif" for cell, dataset in CELLS for level in (9, 10)]
ASK = b"versions\nopen\n" + b"".join(f"tile 1 {name}\n".encode() for name in NAMES)

# judges an image: the store opens at a version, answers each tile as it did when it was whole, and agrees
JUDGE = f"""import subprocess, sys
done = subprocess.run([{program!r}, "--background", "0"], input={ASK!r}, capture_output=True)
agrees = subprocess.run([{program!r}, "--mode", "check"], capture_output=True).returncode == 0
for version in (1, 2):
    if agrees and done.returncode == 0 and done.stdout == open({folder!r} + "/answers%d" % version, "rb").read():
        print("version", version)
        sys.exit(0)
print("fault")
sys.exit(1)
"""


def run(script, place="."):
    return subprocess.run([program, "--background", "0"], cwd=place, input=script, capture_output=True, check=True).stdout


def answers(output):
    """What the judge said from moment to moment."""
    return [line.split(": ", 2)[-1] for line in output.strip().split("\n")[:-1]]


def replayed(number, lines):
    """The output of a replay, and how many images have a fault."""
    log = f"log{number}"
    with open(log, "w") as file:
        file.writelines(lines)
    shutil.copyfile("log.cwd", log + ".cwd")
    words = [sys.executable, images, "replay", log, "cdb", f"{folder}/image{number}", "--images", "2", "--before", "before"]
    done = subprocess.run([*words, "--", sys.executable, f"{folder}/judge.py"], capture_output=True, text=True)
    os.remove(log)
    shutil.rmtree(f"image{number}", ignore_errors=True)
    last = done.stdout.strip().split("\n")[-1]
    found = re.fullmatch(r"crash_images: (\d+) moments, (\d+) different images, (\d+) with a code other than 0", last)
    if not found:
        sys.exit("no end of a replay: " + done.stdout[-400:] + done.stderr[-400:])
    return done.stdout, int(found[3])


open("judge.py", "w").write(JUDGE)
os.makedirs("cdb")
os.makedirs("in")
run(FIRST)
shutil.copytree("cdb", "before")
open("answers1", "wb").write(run(ASK))
open("second", "wb").write(SECOND)
subprocess.run([sys.executable, images, "record", "log", "--", "sh", "-c", f"'{program}' --background 0 <second"], check=True, stdout=subprocess.DEVNULL)
open("answers2", "wb").write(run(ASK))

lines = open("log").readlines()
output, faults = replayed("-whole", lines)
print(output.strip())
wrong = faults != 0 or answers(output) != ["version 1", "version 1  OR  0: version 2", "version 2"]

# the syncs, by what they sync: the folders of the process, followed through its opens
syncs, open_paths = [], {}
for number, line in enumerate(lines):
    opened = re.search(r'open(?:at)?\((?:[^"]*)"((?:\\x[0-9a-f]{2})*)".*\) += (\d+)', line)
    if opened:
        open_paths[opened[2]] = bytes.fromhex(opened[1].replace("\\x", "")).decode()
    synced = re.search(r"fsync\((\d+)\) += 0", line)
    if synced:
        syncs.append((number, open_paths.get(synced[1], "?")))

with concurrent.futures.ThreadPoolExecutor(3) as pool:
    found = list(pool.map(lambda sync: replayed(sync[0], lines[: sync[0]] + lines[sync[0] + 1 :]), syncs))
begun = next(number for number, line in enumerate(lines) if "mkdir" in line and line.rstrip().endswith("= 0"))
renamed = next(number for number, line in enumerate(lines) if "rename(" in line)
for k, ((number, path), (output, faults)) in enumerate(zip(syncs, found)):
    again = number < renamed and any(other == path and later < renamed for later, other in syncs[k + 1 :])
    # without the last sync version 1 may come back after version 2 was acknowledged
    lost = answers(output)[-1] != "version 2"
    why = "recovery" if number < begun else "synced again" if again else ""
    print(f"without the sync of {path}: {faults} images with a fault{', an acknowledged version lost' if lost else ''}{f' ({why})' if why else ''}")
    wrong = wrong or not (faults or lost or why)
print("0 failures" if not wrong else "FAILED")
sys.exit(1 if wrong else 0)
PYTHON
