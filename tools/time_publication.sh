#!/usr/bin/env bash
# Counts what a publication does to a real folder and times it: a source of an arc second over one degree,
# 161 files. Prints how often it syncs, makes folders, renames, reads and writes, and how many bytes, and
# compares these counts with those that the steps give; then the least time of three runs, and the greatest
# memory.
#
#   time_publication.sh [PROGRAM]
#
# PROGRAM is the path of the built program, which then reads the source from a file and publishes it. With
# none, the program below publishes it by the calls of its crate; it is built with `rt` in a copy of the
# repository. Needs python3 and strace, and `rt` where no program is given.
set -u
. "$(dirname "$0")/built.sh" || exit 2
. "$(dirname "$0")/copied.sh" || exit 2
need python3 strace

folder=$(mktemp -d)
trap 'rm -rf "$folder"' EXIT
program=
[ $# = 0 ] || program=$(realpath "$1")

[ -n "$program" ] ||
    copied "$folder" time_publication cdb_publish cdb_chain cdb_osfiles cdb_files cdb_source cdb_grid <<'PROGRAM' || exit
//! Publishes one source over the folder `cdb`, where no version is.
#![tactic(auto)]

ghost use Rattle.std.specs.Prelude.{◌≡◌, IfSome};

use cdb_chain::Chain;
use cdb_files::{Disk, Path};
use cdb_grid::{Arc, Level};
use cdb_osfiles::OsDisk;
use cdb_publish::{Progress, Publication};
use cdb_source::{Kind, Source, SourceHead, SourceMaker};
use std::alloc::Global;
use std::io;
use std::time::Instant;

/// How many rows and columns the source has.
const SIDE: u32 = 3_601;

/// A source in the making, and how many of its rows are still due.
struct Rows {
    maker: SourceMaker,
    left: u32,
    ghost due: { maker.due ≡ left },
    ghost cols: { maker.head.cols ≡ 3601 },
}

/// Posts of an arc second from 47 degrees north and 11 east on.
fn head() -> Option<SourceHead>
    ensures rows { IfSome result (λ head. head.rows ≡ 3601) }
    ensures cols { IfSome result (λ head. head.cols ≡ 3601) }
{
    let lat = Arc::of_fraction(47, 1)?;
    let lon = Arc::of_fraction(11, 1)?;
    let second = Arc::of_fraction(1, 3_600)?;
    SourceHead::new(Kind::Elevation, Level::new(1)?, lat, lon, second, second, SIDE, SIDE)
}

/// One row more, whose posts go up from a first one.
fn push(rows: Rows, first: i32) -> Option<Rows> {
    let Rows { mut maker, left } = rows;
    if left == 0 {
        return None;
    }
    let mut row = [0i32; 3_601];
    let mut post = first;
    for k in 0..3_601usize {
        row[k] = post;
        post = if post < 1_900 { post.wrapping_add(1) } else { -60 };
    }
    maker.push_row(&row, -32_768).ok()?;
    Some(Rows { maker, left: left - 1 })
}

/// No row yet.
fn begin(alloc: Global, head: SourceHead) -> Option<Rows>
    requires rows { head.rows ≡ 3601 }
    requires cols { head.cols ≡ 3601 }
{
    match SourceMaker::new(alloc, head) {
        Ok(maker) => Some(Rows { maker, left: SIDE }),
        Err(_) => None,
    }
}

fn source(alloc: Global) -> Option<Source> {
    let mut rows = begin(alloc, head()?)?;
    let mut first = 0i32;
    for _ in 0..SIDE {
        rows = push(rows, first)?;
        first = if first < 1_800 { first.wrapping_add(7) } else { 0 };
    }
    let Rows { maker, left } = rows;
    if left == 0 { Some(maker.finish()) } else { None }
}

/// Makes a step where one is left.
fn advance<D: Disk>(publication: &mut Publication, chain: &mut Chain, disk: &mut D) -> Option<Progress> {
    if publication.left() == 0 || publication.version() != chain.newest() + 1 {
        return None;
    }
    chain.reserve(publication.files()).ok()?;
    publication.step(chain, disk).ok()
}

/// Makes all steps, and gives the last answer.
fn publish<D: Disk>(publication: &mut Publication, chain: &mut Chain, disk: &mut D) -> Option<Progress> {
    let mut last = Progress::Going;
    for _ in 0..publication.left() {
        last = advance(publication, chain, disk)?;
    }
    Some(last)
}

fn main(rt: HostRuntime) -> io::Result<()> {
    let Ok(root) = Path::from("cdb") else {
        return println!(rt; "no path");
    };
    let mut disk = OsDisk::new(rt.clone()?, root);
    let Ok(mut chain) = Chain::open(rt.alloc(), &mut disk, 0) else {
        return println!(rt; "no chain");
    };
    let mut sources = Vec::new(rt.alloc());
    match source(rt.alloc()) {
        Some(source) => sources.push(source)?,
        None => return println!(rt; "no source"),
    }
    let start = Instant::now(&rt)?;
    let Ok(mut publication) = Publication::plan(rt.alloc(), &chain, sources, &mut disk) else {
        return println!(rt; "no plan");
    };
    let planned = start.elapsed(&rt)?.as_micros();
    let start = Instant::now(&rt)?;
    let last = publish(&mut publication, &mut chain, &mut disk);
    let made = start.elapsed(&rt)?.as_micros();
    println!(rt; "{} {planned} {made} {last:?}", publication.files())
}
PROGRAM

python3 - "$folder" "$program" <<'PYTHON'
import collections
import os
import re
import resource
import shutil
import struct
import subprocess
import sys
import time

folder, program = sys.argv[1:3]
SCRIPT = b"source elev 1 47 11 1/3600 1/3600 -32768 n47e011.tif\npublish\nstep all\n"
# Nine tiles of elevations at level 1, each from the source; four at level 0, from the nine; four at each
# level from -1 to -10, each from one. A tile of least or greatest elevations reads that of elevations, and
# as many finer ones.
TILES, FINER = 9 + 11 * 4, 9 + 10 * 4
READS = 9 + FINER + 2 * (TILES + FINER)
MOST_READS = 6 * 3 * TILES + 9
# An opening of the store, which the program below doesn't make, syncs its folder once more.
WANTED = {"fsync": 265 if program else 264, "mkdir": 71, "rename": 1, "read": READS,
          "bytes": 116_144_164, "bytes of HEAD": 2}


# A TIFF file of 3,601 rows and columns of 16 bits, in one strip.
def write_source(path):
    side, raster = 3601, 8 + 2 + 8 * 12 + 4
    tags = [(256, 3, side), (257, 3, side), (258, 3, 16), (259, 3, 1), (273, 4, raster), (278, 3, side),
            (279, 4, 2 * side * side), (339, 3, 2)]
    posts = struct.pack("<7000h", *(k % 1961 - 60 for k in range(7000)))
    with open(path, "wb") as file:
        file.write(b"II*\0" + struct.pack("<IH", 8, len(tags)))
        for tag, kind, value in tags:
            file.write(struct.pack("<HHII", tag, kind, 1, value))
        file.write(bytes(4))
        for row in range(side):
            at = 2 * (7 * row % 1961)
            file.write(posts[at:at + 2 * side])


# Publishes into an empty store: what the program writes, and the seconds that it took.
def run(before=()):
    shutil.rmtree(folder + "/cdb", ignore_errors=True)
    words = [program, "--background", "0"] if program else [folder + "/time_publication"]
    start = time.monotonic()
    made = subprocess.run([*before, *words], input=SCRIPT if program else b"", cwd=folder, capture_output=True)
    taken = time.monotonic() - start
    last = b"published 1\n" if program else b"Published(1))\n"
    if made.returncode != 0 or not made.stdout.endswith(last):
        sys.exit(f"status {made.returncode}, {made.stdout[-60:]!r}, {made.stderr[-200:]!r}")
    return made.stdout.split(), taken


# How often each call is made on the store and on the folder above it, and the bytes that are written there.
def count_calls(log):
    counts = collections.Counter()
    for line in open(log, errors="replace"):
        call = re.match(r"\d+ +(\w+)\((.*)\) += (\d+)", line)
        if call is None:
            continue
        name, words, result = re.sub(r"at2?$", "", call[1]), call[2], int(call[3])
        path = re.match(r"\d+<(.*?)>", words)
        if path and "/cdb/" not in path[1] + "/" and path[1] != os.path.realpath(folder):
            continue
        if re.match(r"p?write", name):
            counts["write"] += 1
            counts["bytes of HEAD" if path[1].endswith("/HEAD.tmp") else "bytes"] += result
        elif re.match(r"p?read", name):
            counts["read"] += 1
            counts["bytes read"] += result
        else:
            counts[name] += 1
    return counts


os.makedirs(folder + "/in", exist_ok=True)
if program:
    write_source(folder + "/in/n47e011.tif")
names = "fsync,fdatasync,mkdir,?mkdirat,rename,?renameat,?renameat2,read,pread64,readv,write,pwrite64,writev"
log = folder + "/calls"
run(("strace", "-f", "-y", "-s", "0", "-o", log, "-e", "trace=" + names))
counts = count_calls(log)
for name in sorted(counts):
    print(f"{name:<16}{counts[name]:>14,}")
wrong = {name: counts[name] for name, wanted in WANTED.items() if counts[name] != wanted}
if wrong or counts["read"] > MOST_READS:
    sys.exit(f"wrong: {wrong}, and not {WANTED}; at most {MOST_READS} reads")
runs = [run() for _ in range(3)]
print(f"the whole run: {min(taken for _, taken in runs) * 1000:.0f} ms")
if not program:
    planned, made = (min(int(out[k]) for out, _ in runs) / 1000 for k in (1, 2))
    print(f"planned in {planned:.1f} ms, all steps in {made:.0f} ms")
print(f"greatest memory: {resource.getrusage(resource.RUSAGE_CHILDREN).ru_maxrss / 1024:.1f} MiB")
PYTHON
