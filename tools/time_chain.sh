#!/usr/bin/env bash
# Times the opening of chains of 4,096 records with up to 1,000,000 tile entries, beside the reading of the
# records alone and a sort of their entries alone, look-ups of all of them, and the adding of the last
# record; and compares the greatest memory of the chain with that of its records alone. Each version has
# its own geocell, or all have the same tiles, so that the entries of all versions lie between one another.
# The program stands below and is built with `rt` in a copy of the repository; the records are files of a
# folder. Needs `rt`, and python3, which writes the files.
set -u
. "$(dirname "$0")/copied.sh" || exit 2
command -v python3 >/dev/null || { echo "skipped: python3 is missing"; exit 0; }

folder=$(mktemp -d)
trap 'rm -rf "$folder"' EXIT

copied "$folder" time_chain cdb_chain cdb_manifest cdb_names cdb_osfiles cdb_files arrayvec <<'PROGRAM' || exit
//! Times a chain over the folder `cdb`. Where the standard input isn't empty it times the reading of its
//! records alone, and where that is `s` a sort of their entries too.
#![tactic(auto)]

ghost use Rattle.std.specs.Prelude.{◌≤◌};

use cdb_chain::{Chain, Place};
use cdb_files::{Disk, Path};
use cdb_manifest::{Record, decode};
use cdb_names::record_path;
use cdb_osfiles::OsDisk;
use std::alloc::Global;
use std::io::{self, Read};
use std::time::Instant;

/// The record of a version.
fn read<D: Disk>(alloc: Global, disk: &mut D, version: u32) -> Option<Record>
    requires from_one { 1 ≤ version }
    requires to_last { version ≤ 4096 }
{
    let path = record_path(version);
    let size = disk.size(&path).ok()??;
    if size > 264_980 {
        return None;
    }
    let mut bytes = vec![in alloc; 0u8; size as usize].ok()?;
    disk.read_at(&path, 0, bytes.as_mut_slice()).ok()?;
    decode(alloc, bytes.as_slice()).ok()
}

/// All records.
fn read_all<D: Disk>(alloc: Global, disk: &mut D) -> Option<Vec<Record>> {
    let mut records = Vec::new(alloc);
    for version in 1..4_097u32 {
        let item = read(alloc, disk, version)?;
        records.push(item).ok()?;
    }
    Some(records)
}

/// The entries of all records, in the order of their versions.
fn places_of(alloc: Global, records: &[Record]) -> Option<Vec<Place>> {
    let mut places = Vec::new(alloc);
    for item in records {
        for tile in item.tiles.as_slice() {
            let place = Place {
                tile: *tile,
                version: item.version,
            };
            places.push(place).ok()?;
        }
    }
    Some(places)
}

/// Looks all tiles of all records up, and gives how many were found.
fn find_all(chain: &Chain) -> u64 {
    let mut found = 0u64;
    for version in 1..4_097u32 {
        let Some(item) = chain.record_at(version) else {
            return found;
        };
        for tile in item.tiles.as_slice() {
            if chain.find(4_096, tile).is_some() {
                found = found.wrapping_add(1);
            }
        }
    }
    found
}

/// Adds the last record.
fn add_last(alloc: Global, chain: &mut Chain, item: Record) -> bool {
    let count = item.tiles.as_slice().len() as u32;
    if chain.newest() != 4_095 || item.version != 4_096 || chain.reserve(count).is_err() {
        return false;
    }
    chain.add(item);
    true
}

fn main(rt: HostRuntime) -> io::Result<()> {
    let mut input = Vec::new(rt.alloc());
    rt.stdin().take(1).read_to_end(&mut input)?;
    let Ok(root) = Path::from("cdb") else {
        return println!(rt; "no path");
    };
    let mut disk = OsDisk::new(rt.clone()?, root);
    if input.len() > 0 {
        let start = Instant::now(&rt)?;
        let Some(records) = read_all(rt.alloc(), &mut disk) else {
            return println!(rt; "no records");
        };
        let reading = start.elapsed(&rt)?.as_micros();
        if input.as_slice().first() != Some(&b's') {
            return println!(rt; "{reading}");
        }
        let Some(mut places) = places_of(rt.alloc(), records.as_slice()) else {
            return println!(rt; "no memory");
        };
        let start = Instant::now(&rt)?;
        places.sort_unstable();
        let sorting = start.elapsed(&rt)?.as_micros();
        return println!(rt; "{sorting}");
    }
    let start = Instant::now(&rt)?;
    let Ok(mut chain) = Chain::open(rt.alloc(), &mut disk, 4_095) else {
        return println!(rt; "no chain");
    };
    let opened = start.elapsed(&rt)?.as_micros();
    let Some(last) = read(rt.alloc(), &mut disk, 4_096) else {
        return println!(rt; "no record");
    };
    let start = Instant::now(&rt)?;
    let added = add_last(rt.alloc(), &mut chain, last);
    let adding = start.elapsed(&rt)?.as_micros();
    let start = Instant::now(&rt)?;
    let found = find_all(&chain);
    let looked = start.elapsed(&rt)?.as_nanos();
    println!(rt; "{} {} {opened} {added} {adding} {found} {looked}", chain.newest(), chain.entries())
}
PROGRAM

python3 - "$folder" <<'PYTHON'
import os
import struct
import subprocess
import sys

folder = sys.argv[1]
HEAD = bytes.fromhex("01F60000000000010000000100 05AF7800000000 0000DD7C00000000 00001FA400000000 00001FA400000000".replace(" ", ""))


# 4,096 records of so many tiles of elevations at level 4, each of one of 4,000 geocells, or all of one
def write(tiles, cells):
    for version in range(1, 4097):
        path = f"{folder}/cdb/V{version:08}/Metadata"
        os.makedirs(path, exist_ok=True)
        cell = version % cells
        front = b"CDBREC1\n" + struct.pack(">III", version, 1, tiles) + HEAD
        entries = b"".join(struct.pack(">BbbBhHII", 1, 4, cell % 40, 0, cell // 40, 0, k // 16, k % 16) for k in range(tiles))
        with open(path + "/record", "wb") as file:
            file.write(front + entries)


# what the program writes, and the greatest memory of it in bytes
def run(given):
    child = subprocess.Popen([folder + "/time_chain"], cwd=folder, stdin=subprocess.PIPE, stdout=subprocess.PIPE)
    out = child.stdout
    child.stdin.write(given)
    child.stdin.close()
    text = out.read().decode()
    _, status, usage = os.wait4(child.pid, 0)
    if status != 0:
        sys.exit(f"the program ended with {status}")
    return text.split(), usage.ru_maxrss * 1024


def compare(tiles, cells, first):
    write(tiles, cells)
    run(b"")
    (newest, entries, opened, added, adding, found, looked), most = run(b"")
    (reading,), records = run(b"r")
    (sorting,), _ = run(b"s")
    entries, opened, adding, looked, reading, sorting = map(int, (entries, opened, adding, looked, reading, sorting))
    if (newest, added, int(found)) != ("4096", "true", entries):
        sys.exit(f"not all tiles were found: {newest} {added} {found}")
    first = first or (entries, opened)
    print(
        f"{entries} entries of {cells} geocells: opened in {opened / 1000:.1f} ms"
        f" ({opened / first[1]:.2f} times as long for {entries / first[0]:.2f} times as many;"
        f" {opened / (reading + sorting):.2f} times the {reading / 1000:.1f} ms of reading the records"
        f" and the {sorting / 1000:.1f} ms of a sort),"
        f" a record added in {adding / 1000:.1f} ms, a look-up in {looked / entries:.0f} ns,"
        f" {(most - records) / entries:.1f} bytes an entry beside the records",
        flush=True,
    )
    return first


for cells in (4000, 1):
    first = None
    for tiles in (61, 122, 244):
        first = compare(tiles, cells, first)
PYTHON
