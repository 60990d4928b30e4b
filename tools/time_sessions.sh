#!/usr/bin/env bash
# Times requests for tiles of 2 MB over a disk in memory: of one that is kept, and of sixteen in turn, each
# of which is read; beside them the copy of as many bytes. The program stands below and is built with `rt`
# in a copy of the repository. Needs `rt`.
set -u
. "$(dirname "$0")/copied.sh" || exit 2

folder=$(mktemp -d)
trap 'rm -rf "$folder"' EXIT

copied "$folder" time_sessions cdb_sessions cdb_chain cdb_names cdb_memfiles cdb_files cdb_grid <<'PROGRAM' || exit
//! Times requests for tiles.
#![tactic(auto)]

use cdb_chain::Chain;
use cdb_files::{Path, folder_above, write_whole};
use cdb_grid::{Arc, Family, Level, Tile, tile_at};
use cdb_memfiles::MemDisk;
use cdb_names::{record_path, write_path};
use cdb_sessions::{Reply, Sessions};
use std::alloc::Global;
use std::io;
use std::rt::Clock;
use std::time::Instant;

/// How many bytes a file of a tile has from level 0 on.
const FILE_BYTES: usize = 2_097_338;

/// The head of a source of one post at N46E007 at level -10.
static HEAD: [u8; 44] = [
    0x01, 0xF6, 0x00, 0x00, 0x00, 0x00, 0x00, 0x01, 0x00, 0x00, 0x00, 0x01, 0x00, 0x05, 0xAF, 0x78,
    0x00, 0x00, 0x00, 0x00, 0x00, 0x00, 0xDD, 0x7C, 0x00, 0x00, 0x00, 0x00, 0x00, 0x00, 0x1F, 0xA4,
    0x00, 0x00, 0x00, 0x00, 0x00, 0x00, 0x1F, 0xA4, 0x00, 0x00, 0x00, 0x00,
];

/// A tile of the south row of N46E007 at level 4, by its column.
fn tile(column: u8) -> Option<Tile> {
    let lon = Arc::of_fraction(112 + i64::from(column), 16)?;
    tile_at(Family::Elev, Level::new(4)?, Arc::of_fraction(46, 1)?, lon)
}

/// Writes a file, in its folder.
fn put(disk: &mut MemDisk, path: &Path, bytes: &[u8]) -> Option<()> {
    write_whole(disk, &folder_above(path), path, bytes).ok()
}

/// Version 1 with sixteen tiles.
fn store(alloc: Global) -> Option<MemDisk> {
    let mut disk = MemDisk::new(alloc, Vec::new(alloc));
    let mut bytes = Vec::new(alloc);
    bytes.extend_from_slice(b"CDBREC1\n").ok()?;
    bytes.extend_from_slice(&[0, 0, 0, 1, 0, 0, 0, 1, 0, 0, 0, 16]).ok()?;
    bytes.extend_from_slice(&HEAD).ok()?;
    for column in 0..16u8 {
        bytes.extend_from_slice(&[1, 4, 46, 0, 0, 7, 0, 0, 0, 0, 0, 0, 0, 0, 0, column]).ok()?;
        let file = vec![in alloc; column; FILE_BYTES].ok()?;
        put(&mut disk, &write_path(1, &tile(column)?), file.as_slice())?;
    }
    put(&mut disk, &record_path(1), bytes.as_slice())?;
    Some(disk)
}

/// A store with its versions, and a session at version 1.
#[derive(Drop)]
struct Served {
    disk: MemDisk,
    chain: Chain,
    sessions: Sessions,
}

/// All of it, made anew.
fn opened(alloc: Global) -> Option<Served> {
    let mut disk = store(alloc)?;
    let chain = Chain::open(alloc, &mut disk, 1).ok()?;
    let mut sessions = Sessions::new(alloc).ok()?;
    sessions.open(1).ok()?;
    Some(Served {
        disk,
        chain,
        sessions,
    })
}

/// Asks for a tile, and gives how many bytes came.
fn ask(served: &mut Served, column: u8) -> Option<u32> {
    let tile = tile(column)?;
    match served.sessions.tile(1, &tile, &served.chain, &mut served.disk) {
        Ok(Reply::Bytes(count)) => Some(count),
        _ => None,
    }
}

/// Asks for tiles in turn, so many times, and gives how many of the answers had the bytes of a file.
fn ask_all(served: &mut Served, columns: u8, times: u32) -> u32 {
    let mut whole = 0u32;
    let mut column = 0u8;
    for _ in 0..times {
        if ask(served, column) == Some(FILE_BYTES as u32) {
            whole = whole.wrapping_add(1);
        }
        column = if column >= columns { 0 } else { column.wrapping_add(1) };
    }
    whole
}

/// Copies bytes to as many.
fn copy(from: &[u8], to: &mut [u8]) {
    if from.len() == to.len() {
        to.copy_from_slice(from);
    }
}

/// Copies them so many times.
fn copy_all(from: &[u8], to: &mut [u8], times: u32) {
    for _ in 0..times {
        copy(from, to);
    }
}

/// So many in a second, where they took this time.
fn rate<C: Clock>(rt: &C, start: &Instant, times: u32) -> io::Result<u128> {
    let nanos = start.elapsed(rt)?.as_nanos();
    Ok(u128::from(times) * 1_000_000_000 / if nanos == 0 { 1 } else { nanos })
}

/// How many tiles a second are given, 0 where one wasn't.
fn rate_of<C: Clock>(rt: &C, served: &mut Served, columns: u8, times: u32) -> io::Result<u128> {
    let start = Instant::now(rt)?;
    let whole = ask_all(served, columns, times);
    let given = rate(rt, &start, times)?;
    Ok(if whole == times { given } else { 0 })
}

/// How many files a second are copied, 0 where the bytes didn't come.
fn rate_of_copies<C: Clock>(rt: &C, alloc: Global, times: u32) -> io::Result<u128> {
    let from = vec![in alloc; 1u8; FILE_BYTES]?;
    let mut to = vec![in alloc; 0u8; FILE_BYTES]?;
    let start = Instant::now(rt)?;
    copy_all(from.as_slice(), to.as_mut_slice(), times);
    let given = rate(rt, &start, times)?;
    Ok(if to.as_slice().last() == Some(&1) { given } else { 0 })
}

fn main(rt: HostRuntime) -> io::Result<()> {
    let Some(mut served) = opened(rt.alloc()) else {
        return println!(rt; "no store");
    };
    let read = rate_of(&rt, &mut served, 15, 2_000)?;
    let kept = rate_of(&rt, &mut served, 0, 1_000_000)?;
    let copied = rate_of_copies(&rt, rt.alloc(), 2_000)?;
    println!(rt; "tiles a second: {kept} kept, {read} read, {copied} copied")
}
PROGRAM
"$folder/time_sessions"
