// The same work as main.txt beside this file in plain Rust, with the functions of the yardstick whose
// path CUT_RS gives at compile time, and plain loops where it has none. A line for each: its name, the
// least time of some rounds in nanoseconds, and a sum over what was made.
#[allow(dead_code)]
mod cut {
    include!(env!("CUT_RS"));

    pub struct Posts(Source);

    pub fn source(posts: Vec<i16>) -> Posts {
        Posts(Source { lat: 47 * DEG, lon: 11 * DEG, posts })
    }

    pub fn paint(source: &Posts, level: i32, frame: &mut [i16]) {
        let tile = Tile { lat: 47, lon: 11, level, up: 0, right: 0 };
        cut_row(&source.0, &tile, frame, true)
    }

    pub fn fold_elevation(child: &[i16], side: usize, row: usize, col: usize, frame: &mut [i16]) {
        fold_elev(child, side, row, col, frame, side)
    }

    pub fn fold_extreme(child: &[i16], side: usize, row: usize, col: usize, frame: &mut [i16], low: bool) {
        fold_ends(child, side, row, col, frame, side, low)
    }

    pub fn put(frame: &[i16], side: usize, out: &mut Vec<u8>) {
        encode(frame, side, out)
    }

    pub fn head_of(side: usize) -> Vec<u8> {
        head(side)
    }
}

use std::time::Instant;

const NONE: i16 = -32768;
const COUNT: usize = 3601;
const SIDE: usize = 1024;
const DEGREE: u64 = 2025 << 34;
const ROUNDS: u32 = 5;

fn number(material: bool, row: u32, col: u32) -> i16 {
    let noise = row
        .wrapping_mul(2654435761)
        .wrapping_add(col.wrapping_mul(2246822519))
        .wrapping_mul(3266489917)
        >> 24;
    let hole = (row / 64).wrapping_mul(31).wrapping_add((col / 64).wrapping_mul(17)) % 101 == 0;
    match (material, hole) {
        (false, true) => NONE,
        (false, false) => ((row / 4 % 1024 + col / 3 % 2048 + noise) % 4096) as i16 - 300,
        (true, true) => 0,
        (true, false) => ((row / 16 + col / 16 + noise / 200) % 255) as i16 + 1,
    }
}

fn posts(material: bool) -> Vec<i16> {
    let count = COUNT as u32;
    (0..count).flat_map(|row| (0..count).map(move |col| number(material, row, col))).collect()
}

fn sum_of(numbers: impl Iterator<Item = u64>) -> u64 {
    numbers.fold(0, |sum, n| (sum ^ n).wrapping_mul(0x100000001b3))
}

fn sum(frame: &[i16]) -> u64 {
    sum_of(frame.iter().map(|n| *n as u16 as u64))
}

fn time<T>(name: &str, state: &mut T, clear: impl Fn(&mut T), work: impl Fn(&mut T), sum: impl Fn(&T) -> u64) {
    let mut best = u64::MAX;
    for _ in 0..ROUNDS {
        clear(state);
        let start = Instant::now();
        work(state);
        best = best.min(start.elapsed().as_nanos() as u64);
    }
    println!("{name} {best} {}", sum(state));
}

/// The mean of four posts in 128 bits, for steps without a common divisor: the way of the row loop of
/// the yardstick, with its places worked out once a row and once a column.
fn paint_wide(posts: &[i16], step: u64, frame: &mut [i16]) {
    let stride = DEGREE / 2048;
    let spots: Vec<(usize, u64)> =
        (0..SIDE as u64).map(|k| ((k * stride / step) as usize, k * stride % step)).collect();
    let d = step as u128 * step as u128;
    for (row, y) in spots.iter().enumerate() {
        let low = &posts[y.0 * COUNT..(y.0 + 1) * COUNT];
        let high = if y.1 == 0 { low } else { &posts[(y.0 + 1) * COUNT..(y.0 + 2) * COUNT] };
        for (x, o) in spots.iter().zip(&mut frame[row * SIDE..(row + 1) * SIDE]) {
            if *o != NONE {
                continue;
            }
            let right = x.0 + (x.1 != 0) as usize;
            let (p, q, u, v) = (low[x.0], low[right], high[x.0], high[right]);
            if p == NONE || q == NONE || u == NONE || v == NONE {
                continue;
            }
            let lower = (step - x.1) as i128 * p as i128 + x.1 as i128 * q as i128;
            let upper = (step - x.1) as i128 * u as i128 + x.1 as i128 * v as i128;
            let n = 2 * ((step - y.1) as i128 * lower + y.1 as i128 * upper) + d as i128;
            *o = n.div_euclid(2 * d as i128) as i16;
        }
    }
}

fn paint_cells(posts: &[i16], frame: &mut [i16]) {
    let (stride, step) = (DEGREE / 2048, DEGREE / 3600);
    let spots: Vec<usize> = (0..SIDE as u64).map(|k| ((k * stride + stride / 2) / step) as usize).collect();
    for (row, y) in spots.iter().enumerate() {
        let cells = &posts[y * COUNT..(y + 1) * COUNT];
        for (x, o) in spots.iter().zip(&mut frame[row * SIDE..(row + 1) * SIDE]) {
            if *o == 0 {
                *o = cells[*x];
            }
        }
    }
}

/// The most frequent of four materials, and of equally frequent ones the least; 0 is none.
fn mode(four: [i16; 4]) -> i16 {
    let mut best = (0, 0);
    for v in four {
        if v != 0 {
            let count = four.iter().filter(|w| **w == v).count();
            if count > best.0 || (count == best.0 && v < best.1) {
                best = (count, v);
            }
        }
    }
    best.1
}

fn fold_material(child: &[i16], row: usize, col: usize, frame: &mut [i16]) {
    for r in 0..SIDE / 2 {
        let (a, b) = (&child[2 * r * SIDE..(2 * r + 1) * SIDE], &child[(2 * r + 1) * SIDE..(2 * r + 2) * SIDE]);
        let at = (row + r) * SIDE + col;
        for (c, o) in frame[at..at + SIDE / 2].iter_mut().enumerate() {
            let v = mode([a[2 * c], a[2 * c + 1], b[2 * c], b[2 * c + 1]]);
            if v != 0 {
                *o = v;
            }
        }
    }
}

fn four_times(mut fold: impl FnMut(usize, usize)) {
    for (row, col) in [(0, 0), (0, 1), (1, 0), (1, 1)] {
        fold(row * SIDE / 2, col * SIDE / 2);
    }
}

fn read_16(bytes: &[u8], frame: &mut [i16]) {
    for r in 0..SIDE {
        for c in 0..SIDE {
            let i = 186 + ((SIDE - 1 - r) * SIDE + c) * 2;
            frame[r * SIDE + c] = i16::from_le_bytes([bytes[i], bytes[i + 1]]);
        }
    }
}

fn read_8(bytes: &[u8], frame: &mut [i16]) {
    for r in 0..SIDE {
        for c in 0..SIDE {
            frame[r * SIDE + c] = bytes[186 + (SIDE - 1 - r) * SIDE + c] as i16;
        }
    }
}

fn put_8(frame: &[i16], out: &mut Vec<u8>) {
    // of the head the length alone is compared
    out.clear();
    out.extend(cut::head_of(SIDE));
    for r in (0..SIDE).rev() {
        for v in &frame[r * SIDE..(r + 1) * SIDE] {
            out.push(*v as u8);
        }
    }
}

fn main() {
    let second = cut::source(posts(false));
    let odd = posts(false);
    let cells = posts(true);
    let mut elevations = vec![NONE; SIDE * SIDE];
    let mut materials = vec![0i16; SIDE * SIDE];
    let frame_sum = |f: &Vec<i16>| sum(f);
    let no_elevation = |f: &mut Vec<i16>| f.fill(NONE);
    let no_material = |f: &mut Vec<i16>| f.fill(0);
    time("paint_level_1", &mut elevations, no_elevation, |f| cut::paint(&second, 1, f), frame_sum);
    time("paint_level_0", &mut elevations, no_elevation, |f| cut::paint(&second, 0, f), frame_sum);
    time("paint_no_divisor", &mut elevations, no_elevation, |f| paint_wide(&odd, 9663676417, f), frame_sum);
    time("paint_material", &mut materials, no_material, |f| paint_cells(&cells, f), frame_sum);
    time("paint_level_1", &mut elevations, no_elevation, |f| cut::paint(&second, 1, f), frame_sum);

    let mut frame = vec![0i16; SIDE * SIDE];
    let child = &elevations;
    time("fold_elevation", &mut frame, no_elevation,
        |f| four_times(|r, c| cut::fold_elevation(child, SIDE, r, c, f)), frame_sum);
    time("fold_least", &mut frame, no_elevation,
        |f| four_times(|r, c| cut::fold_extreme(child, SIDE, r, c, f, true)), frame_sum);
    time("fold_greatest", &mut frame, no_elevation,
        |f| four_times(|r, c| cut::fold_extreme(child, SIDE, r, c, f, false)), frame_sum);
    let child = &materials;
    time("fold_material", &mut frame, no_material, |f| four_times(|r, c| fold_material(child, r, c, f)), frame_sum);

    let mut bytes = Vec::with_capacity(2 << 20);
    let bytes_sum = |b: &Vec<u8>| sum_of(b[186..].iter().map(|n| *n as u64));
    time("put_16", &mut bytes, |_| (), |b| cut::put(&elevations, SIDE, b), bytes_sum);
    time("posts_of_16", &mut frame, |_| (), |f| read_16(&bytes, f), frame_sum);
    time("put_8", &mut bytes, |_| (), |b| put_8(&materials, b), bytes_sum);
    time("posts_of_8", &mut frame, |_| (), |f| read_8(&bytes, f), frame_sum);
}
