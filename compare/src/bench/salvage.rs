//! The salvage's rows: files of 4,096 records. The Rust has no such call, so
//! beside it stands its rule in a plain loop.

use super::{in_turn, ratio, timed};
use crate::port;
use oracle::calls;
use oracle::random::Random;
use std::hint::black_box;

pub const SIZE: [u64; 2] = [640, 480];
const RECORDS: usize = 4096;

/// Calls in one timing.
const AT_ONCE: usize = 16;

struct Row {
    name: &'static str,
    /// One record in so many lies outside or is not finite; 0 is none.
    bad: usize,
    /// The outputs have room for any counts, or just what goes in.
    roomy: bool,
}

pub fn file(bad: usize) -> Vec<u8> {
    let mut random = Random::of(bad as u64, "bench");
    let mut file = Vec::new();
    for _ in 0..RECORDS {
        let spoilt = bad > 0 && random.once_in(bad);
        let x = match (spoilt, random.once_in(2)) {
            (false, _) => 639.0 * random.unit(),
            (true, true) => f32::NAN,
            (true, false) => 640.0 + random.unit(),
        };
        for number in [x, 479.0 * random.unit(), random.unit()] {
            file.extend(number.to_le_bytes());
        }
    }
    file
}

/// What is wrong with a record, or 0.
fn fault(bytes: &[u8], last: [f32; 2]) -> u16 {
    let number =
        |k: usize| f32::from_le_bytes([bytes[k], bytes[k + 1], bytes[k + 2], bytes[k + 3]]);
    let [x, y, strength] = [number(0), number(4), number(8)];
    if !(x.is_finite() && y.is_finite() && strength.is_finite()) {
        return 2;
    }
    match x >= 0.0 && x <= last[0] && y >= 0.0 && y <= last[1] {
        true => 0,
        false => 3,
    }
}

/// The rule in a plain loop: the records are counted first only where there may be
/// too little room.
pub fn in_a_loop(
    file: &[u8],
    size: [u64; 2],
    out: &mut [u8],
    faults: &mut [u16],
    counts: &mut [usize; 2],
) -> u32 {
    if size.iter().any(|side| !(1..=4096).contains(side)) {
        return 10;
    }
    let last = size.map(|side| (side - 1) as f32);
    let whole = file.len() / 12;
    if whole > 4096 {
        return 16;
    }
    let cut = usize::from(file.len() % 12 > 0);
    if out.len() < 12 * whole || faults.len() < 2 * whole + 2 {
        let good = |bytes: &&[u8]| fault(bytes, last) == 0;
        let kept = file.chunks_exact(12).filter(good).count();
        if out.len() < 12 * kept || faults.len() < 2 * (whole - kept + cut) {
            return 15;
        }
    }
    let [mut kept, mut dropped] = [0, 0];
    for (k, bytes) in file.chunks_exact(12).enumerate() {
        match fault(bytes, last) {
            0 => {
                out[12 * kept..12 * kept + 12].copy_from_slice(bytes);
                kept += 1;
            }
            why => {
                faults[2 * dropped] = k as u16;
                faults[2 * dropped + 1] = why;
                dropped += 1;
            }
        }
    }
    if cut > 0 {
        faults[2 * dropped] = whole as u16;
        faults[2 * dropped + 1] = 1;
        dropped += 1;
    }
    *counts = [kept, dropped];
    0
}

fn row(r: &Row) -> bool {
    let file = file(r.bad);
    let (_, saved) = calls::salvage(&file, SIZE, file.len(), 2 * RECORDS);
    let saved = saved.expect("room for all");
    let [out, faults] = match r.roomy {
        true => [file.len(), 2 * RECORDS + 2],
        false => [saved.kept.len(), 2 * saved.dropped.len()],
    };
    let mut ours = (vec![1u8; out], vec![1u16; faults], [0; 2]);
    let mut theirs = ours.clone();
    let mut by_port = || {
        let (out, faults, counts) = &mut ours;
        let call = |_| port::salvage(black_box(&file), SIZE, out, faults, counts) == 0;
        timed(|| (0..AT_ONCE).all(call)).0
    };
    let mut by_loop = || {
        let (out, faults, counts) = &mut theirs;
        let call = |_| in_a_loop(black_box(&file), black_box(SIZE), out, faults, counts) == 0;
        timed(|| (0..AT_ONCE).all(call)).0
    };
    let t = in_turn(&mut [&mut by_port, &mut by_loop], 401);
    println!(
        "| salvage {RECORDS} records, {}, {AT_ONCE} calls | {} | {} | {} | {} | {} |",
        r.name,
        t[0].told(),
        t[1].told(),
        ratio(&t[0], &t[1]),
        t[0].each(AT_ONCE * RECORDS),
        t[1].each(AT_ONCE * RECORDS),
    );
    ours == theirs
        && ours.0[..saved.kept.len()] == saved.kept
        && ours.1[..2 * saved.dropped.len()] == saved.dropped.concat()
}

pub fn table() -> bool {
    println!(
        "| call | ours | a plain loop in Rust | ours / loop | ours, ns a record | the loop's |"
    );
    println!("|---|---|---|---|---|---|");
    let mut same = true;
    for (name, bad, roomy) in [
        ("all kept, room for any counts", 0, true),
        ("one in 10 dropped, room for any counts", 10, true),
        ("half dropped, room for any counts", 2, true),
        ("all kept, just enough room", 0, false),
        ("one in 10 dropped, just enough room", 10, false),
    ] {
        same &= row(&Row { name, bad, roomy });
    }
    same
}
