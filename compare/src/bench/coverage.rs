//! The coverage's rows: one update of lists of several lengths. The Rust has no
//! such calls, so beside each stands its rule in plain Rust.

use super::times::Times;
use super::{in_turn, ratio, timed};
use crate::port::{self, ROOM};
use oracle::random::Random;
use oracle::types::{Asked, Triple};
use oracle::{calls, rules};
use std::hint::black_box;

const SIZE: [u64; 2] = [640, 480];

/// A list with its count and counts, and the size, which the compiler does not
/// know.
struct Held {
    size: [usize; 2],
    list: Box<[f32; ROOM]>,
    count: usize,
    counts: [u16; 65],
}

fn corner(random: &mut Random) -> Triple {
    [640.0 * random.unit(), 480.0 * random.unit(), random.unit()]
}

fn held(count: usize) -> Held {
    let mut random = Random::of(count as u64, "bench");
    let mut list = Box::new([0.0; ROOM]);
    for k in 0..count {
        list[3 * k..3 * k + 3].copy_from_slice(&corner(&mut random));
    }
    let counts = rules::summary(SIZE, &calls::triples(&list[..3 * count]));
    Held {
        size: black_box(SIZE.map(|side| side as usize)),
        list,
        count,
        counts,
    }
}

/// The tile in plain Rust.
fn tile([width, height]: [usize; 2], [x, y]: [f32; 2]) -> usize {
    let [across, down] = [x.floor(), y.floor()];
    let inside = across >= 0.0 && across < width as f32 && down >= 0.0 && down < height as f32;
    match inside {
        true => 8 * (down as usize * 8 / height) + across as usize * 8 / width,
        false => 64,
    }
}

/// The rule in plain Rust.
fn in_plain(h: &mut Held, asked: Asked) -> u32 {
    if h.size.iter().any(|side| !(1..=4096).contains(side)) {
        return 10;
    }
    if h.count > 4096 {
        return 16;
    }
    let size = h.size;
    let at = |list: &[f32; ROOM], k: usize| tile(size, [list[3 * k], list[3 * k + 1]]);
    match asked {
        Asked::Afresh => {
            h.counts = [0; 65];
            for k in 0..h.count {
                h.counts[at(&h.list, k)] += 1;
            }
        }
        Asked::Add([x, y, strength]) => {
            if h.count >= 4096 {
                return 16;
            }
            let n = &mut h.counts[tile(size, [x, y])];
            *n = n.saturating_add(1);
            h.list[3 * h.count..3 * h.count + 3].copy_from_slice(&[x, y, strength]);
            h.count += 1;
        }
        Asked::Replace(k, [x, y, strength]) => {
            let k = k as usize;
            if k >= h.count {
                return 35;
            }
            let n = &mut h.counts[at(&h.list, k)];
            *n = n.saturating_sub(1);
            let n = &mut h.counts[tile(size, [x, y])];
            *n = n.saturating_add(1);
            h.list[3 * k..3 * k + 3].copy_from_slice(&[x, y, strength]);
        }
        Asked::Drop(k) => {
            let k = k as usize;
            if k >= h.count {
                return 35;
            }
            let n = &mut h.counts[at(&h.list, k)];
            *n = n.saturating_sub(1);
            h.list.copy_within(3 * k + 3..3 * h.count, 3 * k);
            h.count -= 1;
            h.list[3 * h.count..3 * h.count + 3].fill(0.0);
        }
    }
    0
}

fn by_port(h: &mut Held, asked: Asked) -> u32 {
    let size = h.size.map(|side| side as u64);
    port::cover(size, asked, &mut h.list, &mut h.count, &mut h.counts)
}

/// So many calls, each on a list of that length again. What is dropped would
/// soon be only freed records, so the last one is a corner before each.
fn calls_of(
    h: &mut Held,
    call: fn(&mut Held, Asked) -> u32,
    asked: &[Asked],
    at_once: usize,
) -> bool {
    let count = h.count;
    let mut well = true;
    for k in 0..at_once {
        if let Asked::Drop(_) = asked[0] {
            let last = &mut h.list[3 * count - 3..3 * count];
            last.copy_from_slice(&[(k * 37 % 640) as f32 + 0.5, (k * 29 % 480) as f32, 1.0]);
        }
        well &= call(black_box(h), asked[k % asked.len()]) == 0;
        h.count = count;
    }
    well
}

/// The times of ours and of plain Rust, and whether they leave the same.
pub fn times(count: usize, asked: &[Asked], at_once: usize) -> (Vec<Times>, bool) {
    let [mut ours, mut theirs] = [held(count), held(count)];
    let mut well = true;
    let mut port_side = || {
        let (time, all) = timed(|| calls_of(&mut ours, by_port, asked, at_once));
        well &= all;
        time
    };
    let mut plain_side = || timed(|| calls_of(&mut theirs, in_plain, asked, at_once)).0;
    let t = in_turn(&mut [&mut port_side, &mut plain_side], 401);
    let bits = |h: &Held| h.list.map(f32::to_bits);
    let same = well && bits(&ours) == bits(&theirs) && ours.counts == theirs.counts;
    (t, same)
}

fn row(name: &str, count: usize, asked: &[Asked], at_once: usize) -> bool {
    let (t, same) = times(count, asked, at_once);
    println!(
        "| {name}, {count} corners, {at_once} calls | {} | {} | {} | {} | {} |",
        t[0].told(),
        t[1].told(),
        ratio(&t[0], &t[1]),
        t[0].each(at_once),
        t[1].each(at_once),
    );
    same
}

pub fn table() -> bool {
    println!("| call | ours | plain Rust | ours / plain | ours, ns a call | the plain one's |");
    println!("|---|---|---|---|---|---|");
    let mut random = Random::of(1, "bench");
    let news: Vec<Triple> = (0..64).map(|_| corner(&mut random)).collect();
    let adds: Vec<Asked> = news.iter().map(|c| Asked::Add(*c)).collect();
    let mut same = true;
    for count in [16, 256, 4095] {
        let last = count as u64 - 1;
        let replace = |c: &Triple| Asked::Replace(random.below(count) as u64, *c);
        let replaces: Vec<Asked> = news.iter().map(replace).collect();
        same &= row("add", count, &adds, 1024);
        same &= row("replace", count, &replaces, 1024);
        same &= row("drop of the last", count, &[Asked::Drop(last)], 1024);
        same &= row("drop of the first", count, &[Asked::Drop(0)], 64);
        same &= row("summary afresh", count, &[Asked::Afresh], 64);
    }
    same
}
