//! The gradient's rows: every cell of a tile at which the ring lies on it. The
//! Rust makes its stencil once for a tile, the port's call once for each cell,
//! so beside it stands the Rust with a stencil for each cell too.

use super::times::Times;
use super::{in_turn, ratio, timed};
use crate::port;
use oracle::plain::Gradients;
use oracle::random::Random;
use oracle::types::paper_ring;
use std::hint::black_box;

const RADIUS: u32 = 5;

/// Calls in one timing, about so many.
const AT_ONCE: usize = 4096;

/// Every cell of a tile at which the ring lies on it.
fn cells_of(side: u32) -> Vec<[u32; 2]> {
    (RADIUS..side - RADIUS)
        .flat_map(|y| (RADIUS..side - RADIUS).map(move |x| [x, y]))
        .collect()
}

/// The times of ours, of the Rust and of the Rust with a stencil a call, of how
/// many calls each, and whether ours answers 0.
pub fn times(side: u32) -> (Vec<Times>, usize, bool) {
    let mut random = Random::of(u64::from(side), "bench");
    let cells = (side * side) as usize;
    let tile: Vec<u8> = (0..cells).map(|_| random.byte()).collect();
    let ring = paper_ring(1);
    let scale = [0.75, -1.5];
    let places = cells_of(side);
    let rounds = AT_ONCE.div_ceil(places.len());
    let mut grid = vec![0.0f32; 2 * cells];
    let mut same = true;
    let mut by_port = || {
        let all = |_| {
            places
                .iter()
                .all(|at| port::gradient(side, black_box(&tile), &ring, *at, scale, &mut grid) == 0)
        };
        let (time, well) = timed(|| (0..rounds).all(all));
        same &= well;
        time
    };
    let mut made = Gradients::of(&ring, side as usize, &tile);
    let mut by_rust = || {
        let all = |_| {
            let one = |at: &[u32; 2]| black_box(&mut made).add(at[0] as i32, at[1] as i32, scale);
            places.iter().for_each(one);
        };
        timed(|| (0..rounds).for_each(all)).0
    };
    let mut anew = Gradients::of(&ring, side as usize, &tile);
    let mut by_rust_anew = || {
        let all = |_| {
            let one =
                |at: &[u32; 2]| black_box(&mut anew).add_anew(at[0] as i32, at[1] as i32, scale);
            places.iter().for_each(one);
        };
        timed(|| (0..rounds).for_each(all)).0
    };
    let t = in_turn(&mut [&mut by_port, &mut by_rust, &mut by_rust_anew], 201);
    (t, rounds * places.len(), same)
}

fn row(side: u32) -> bool {
    let (t, calls, same) = times(side);
    println!(
        "| gradient at {} cells of a tile of {side}, {calls} calls | {} | {} | {} | {} | {} | {} | {} |",
        cells_of(side).len(),
        t[0].told(),
        t[1].told(),
        ratio(&t[0], &t[1]),
        ratio(&t[0], &t[2]),
        t[0].each(calls),
        t[1].each(calls),
        t[2].each(calls),
    );
    same
}

pub fn table() -> bool {
    println!(
        "| call | ours | Rust, its stencil made before | ours / Rust | ours / Rust with a stencil a call | ours, ns a call | the Rust's | with a stencil |"
    );
    println!("|---|---|---|---|---|---|---|---|");
    [11, 21]
        .into_iter()
        .fold(true, |same, side| row(side) & same)
}
