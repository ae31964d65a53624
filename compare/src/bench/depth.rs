//! Words beside bytes: the same samples in both, in turn. The look for a sample
//! above 4095 is timed by a call that is refused with 11 straight after it.

use super::refine::{settings, Board, LISTS, SEEDS};
use super::times::Times;
use super::{in_turn, ratio, timed};
use crate::port;
use oracle::calls;
use oracle::random::Random;
use oracle::types::{paper_ring, Region};

/// The words of the samples of bytes.
pub fn words(bytes: &[u8]) -> Vec<u16> {
    bytes.iter().map(|b| u16::from(*b)).collect()
}

fn row(name: &str, t: &[Times]) {
    let part = |k: usize, of_100: usize| t[k].part(of_100);
    let less = |of_100: usize| (part(1, of_100) - part(2, of_100)) / part(0, of_100);
    println!(
        "| {name} | {} | {} | {} | {} | {:.2} ({:.2}) |",
        t[0].told(),
        t[1].told(),
        ratio(&t[1], &t[0]),
        t[2].told(),
        less(50),
        less(0),
    );
}

fn response(board: &Board, radius: usize) -> bool {
    let bytes = board.lent();
    let samples = words(bytes.bytes);
    let deep = port::Image {
        words: Some(&samples),
        ..bytes
    };
    let flat = port::flat(&paper_ring(radius as i32 / 5));
    let [w, h] = [bytes.width as u64, bytes.height as u64];
    let region = Region {
        x0: 0,
        y0: 0,
        x1: w,
        y1: h,
    };
    let mut one = vec![1.0f32; (w * h) as usize];
    let mut two = one.clone();
    let mut none = [0.0f32; 0];
    let mut by_bytes =
        || timed(|| port::response(bytes, &flat, radius, region, &mut one, &mut [0; 2])).0;
    let mut by_words =
        || timed(|| port::response(deep, &flat, radius, region, &mut two, &mut [0; 2])).0;
    let mut look = || timed(|| port::response(deep, &flat, 0, region, &mut none, &mut [0; 2])).0;
    let t = in_turn(&mut [&mut by_bytes, &mut by_words, &mut look], 201);
    row(&format!("response {w}x{h}, ring {radius}"), &t);
    calls::same_floats(&one, &two)
}

fn list(board: &Board, radius: i32) -> bool {
    let mut random = Random::of(3, "depth");
    let (_, lent, _) = settings(radius);
    let floats: Vec<Vec<f32>> = (0..LISTS)
        .map(|_| board.seeds(&mut random, true).concat())
        .collect();
    let bytes = board.lent();
    let samples = words(bytes.bytes);
    let deep = port::Image {
        words: Some(&samples),
        ..bytes
    };
    let refused = port::Settings { radius: 8, ..lent };
    let mut outs = [vec![1.0f32; 3 * SEEDS], vec![1.0f32; 3 * SEEDS]];
    let [one, two] = &mut outs;
    let call = |image, s, out: &mut [f32], turn: &mut usize| {
        *turn += 1;
        let seeds = &floats[*turn % LISTS];
        timed(|| port::refine_list(image, s, seeds, out, &mut 0)).0
    };
    let [mut a, mut b, mut c] = [0; 3];
    let mut by_bytes = || call(bytes, lent, one, &mut a);
    let mut by_words = || call(deep, lent, two, &mut b);
    let mut look = || call(deep, refused, &mut [], &mut c);
    let t = in_turn(&mut [&mut by_bytes, &mut by_words, &mut look], 10 * LISTS);
    row(
        &format!("list near corners, radius {radius}: {SEEDS} seeds"),
        &t,
    );
    calls::same_floats(&outs[0], &outs[1])
}

pub fn table() -> bool {
    println!(
        "| call | bytes | words | words / bytes | the look for 26 | words without it / bytes |"
    );
    println!("|---|---|---|---|---|---|");
    let board = Board::new();
    response(&board, 5) & response(&board, 10) & list(&board, 2) & list(&board, 7)
}
