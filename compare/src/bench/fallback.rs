//! A list with a second try beside our single pass and the Rust's own call.

use super::refine::{settings, Board, LISTS, SEEDS};
use super::{in_turn, of_rust, ratio, timed};
use crate::port::{self, Retried};
use oracle::calls;
use oracle::plain::original as rust;
use oracle::random::Random;
use oracle::types::{Settings, Triple};

/// Seeds near corners that a pass accepts, and seeds anywhere that it refuses,
/// so many of the second for each of the first.
fn seeds(board: &Board, random: &mut Random, s: &Settings, refused: usize) -> Vec<Triple> {
    let accepts = |c: &Triple| {
        calls::refine_kept(board.view(), s, [c[0], c[1]], false)
            .0
            .status
            == 0
    };
    let mut draw = |near: bool| loop {
        let mut all = board.seeds(random, near).into_iter();
        if let Some(seed) = all.find(|c| accepts(c) == near) {
            return seed;
        }
    };
    let (few, many): (Vec<Triple>, Vec<Triple>) = (
        (0..64).map(|_| draw(true)).collect(),
        (0..64).map(|_| draw(false)).collect(),
    );
    let turn = 1 + refused;
    let pick = |k: usize| match k % turn {
        0 => few[k / turn % few.len()],
        _ => many[k % many.len()],
    };
    (0..SEEDS).map(pick).collect()
}

fn row(board: &Board, name: &str, refused: usize, radii: [i32; 2]) -> bool {
    let mut random = Random::of(5, name);
    let [(s, one, first), (t, two, second)] = radii.map(settings);
    let lists: Vec<Vec<Triple>> = (0..LISTS)
        .map(|_| seeds(board, &mut random, &s, refused))
        .collect();
    let floats: Vec<Vec<f32>> = lists.iter().map(|list| list.concat()).collect();
    let accepts = |c: &&Triple| {
        calls::refine_kept(board.view(), &s, [c[0], c[1]], false)
            .0
            .status
            == 0
    };
    let left: Vec<Vec<f32>> = lists
        .iter()
        .map(|list| {
            list.iter()
                .filter(|c| !accepts(c))
                .copied()
                .collect::<Vec<_>>()
                .concat()
        })
        .collect();
    let rust_lists: Vec<_> = lists.iter().map(|list| of_rust(list)).collect();
    let (mut out, mut passes, mut count) = (vec![1.0f32; 3 * SEEDS], vec![0u8; SEEDS], 0);
    let (mut other, mut others) = (vec![1.0f32; 3 * SEEDS], 0);
    let mut call = |k: usize| {
        let to = Retried {
            out: &mut out,
            passes: &mut passes,
            count: &mut count,
        };
        timed(|| port::fallback(board.lent(), [one, two], &floats[k], to)).0
    };
    let (mut turn, mut single_turn, mut rust_turn) = (0, 0, 0);
    let mut by_port = || {
        turn += 1;
        call(turn % LISTS)
    };
    // The single pass over all, and the second's over those that it refuses.
    let mut by_both = || {
        single_turn += 1;
        let k = single_turn % LISTS;
        let all =
            timed(|| port::refine_list(board.lent(), one, &floats[k], &mut other, &mut others)).0;
        match left[k].is_empty() {
            true => all,
            false => {
                all + timed(|| {
                    port::refine_list(board.lent(), two, &left[k], &mut other, &mut others)
                })
                .0
            }
        }
    };
    let mut by_rust = || {
        rust_turn += 1;
        let list = rust_lists[rust_turn % LISTS].clone();
        timed(|| {
            let mut refiner = rust::SaddlePointRefiner::new(first);
            let mut fallback = rust::SaddlePointRefiner::new(second);
            rust::refine_corners_on_image_with_fallback(
                list,
                Some(board.rust()),
                None,
                &mut refiner,
                &mut fallback,
            )
        })
        .0
    };
    let times = in_turn(&mut [&mut by_port, &mut by_both, &mut by_rust], 20 * LISTS);
    call(0);
    println!(
        "| {name}, radius {} then {}: {SEEDS} to {count}, {} by the second | {} | {} | {} | {} | {} |",
        radii[0],
        radii[1],
        passes[..count].iter().filter(|pass| **pass == 2).count(),
        times[0].told(),
        times[1].told(),
        ratio(&times[0], &times[1]),
        times[2].told(),
        ratio(&times[0], &times[2]),
    );
    let (_, want, gave) =
        calls::fallback_kept(board.view(), [&s, &t], &floats[0], 3 * SEEDS, SEEDS);
    let same = calls::same_floats(&out[..3 * count], &want.concat());
    count == want.len() && same && passes[..count] == gave[..]
}

pub fn table() -> bool {
    let board = Board::new();
    println!("| a list with a second try: seeds in to records | ours | our single passes: all, then the refused | ours / these | the Rust's, refiners built in the call | ours / Rust |");
    println!("|---|---|---|---|---|---|");
    let mut same = true;
    for radii in [[2, 1], [7, 2]] {
        same &= row(&board, "all accepted by the first", 0, radii);
        same &= row(&board, "half refused", 1, radii);
    }
    same
}
