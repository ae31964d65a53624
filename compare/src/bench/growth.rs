//! Growth: the same call on ever larger images and ever longer lists. A call that
//! grows as its input does has the same number all along its row.

use super::refine::{Board, SEEDS};
use super::times::{timed_all, Times};
use super::{graymap, in_turn, merge, peaks, refine, response};
use crate::port;
use std::hint::black_box;

const SIDES: [usize; 7] = [64, 128, 256, 512, 1024, 2048, 4096];

/// Calls in one timing, so that it has the pixels of 512 by 512 or more.
fn at_once(pixels: usize) -> usize {
    ((1 << 18) / pixels).max(1)
}

fn repetitions(pixels: usize) -> usize {
    ((1 << 26) / pixels).clamp(11, 101)
}

/// The nanoseconds of one, and whether both sides answered alike.
type Cell = ([String; 2], bool);

fn cell(t: &[Times], count: usize, same: bool) -> Cell {
    ([t[0].told_each(count), t[1].told_each(count)], same)
}

fn of_response(side: usize, radius: usize) -> Cell {
    let scene = response::Scene::new([side; 2], radius);
    let pixels = scene.pixels();
    let calls = at_once(pixels);
    let mut out = scene.lent();
    let mut by_port = || timed_all(calls, || scene.by_port(&mut out));
    let mut by_rust = || timed_all(calls, || scene.by_rust());
    let t = in_turn(&mut [&mut by_port, &mut by_rust], repetitions(pixels));
    let same = scene.same(&out);
    cell(&t, calls * pixels, same)
}

fn of_ring_5(side: usize) -> Cell {
    of_response(side, 5)
}

fn of_ring_10(side: usize) -> Cell {
    of_response(side, 10)
}

fn of_peaks(side: usize) -> Cell {
    let image = response::Scene::new([side; 2], 5);
    let mut values = image.lent();
    image.by_port(&mut values);
    let scene = peaks::Scene::new([side; 2], values, 2);
    let pixels = side * side;
    let calls = at_once(pixels);
    let (mut out, mut count) = (scene.room(), 0);
    let mut by_port = || timed_all(calls, || scene.by_port(&mut out, &mut count));
    let mut by_rust = || timed_all(calls, || scene.by_rust());
    let t = in_turn(&mut [&mut by_port, &mut by_rust], repetitions(pixels));
    let expected = scene.expected().concat();
    let same = out[..3 * count] == expected;
    cell(&t, calls * pixels, same)
}

fn of_graymap(side: usize) -> Cell {
    let file = graymap::file([side; 2], 254);
    let pixels = side * side;
    let calls = 16 * at_once(pixels);
    let mut given = port::Given::painted(0);
    let mut by_port = || timed_all(calls, || port::graymap(black_box(&file), &mut given));
    let mut by_loop = || timed_all(calls, || graymap::in_a_loop(black_box(&file)));
    let t = in_turn(&mut [&mut by_port, &mut by_loop], repetitions(pixels));
    let same = [given.width, given.height, given.maximum] == [side, side, 254];
    cell(&t, calls * pixels, same)
}

fn of_seeds(board: &Board, near: bool, count: usize) -> Cell {
    let lists = refine::Lists::new(board, near, 2, count);
    let (mut out, mut found) = (vec![1.0f32; 3 * count], 0);
    let (mut turn, mut rust_turn) = (0, 0);
    let mut by_port = || {
        turn += 1;
        lists.by_port(turn, &mut out, &mut found)
    };
    let mut by_rust = || {
        rust_turn += 1;
        lists.by_rust(rust_turn)
    };
    let t = in_turn(&mut [&mut by_port, &mut by_rust], 101);
    cell(&t, count, lists.same().0)
}

fn of_4096_seeds(side: usize) -> Cell {
    of_seeds(&Board::of([side; 2]), false, SEEDS)
}

fn of_merge(count: usize) -> Cell {
    let lists = merge::Lists::at_one_density(count);
    let mut lents: Vec<_> = (0..merge::LISTS).map(|_| lists.lent()).collect();
    let mut by_port = || lists.all_by_port(&mut lents);
    let mut by_rust = || lists.all_by_rust();
    let t = in_turn(&mut [&mut by_port, &mut by_rust], 101);
    let same = lists.same(&mut lents[0]).0;
    cell(&t, merge::LISTS * count, same)
}

/// Two rows, ours and the other side's, with a cell for each size.
fn rows(name: &str, other: &str, made: impl Fn(usize) -> Cell) -> bool {
    let (cells, same): (Vec<[String; 2]>, Vec<bool>) = SIDES.into_iter().map(made).unzip();
    for (side, who) in ["ours", other].into_iter().enumerate() {
        let row: Vec<&str> = cells.iter().map(|cell| cell[side].as_str()).collect();
        println!("| {name}: {who} | {} |", row.join(" | "));
    }
    same.into_iter().all(|same| same)
}

fn head(first: &str, size: impl Fn(usize) -> String) {
    let sizes: Vec<String> = SIDES.into_iter().map(size).collect();
    println!("| {first} | {} |", sizes.join(" | "));
    println!("|---|{}", "---|".repeat(SIDES.len()));
}

pub fn table() -> bool {
    head("nanoseconds of one", |side| format!("{side} by {side}"));
    let rust = "the Rust's";
    let mut same = rows("response, ring 5, a pixel", rust, of_ring_5);
    same &= rows("response, ring 10, a pixel", rust, of_ring_10);
    same &= rows("peaks, window 2, a pixel", rust, of_peaks);
    same &= rows(
        "graymap, maximum 254, a pixel",
        "a plain loop's",
        of_graymap,
    );
    let seeds = "refine_list, 4,096 seeds anywhere, radius 2, a seed";
    same &= rows(seeds, rust, of_4096_seeds);
    println!();
    head("nanoseconds of one", |count| format!("{count} of them"));
    let board = Board::new();
    same &= rows(
        "refine_list, seeds near corners of 640 by 480, radius 2, a seed",
        rust,
        |count| of_seeds(&board, true, count),
    );
    same &= rows("merge at one density, radius 5, a corner", rust, of_merge);
    same
}
