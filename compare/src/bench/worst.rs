//! The worst case of each call: inputs on which it does the most that it can, and
//! in words how that grows. Ours stands beside the Rust, or beside the plain loop
//! where the Rust has no such call.

use super::times::{timed_all, Times};
use super::{
    board, coverage, gradient, graymap, hardest, in_turn, merge, peaks, ratio, response, salvage,
};
use crate::port::{self, Given};
use oracle::calls;
use oracle::random::Random;
use oracle::types::{Asked, Triple};
use std::hint::black_box;

pub fn row(name: &str, t: &[Times], calls: usize, grows: &str) {
    let of_one = if calls > 1 {
        format!(", {calls} calls")
    } else {
        String::new()
    };
    println!(
        "| {name}{of_one} | {} | {} | {} | {grows} |",
        t[0].told(),
        t[1].told(),
        ratio(&t[0], &t[1]),
    );
}

/// Both sides on one list.
fn merged(name: &str, list: Vec<f32>, radius: f32, repetitions: usize, grows: &str) -> bool {
    let lists = merge::Lists::new(vec![list], radius);
    let mut lent = lists.lent();
    let mut by_port = || lists.by_port(0, &mut lent);
    let mut by_rust = || lists.by_rust(0);
    let t = in_turn(&mut [&mut by_port, &mut by_rust], repetitions);
    let (same, kept) = lists.same(&mut lent);
    let name = format!("merge: {name}; {} to {kept}", lists.count());
    row(&name, &t, 1, grows);
    same
}

/// So many corners that meet nobody and lie in cell 0, behind one at (0, 0) which
/// makes the box finite; then the same place again, each time stronger.
fn in_cell_0(without_number: usize, again: usize) -> Vec<f32> {
    let mut list = vec![0.0, 0.0, 0.0];
    for _ in 0..without_number {
        list.extend([f32::NAN, f32::NAN, 1.0]);
    }
    for k in 0..again {
        list.extend([0.0, 0.0, 1.0 + k as f32]);
    }
    list
}

/// Corners 16 pixels apart, none of which meet; the last one infinitely far.
fn without_grid() -> Vec<f32> {
    let at = |k: usize| [16.0 * (k % 64) as f32, 16.0 * (k / 64) as f32, 1.0];
    let mut list: Vec<f32> = (0..4096).flat_map(at).collect();
    list[3 * 4095] = f32::INFINITY;
    list
}

fn merges() -> bool {
    let mut random = Random::of(6, "worst");
    let mut corners = |field: f32| merge::corners(&mut random, 4096, [field; 2], false);
    let (one_cell, many_cells) = (corners(1.99), corners(4095.0));
    let squared = "kept corners of nine cells, times corners";
    merged("all in one cell", one_cell, 2.0, 401, squared)
        & merged(
            "all but one NaN, all in cell 0",
            in_cell_0(4095, 0),
            2.0,
            51,
            "corners squared, a half",
        )
        & merged(
            "2,457 NaN in cell 0, and the first of its chain replaced 1,638 times",
            in_cell_0(2457, 1638),
            2.0,
            51,
            "replaced times the chain, three times",
        )
        & merged(
            "one infinite, so without a grid, none meet",
            without_grid(),
            2.0,
            51,
            "corners squared, a half",
        )
        & merged(
            "16.8 million cells",
            many_cells,
            1.0,
            11,
            "cells, twice (heads are cleared before and after)",
        )
}

const SIZE: [usize; 2] = [640, 480];

/// In each row one value in window + 1 stands out, and every row is above the one
/// before: nothing is passed over, and each of them beats all of its window up to
/// the rows below. Above that a field of peaks, more than are noted.
fn rising(window: usize) -> Vec<f32> {
    let step = window + 1;
    let field = 32 * step;
    let value = |k: usize| {
        let (x, y) = (k % SIZE[0], k / SIZE[0]);
        let stands_out = x % step == 0 && (y >= field || y % step == 0);
        let level = if y < field { 0 } else { y };
        0.25 + level as f32 + if stands_out { 0.5 } else { 0.0 }
    };
    (0..SIZE[0] * SIZE[1]).map(value).collect()
}

/// One output: its length in records, and the number that it gets.
fn peaks_to(
    name: &str,
    scene: &peaks::Scene,
    want: &[Triple],
    records: usize,
    number: u32,
) -> bool {
    let (mut out, mut count, mut told) = (vec![1.0f32; 3 * records], 0, 0);
    let mut by_port = || timed_all(1, || told = scene.by_port(&mut out, &mut count));
    let mut by_rust = || timed_all(1, || scene.by_rust());
    let t = in_turn(&mut [&mut by_port, &mut by_rust], 31);
    let [ours, theirs] = [want.len(), scene.by_rust().len()];
    row(
        &format!("peaks: {name}; {ours}, the Rust's {theirs}"),
        &t,
        1,
        "pixels times the window's side; twice with just enough room",
    );
    let all = || count == ours && calls::same_floats(&out[..3 * count], &want.concat());
    told == number && (number != 0 || all())
}

/// Nothing stands out on a plateau. Rising rows have each kind of output: with
/// just enough room the peaks past those noted are sought twice.
fn peaks_of(window: usize) -> bool {
    let flat = peaks::Scene::new(SIZE, vec![1.0; SIZE[0] * SIZE[1]], window);
    let any = flat.room().len() / 3;
    let scene = peaks::Scene::new(SIZE, rising(window), window);
    let want = scene.expected();
    let row = |room: &str, records: usize, number: u32| {
        let name = format!("rising rows, window {window}, {room}");
        peaks_to(&name, &scene, &want, records, number)
    };
    let plateau = format!("a plateau, window {window}");
    peaks_to(&plateau, &flat, &flat.expected(), any, 0)
        & row("room for any number", any, 0)
        & row("just enough room", want.len(), 0)
        & row("a record too few, refused", want.len() - 1, 16)
}

fn all_peaks() -> bool {
    peaks_of(2) & peaks_of(8)
}

fn read(name: &str, file: &[u8], number: u32, calls: usize, grows: &str) -> bool {
    let (mut given, mut told) = (Given::painted(0), 0);
    let mut theirs = None;
    let mut by_port = || timed_all(calls, || told = port::graymap(black_box(file), &mut given));
    let mut by_loop = || timed_all(calls, || theirs = graymap::in_a_loop(black_box(file)));
    let t = in_turn(&mut [&mut by_port, &mut by_loop], 51);
    row(&format!("graymap: {name}"), &t, calls, grows);
    let at_fault = (number == 24).then_some(given.pixel);
    told == number && theirs.is_some_and(|read| read.err() == at_fault)
}

fn read_deep(file: &[u8], pixels: usize) -> bool {
    let (mut given, mut told) = (Given::painted(0), 0);
    let [mut ours, mut other] = [vec![1u16; pixels], vec![1u16; pixels]];
    let mut theirs = None;
    let mut by_port = || {
        timed_all(1, || {
            told = port::graymap_u16(black_box(file), &mut ours, &mut given)
        })
    };
    let mut by_loop = || {
        timed_all(1, || {
            theirs = graymap::deep_in_a_loop(black_box(file), &mut other)
        })
    };
    let t = in_turn(&mut [&mut by_port, &mut by_loop], 21);
    let name = "graymap_u16: 4096 by 4096, maximum 4095, all read";
    row(name, &t, 1, "pixels, twice (the test, then the samples)");
    told == 0 && ours == other && theirs.is_some_and(|read| read.is_ok())
}

fn graymaps() -> bool {
    let mut above = graymap::file([4096; 2], 1);
    let last = above.len() - 1;
    above[last] = 2;
    let mut comments = b"P5\n".to_vec();
    comments.extend(b"#\n".repeat(1 << 19));
    comments.extend(b"1 1\n255\n7");
    read(
        "4096 by 4096, maximum 1, the last sample above it",
        &above,
        24,
        1,
        "pixels",
    ) & read(
        "a header with a megabyte of empty comments",
        &comments,
        0,
        1,
        "bytes of the header",
    ) & read_deep(&graymap::file([4096; 2], 4095), 1 << 24)
}

/// 4,096 records with just enough room, which are counted and then written, and
/// with a byte too little, which are counted and refused.
fn salvages() -> bool {
    let file = salvage::file(10);
    let (_, saved) = calls::salvage(&file, salvage::SIZE, file.len(), 8194);
    let saved = saved.expect("room for all");
    let mut same = true;
    for (name, short, number) in [
        ("just enough room", 0, 0),
        ("a byte too little, refused", 1, 15),
    ] {
        let mut ours = (
            vec![1u8; saved.kept.len() - short],
            vec![1u16; 2 * saved.dropped.len()],
            [0; 2],
        );
        let mut theirs = ours.clone();
        let mut told = [0; 2];
        let [one, two] = &mut told;
        let mut by_port = || {
            let (out, faults, counts) = &mut ours;
            let call =
                || *one = port::salvage(black_box(&file), salvage::SIZE, out, faults, counts);
            timed_all(16, call)
        };
        let mut by_loop = || {
            let (out, faults, counts) = &mut theirs;
            let call =
                || *two = salvage::in_a_loop(black_box(&file), salvage::SIZE, out, faults, counts);
            timed_all(16, call)
        };
        let t = in_turn(&mut [&mut by_port, &mut by_loop], 201);
        let name = format!("salvage: 4096 records, one in 10 dropped, {name}");
        row(&name, &t, 16, "records; twice with just enough room");
        same &= told == [number; 2] && ours == theirs;
    }
    same
}

fn covers() -> bool {
    let (drop, same) = coverage::times(4096, &[Asked::Drop(0)], 64);
    row(
        "coverage_drop: the first of 4096",
        &drop,
        64,
        "corners behind it, which move",
    );
    let (afresh, alike) = coverage::times(4096, &[Asked::Afresh], 64);
    row("coverage: afresh, 4096", &afresh, 64, "corners");
    same && alike
}

fn responses() -> bool {
    let scene = response::Scene::new([4096; 2], 10);
    let mut out = scene.lent();
    let mut by_port = || timed_all(1, || scene.by_port(&mut out));
    let mut by_rust = || timed_all(1, || scene.by_rust());
    let t = in_turn(&mut [&mut by_port, &mut by_rust], 11);
    row("response: 4096 by 4096, ring 10", &t, 1, "pixels");
    scene.same(&out)
}

fn gradients() -> bool {
    let (t, calls, same) = gradient::times(21);
    row(
        "gradient: the cells of a tile of 21",
        &t,
        calls,
        "nothing: 21 places, whatever the tile",
    );
    same
}

fn boards() -> bool {
    let (t, same) = board::times(&board::WORST);
    row(
        "tie: 961 places, 4096 corners, the nearest last",
        &t,
        1,
        "places times corners",
    );
    same
}

pub fn table() -> bool {
    println!("| call: worst case | ours | the Rust's, or a plain loop (graymap, salvage, coverage, tie) | ours / it | grows as |");
    println!("|---|---|---|---|---|");
    let parts = [
        responses, all_peaks, merges, boards, graymaps, salvages, covers, gradients,
    ];
    parts.into_iter().fold(true, |same, part| part() & same) & hardest::rows()
}
