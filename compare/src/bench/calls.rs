//! A row for each exported call that no other table has. A call on words stands
//! beside the same call on bytes; the two answer alike on these samples.

use super::depth::words;
use super::refine::{settings, Board, SEEDS};
use super::times::{timed_all, Times};
use super::{in_turn, merge, of_rust, ratio, timed};
use crate::port::{self, Retried};
use oracle::plain::original as rust;
use oracle::random::Random;
use oracle::types::Triple;
use oracle::{calls, plain, rules};
use std::hint::black_box;

fn row(name: &str, beside: &str, t: &[Times], count: usize) {
    println!(
        "| {name} | {} | {} | {} | {beside} |",
        t[0].told_each(count),
        t[1].told_each(count),
        ratio(&t[0], &t[1]),
    );
}

fn old_numbers() -> bool {
    let numbers: Vec<u32> = (0..4096).map(|k| k % 41).collect();
    let sum = |of: fn(u32) -> u32| -> u32 { numbers.iter().map(|n| of(black_box(*n))).sum() };
    let [mut ours, mut theirs] = [0, 1];
    let mut by_port = || timed_all(16, || ours = sum(port::old_number));
    let mut by_rule = || timed_all(16, || theirs = sum(rules::old_number));
    let t = in_turn(&mut [&mut by_port, &mut by_rule], 201);
    row("old_number", "the rule in Rust", &t, 16 * numbers.len());
    ours == theirs
}

/// The cells of the grid in a plain loop over the box.
fn heads_in_a_loop(list: &[f32], radius: f32) -> usize {
    let mut low = [f32::INFINITY; 2];
    let mut high = [f32::NEG_INFINITY; 2];
    for corner in list.chunks_exact(3) {
        for axis in 0..2 {
            low[axis] = if corner[axis] < low[axis] {
                corner[axis]
            } else {
                low[axis]
            };
            high[axis] = if corner[axis] > high[axis] {
                corner[axis]
            } else {
                high[axis]
            };
        }
    }
    let cells = [0, 1].map(|k| ((high[k] - low[k]) * (1.0 / radius)).floor() as usize + 1);
    cells[0] * cells[1]
}

fn merge_heads() -> bool {
    let mut random = Random::of(8, "heads");
    let list = merge::corners(&mut random, 4096, [640.0, 480.0], false);
    let [mut ours, mut theirs] = [0, 1];
    let mut by_port = || timed_all(16, || port::merge_heads(black_box(&list), 5.0, &mut ours));
    let mut by_loop = || timed_all(16, || theirs = heads_in_a_loop(black_box(&list), 5.0));
    let t = in_turn(&mut [&mut by_port, &mut by_loop], 201);
    row(
        "merge_heads, 4096 corners, one corner",
        "a plain loop",
        &t,
        16 * 4096,
    );
    ours == theirs
}

/// What a seed's call answers: the number, x, y and score.
type Placed = (u32, [f32; 3]);

fn one(image: port::Image<'_>, s: port::Settings, seed: &Triple) -> Placed {
    let (mut place, mut state, mut covariance) = ([0.0; 3], [0; 3], [0.0; 3]);
    let answer = port::Answer {
        place: &mut place,
        state: &mut state,
        covariance: &mut covariance,
    };
    let number = port::refine(image, s, [seed[0], seed[1]], 0, answer);
    (number, place)
}

/// The operator of a radius, as it is lent.
struct Operator {
    columns: [f32; port::COLUMNS],
    overlap: [f32; port::OVERLAP],
}

fn operator(radius: usize) -> Operator {
    let mut built = Operator {
        columns: [0.0; port::COLUMNS],
        overlap: [0.0; port::OVERLAP],
    };
    port::fit_operator(radius, &mut built.columns, &mut built.overlap);
    built
}

fn one_with(image: port::Image<'_>, s: port::Settings, lent: &Operator, seed: &Triple) -> Placed {
    let (mut place, mut state, mut covariance) = ([0.0; 3], [0; 3], [0.0; 3]);
    let answer = port::Answer {
        place: &mut place,
        state: &mut state,
        covariance: &mut covariance,
    };
    let (at, Operator { columns, overlap }) = ([seed[0], seed[1]], lent);
    let number = port::refine_with(image, s, at, 0, columns, overlap, answer);
    (number, place)
}

/// Two calls over the same seeds, and whether they place all of them alike.
fn seeds_of(
    name: &str,
    beside: &str,
    seeds: &[Triple],
    ours: impl Fn(&Triple) -> Placed,
    theirs: impl Fn(&Triple) -> Placed,
) -> bool {
    let all = |call: &dyn Fn(&Triple) -> Placed| {
        seeds.iter().for_each(|seed| {
            black_box(call(seed));
        })
    };
    let mut by_port = || timed_all(1, || all(&ours));
    let mut by_other = || timed_all(1, || all(&theirs));
    let t = in_turn(&mut [&mut by_port, &mut by_other], 51);
    row(name, beside, &t, seeds.len());
    seeds.iter().all(|seed| {
        let ((number, place), (other, at)) = (ours(seed), theirs(seed));
        (number == 0) == (other == 0) && (number != 0 || calls::same_floats(&place, &at))
    })
}

fn one_seed(board: &Board, deep: port::Image<'_>, radius: i32) -> bool {
    let seeds = &board.seeds(&mut Random::of(9, "calls"), true)[..64];
    let (s, lent, _) = settings(radius);
    let (bytes, built) = (board.lent(), operator(radius as usize));
    let by_rust = |seed: &Triple| {
        let found = plain::Refiner::new(&s, false).refine(board.view(), [seed[0], seed[1]]);
        (found.status, [found.x, found.y, found.score])
    };
    let by_bytes = |seed: &Triple| one(bytes, lent, seed);
    let by_words = |seed: &Triple| one(deep, lent, seed);
    let with_bytes = |seed: &Triple| one_with(bytes, lent, &built, seed);
    let with_words = |seed: &Triple| one_with(deep, lent, &built, seed);
    let named = |call: &str| format!("{call}, radius {radius}, one seed");
    let rust = "the Rust's refiner, built for each seed";
    seeds_of(&named("refine"), rust, seeds, by_bytes, by_rust)
        & seeds_of(&named("refine_u16"), "refine", seeds, by_words, by_bytes)
        & seeds_of(
            &named("refine_with_u16"),
            "refine_with",
            seeds,
            with_words,
            with_bytes,
        )
}

/// Lists with a second try: what they are given.
struct Twice<'a> {
    settings: [port::Settings; 2],
    built: [Operator; 2],
    floats: &'a [f32],
}

/// What such a list gives.
#[derive(Clone)]
struct Found {
    out: Vec<f32>,
    passes: Vec<u8>,
    count: usize,
}

impl Found {
    fn new() -> Self {
        Found {
            out: vec![1.0; 3 * SEEDS],
            passes: vec![0; SEEDS],
            count: 0,
        }
    }

    fn records(&self) -> &[f32] {
        &self.out[..3 * self.count]
    }
}

impl Twice<'_> {
    fn call(&self, image: port::Image<'_>, lent: bool, found: &mut Found) -> f64 {
        let to = Retried {
            out: &mut found.out,
            passes: &mut found.passes,
            count: &mut found.count,
        };
        let columns = [&self.built[0].columns, &self.built[1].columns];
        match lent {
            true => timed(|| port::fallback_with(image, self.settings, columns, self.floats, to)).0,
            false => timed(|| port::fallback(image, self.settings, self.floats, to)).0,
        }
    }

    /// The call on words beside that on bytes.
    fn deep_row(&self, name: &str, images: [port::Image<'_>; 2], lent: bool) -> bool {
        let [mut one, mut two] = [Found::new(), Found::new()];
        let mut by_words = || self.call(images[1], lent, &mut one);
        let mut by_bytes = || self.call(images[0], lent, &mut two);
        let t = in_turn(&mut [&mut by_words, &mut by_bytes], 51);
        row(
            &format!("{name}_u16, radius 2 then 1, a seed"),
            name,
            &t,
            SEEDS,
        );
        calls::same_floats(one.records(), two.records()) && one.passes == two.passes
    }
}

fn with_fallback(board: &Board, deep: port::Image<'_>) -> bool {
    let list = board.seeds(&mut Random::of(9, "calls"), false);
    let [(_, one, first), (_, two, second)] = [2, 1].map(settings);
    let twice = Twice {
        settings: [one, two],
        built: [operator(2), operator(1)],
        floats: &list.concat(),
    };
    let [mut a, mut b] = [first, second].map(rust::SaddlePointRefiner::new);
    let (mut found, mut theirs, corners) = (Found::new(), Vec::new(), of_rust(&list));
    let mut by_port = || twice.call(board.lent(), true, &mut found);
    let mut by_rust = || {
        let (list, seen) = (corners.clone(), Some(board.rust()));
        let call = || rust::refine_corners_on_image_with_fallback(list, seen, None, &mut a, &mut b);
        let (time, answer) = timed(call);
        theirs = answer;
        time
    };
    let t = in_turn(&mut [&mut by_port, &mut by_rust], 51);
    let name = "refine_list_fallback_with, radius 2 then 1, a seed";
    row(name, "the Rust's, refiners built before", &t, SEEDS);
    let theirs: Vec<f32> = theirs.iter().flat_map(|c| [c.x, c.y, c.strength]).collect();
    let images = [board.lent(), deep];
    calls::same_floats(found.records(), &theirs)
        & twice.deep_row("refine_list_fallback", images, false)
        & twice.deep_row("refine_list_fallback_with", images, true)
}

pub fn table() -> bool {
    println!("| nanoseconds of one call, or of one of a list | ours | beside it | ours / it | what stands beside it |");
    println!("|---|---|---|---|---|");
    let board = Board::new();
    let samples = words(board.lent().bytes);
    let deep = port::Image {
        words: Some(&samples),
        ..board.lent()
    };
    let one = one_seed(&board, deep, 2) & one_seed(&board, deep, 7);
    old_numbers() & merge_heads() & one & with_fallback(&board, deep)
}
