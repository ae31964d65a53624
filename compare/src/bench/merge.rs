//! The merge's rows: lists over a field, one after the other.

use super::{in_turn, ratio, timed};
use crate::port;
use oracle::plain::original as rust;
use oracle::random::Random;
use oracle::types::Triple;
use oracle::{calls, plain, rules};

/// Lists of each row, called one after the other: a single one the processor
/// would learn by heart, the better the shorter it is.
pub const LISTS: usize = 32;

/// The corners as the Rust takes them.
pub fn of_rust(list: &[Triple]) -> Vec<rust::Corner> {
    list.iter()
        .map(|c| rust::Corner::new(c[0], c[1], c[2]))
        .collect()
}

/// Corners over a field: scattered, or 64 to a cluster of about 6 pixels.
pub fn corners(random: &mut Random, count: usize, field: [f32; 2], clustered: bool) -> Vec<f32> {
    let mut middle = [0.0; 2];
    let mut floats = Vec::new();
    for k in 0..count {
        if k % 64 == 0 {
            middle = field.map(|f| 6.0 + (f - 12.0) * random.unit());
        }
        for axis in 0..2 {
            floats.push(match clustered {
                true => middle[axis] + 6.0 * (random.unit() + random.unit() - 1.0),
                false => field[axis] * random.unit(),
            });
        }
        floats.push(random.unit());
    }
    floats
}

/// Lists of one length with a radius, for both sides.
pub struct Lists {
    radius: f32,
    floats: Vec<Vec<f32>>,
    triples: Vec<Vec<Triple>>,
    of_rust: Vec<Vec<rust::Corner>>,
    /// As many heads as the grid of each list has cells.
    cells: Vec<usize>,
}

/// What is lent to the port; the list is merged in place.
pub struct Lent {
    list: Vec<f32>,
    heads: Vec<u16>,
    links: Vec<u16>,
    kept: usize,
}

impl Lists {
    pub fn new(floats: Vec<Vec<f32>>, radius: f32) -> Self {
        let triples: Vec<_> = floats.iter().map(|list| calls::triples(list)).collect();
        let wanted = |list: &Vec<Triple>| rules::heads_wanted(3 * list.len(), list, radius);
        let cells = triples.iter().map(|list| wanted(list).expect("a grid"));
        Lists {
            radius,
            cells: cells.collect(),
            of_rust: triples.iter().map(|list| of_rust(list)).collect(),
            triples,
            floats,
        }
    }

    /// At one density the field shrinks with the count.
    pub fn at_one_density(count: usize) -> Self {
        let mut random = Random::of(2, "at one density");
        let shrink = (count as f32 / 4096.0).sqrt();
        let field = [640.0, 480.0].map(|f| f * shrink);
        let list = |_| corners(&mut random, count, field, false);
        Lists::new((0..LISTS).map(list).collect(), 5.0)
    }

    pub fn count(&self) -> usize {
        self.triples[0].len()
    }

    pub fn lent(&self) -> Lent {
        Lent {
            list: vec![0.0; 3 * self.count()],
            heads: vec![0; self.cells.iter().copied().max().unwrap_or(0)],
            links: vec![0; self.count()],
            kept: 0,
        }
    }

    /// Filling the list anew is not timed.
    pub fn by_port(&self, turn: usize, lent: &mut Lent) -> f64 {
        let k = turn % self.floats.len();
        lent.list.copy_from_slice(&self.floats[k]);
        let Lent {
            list,
            heads,
            links,
            kept,
        } = lent;
        let heads = &mut heads[..self.cells[k]];
        timed(|| port::merge(list, self.radius, heads, links, kept)).0
    }

    /// Neither is the copy that the call consumes, nor freeing what it answers.
    pub fn by_rust(&self, turn: usize) -> f64 {
        let mut corners = self.of_rust[turn % self.floats.len()].clone();
        timed(|| rust::merge_corners_simple(&mut corners, self.radius)).0
    }

    /// All lists in one timing, as a short one is over too soon to be timed.
    pub fn all_by_port(&self, lents: &mut [Lent]) -> f64 {
        for (lent, floats) in lents.iter_mut().zip(&self.floats) {
            lent.list.copy_from_slice(floats);
        }
        timed(|| {
            for (lent, cells) in lents.iter_mut().zip(&self.cells) {
                let heads = &mut lent.heads[..*cells];
                port::merge(
                    &mut lent.list,
                    self.radius,
                    heads,
                    &mut lent.links,
                    &mut lent.kept,
                );
            }
        })
        .0
    }

    pub fn all_by_rust(&self) -> f64 {
        let mut lists = self.of_rust.clone();
        let call = |list: &mut Vec<rust::Corner>| rust::merge_corners_simple(list, self.radius);
        timed(|| lists.iter_mut().map(call).collect::<Vec<_>>()).0
    }

    /// Whether ours keeps what the Rust keeps of the first list, and how many.
    pub fn same(&self, lent: &mut Lent) -> (bool, usize) {
        self.by_port(0, lent);
        let want = plain::merge(&self.triples[0], self.radius);
        let same = lent.kept == want.len()
            && calls::same_floats(&lent.list[..3 * lent.kept], &want.concat());
        (same, lent.kept)
    }
}

fn row(name: &str, lists: &Lists) -> bool {
    let mut lent = lists.lent();
    let (mut turn, mut rust_turn) = (0, 0);
    let mut by_port = || {
        turn += 1;
        lists.by_port(turn, &mut lent)
    };
    let mut by_rust = || {
        rust_turn += 1;
        lists.by_rust(rust_turn)
    };
    let t = in_turn(&mut [&mut by_port, &mut by_rust], 20 * LISTS);
    let (same, kept) = lists.same(&mut lent);
    let (radius, count) = (lists.radius, lists.count());
    println!(
        "| merge {name}, radius {radius}: {count} to {kept} | {} | {} | {} | {} | {} |",
        t[0].told(),
        t[1].told(),
        ratio(&t[0], &t[1]),
        t[0].each(count),
        t[1].each(count),
    );
    same
}

pub fn table() -> bool {
    println!("| call: corners in to corners kept | ours | the Rust's | ours / Rust | ours, ns a corner | the Rust's |");
    println!("|---|---|---|---|---|---|");
    let mut same = true;
    for radius in [2.0, 5.0] {
        for name in ["scattered", "clustered"] {
            let mut random = Random::of(2, name);
            let clustered = name == "clustered";
            let list = |_| corners(&mut random, 4096, [640.0, 480.0], clustered);
            let lists = Lists::new((0..LISTS).map(list).collect(), radius);
            same &= row(name, &lists);
        }
    }
    for count in [512, 1024, 2048, 4096] {
        same &= row("at one density", &Lists::at_one_density(count));
    }
    same
}
