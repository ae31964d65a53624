//! Rows with padding: the same call at several pitches, in turn.

use super::{in_turn, ratio, timed, Side};
use crate::{picture, port};
use oracle::random::Random;
use oracle::types::{paper_ring, Image, Region};
use oracle::{calls, padding};

/// Multiples of 64 bytes; the first is the width.
const PITCHES: [u64; 3] = [640, 704, 1024];

/// An image of that width at each of them.
pub fn at_pitches(image: &Image) -> [Image; 3] {
    let mut random = Random::of(5, "pitch");
    PITCHES.map(|pitch| padding::padded(&mut random, image, pitch))
}

/// A call at a pitch.
pub type Call<'a> = Box<dyn FnMut() -> f64 + 'a>;

pub fn head() {
    println!(
        "\n| call | pitch 640, without padding | pitch 704 | 704 / 640 | pitch 1024 | 1024 / 640 |"
    );
    println!("|---|---|---|---|---|---|");
}

/// The row of a call that has a side for each pitch.
pub fn row(name: &str, calls: &mut [Call<'_>], repetitions: usize) {
    let mut sides: Vec<Side<'_>> = calls.iter_mut().map(|call| &mut **call as Side).collect();
    let t = in_turn(&mut sides, repetitions);
    println!(
        "| {name} | {} | {} | {} | {} | {} |",
        t[0].told(),
        t[1].told(),
        ratio(&t[1], &t[0]),
        t[2].told(),
        ratio(&t[2], &t[0]),
    );
}

fn response(radius: usize) -> bool {
    let images = at_pitches(&super::refine::board(1, 3));
    let flat = port::flat(&paper_ring(radius as i32 / 5));
    let [w, h] = [images[0].width, images[0].height];
    let region = Region {
        x0: 0,
        y0: 0,
        x1: w,
        y1: h,
    };
    let mut outs = vec![vec![1.0f32; (w * h) as usize]; 3];
    let sides = images.iter().zip(&mut outs).map(|(image, out)| {
        let call = || {
            let lent = picture::lent(image);
            timed(|| port::response(lent, &flat, radius, region, out, &mut [0; 2])).0
        };
        Box::new(call) as Call<'_>
    });
    let name = format!("response {w}x{h}, ring {radius}");
    row(&name, &mut sides.collect::<Vec<_>>(), 201);
    outs.iter().all(|out| calls::same_floats(out, &outs[0]))
}

pub fn responses() -> bool {
    head();
    [5, 10].into_iter().all(response)
}
