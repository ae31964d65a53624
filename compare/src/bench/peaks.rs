//! The peak scan's rows: the response of a board, and noise.

use super::{in_turn, ratio, timed};
use crate::{picture, port};
use oracle::plain::original as rust;
use oracle::random::Random;
use oracle::types::{paper_ring, Image, PeakSettings, Region, Triple};
use oracle::{calls, rules};

const SIZE: [usize; 2] = [640, 480];

/// Responses of each row, called one after the other.
const RESPONSES: usize = 4;

/// The response of a board, with other noise each time.
fn of_board(turn: u64) -> Vec<f32> {
    of_image(super::refine::board(turn, 3))
}

fn of_clean_board(_: u64) -> Vec<f32> {
    of_image(super::refine::board(0, 0))
}

fn of_image(image: Image) -> Vec<f32> {
    let [w, h] = SIZE;
    let region = Region {
        x0: 0,
        y0: 0,
        x1: w as u64,
        y1: h as u64,
    };
    let mut out = vec![0.0; w * h];
    let flat = port::flat(&paper_ring(1));
    let lent = picture::lent(&image);
    port::response(lent, &flat, 5, region, &mut out, &mut [0; 2]);
    out
}

/// Every value from -1 up to 1, evenly.
fn of_noise(turn: u64) -> Vec<f32> {
    let mut random = Random::of(turn, "noise");
    let count = SIZE[0] * SIZE[1];
    (0..count).map(|_| 2.0 * random.unit() - 1.0).collect()
}

/// A response and a window, for both sides: the Rust's defaults but for the
/// window, that is threshold 0 and clusters of 2.
pub struct Scene {
    size: [usize; 2],
    window: usize,
    pub response: Vec<f32>,
    map: rust::ResponseMap,
}

impl Scene {
    pub fn new(size: [usize; 2], response: Vec<f32>, window: usize) -> Self {
        Scene {
            size,
            window,
            map: rust::ResponseMap::new(size[0], size[1], response.clone()),
            response,
        }
    }

    fn params(&self) -> rust::ChessParams {
        let mut params = rust::ChessParams::default();
        params.nms_radius = self.window as u32;
        params
    }

    pub fn by_port(&self, out: &mut [f32], count: &mut usize) -> u32 {
        let params = self.params();
        let lent = port::PeakSettings {
            ring_radius: 5,
            window_radius: self.window,
            refine_radius: 2,
            threshold: params.threshold,
            min_cluster_size: params.min_cluster_size,
        };
        port::peaks(&self.response, self.size, lent, out, count)
    }

    pub fn by_rust(&self) -> Vec<rust::Corner> {
        rust::detect_peaks_from_response_with_refine_radius(&self.map, &self.params(), 2)
    }

    /// The peaks by the rule, which decides ties otherwise than the Rust.
    pub fn expected(&self) -> Vec<Triple> {
        let params = self.params();
        let s = PeakSettings {
            threshold: params.threshold,
            ring_radius: 5,
            window_radius: self.window as i32,
            refiner_radius: 2,
            min_cluster_size: params.min_cluster_size,
        };
        rules::peaks(self.size[0], self.size[1], &self.response, &s)
    }

    /// An output with room for any number of peaks: no two share a square of
    /// side window + 1.
    pub fn room(&self) -> Vec<f32> {
        let squares = self.size.map(|side| side.div_ceil(self.window + 1));
        vec![1.0; 3 * squares[0] * squares[1]]
    }
}

fn row(name: &str, made: fn(u64) -> Vec<f32>, window: usize) -> bool {
    let scenes: Vec<Scene> = (1..=RESPONSES as u64)
        .map(|turn| Scene::new(SIZE, made(turn), window))
        .collect();
    let (mut out, mut count) = (scenes[0].room(), 0);
    let mut call = |k: usize| timed(|| scenes[k].by_port(&mut out, &mut count)).0;
    let (mut turn, mut rust_turn) = (0, 0);
    let mut by_port = || {
        turn += 1;
        call(turn % RESPONSES)
    };
    let mut by_rust = || {
        rust_turn += 1;
        timed(|| scenes[rust_turn % RESPONSES].by_rust()).0
    };
    let t = in_turn(&mut [&mut by_port, &mut by_rust], 50 * RESPONSES);
    call(0);
    println!(
        "| peaks of {name}, window {window}: {count}, the Rust's {} | {} | {} | {} |",
        scenes[0].by_rust().len(),
        t[0].told(),
        t[1].told(),
        ratio(&t[0], &t[1]),
    );
    let expected = scenes[0].expected();
    count == expected.len() && calls::same_floats(&out[..3 * count], &expected.concat())
}

pub fn table() -> bool {
    println!("| call | ours | the Rust's | ours / Rust |");
    println!("|---|---|---|---|");
    let mut same = true;
    for window in [2, 5] {
        same &= row("a board", of_board, window);
    }
    for window in [2, 5] {
        same &= row("a board without noise", of_clean_board, window);
    }
    for window in [2, 5] {
        same &= row("noise", of_noise, window);
    }
    same
}
