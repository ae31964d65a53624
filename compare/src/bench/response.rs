//! The response's rows: a board with noise, the whole image as region.

use super::{in_turn, pitch, ratio, timed};
use crate::port;
use oracle::plain::original as rust;
use oracle::random::Random;
use oracle::types::{paper_ring, Region, Ring, View};
use oracle::{calls, plain};

/// A board of squares with some noise, so that no side sees a flat image.
pub fn board([width, height]: [usize; 2]) -> Vec<u8> {
    let mut random = Random::of(1, "bench");
    (0..width * height)
        .map(|k| {
            let (x, y) = (k % width, k / width);
            let light = (x / 23 + y / 23) % 2 == 0;
            (if light { 200 } else { 40 }) + random.byte() % 16
        })
        .collect()
}

/// An image and a ring, for every side.
pub struct Scene {
    pub size: [usize; 2],
    pub radius: usize,
    pub bytes: Vec<u8>,
    ring: Ring,
    region: Region,
}

impl Scene {
    pub fn new(size: [usize; 2], radius: usize) -> Self {
        Scene {
            size,
            radius,
            bytes: board(size),
            ring: paper_ring(radius as i32 / 5),
            region: Region {
                x0: 0,
                y0: 0,
                x1: size[0] as u64,
                y1: size[1] as u64,
            },
        }
    }

    pub fn pixels(&self) -> usize {
        self.bytes.len()
    }

    /// A buffer that is written once before any timing, so that its pages are
    /// there.
    pub fn lent(&self) -> Vec<f32> {
        vec![1.0; self.pixels()]
    }

    pub fn by_port(&self, out: &mut [f32]) -> u32 {
        let image = port::Image::new(&self.bytes, self.size[0], self.size[1]);
        let ring = port::flat(&self.ring);
        port::response(image, &ring, self.radius, self.region, out, &mut [0; 2])
    }

    pub fn by_rust(&self) -> rust::ResponseMap {
        let [w, h] = self.size;
        let mut params = rust::ChessParams::default();
        params.use_radius10 = self.radius == 10;
        let roi = rust::Roi::new(0, 0, w, h).expect("a region");
        rust::chess_response_u8_patch(&self.bytes, w, h, &params, roi)
    }

    /// The Rust's rows, written to a lent buffer as the patch call writes its own.
    pub fn by_rust_rows(&self, out: &mut [f32]) {
        let ([w, h], r) = (self.size, self.radius);
        for y in 0..h {
            let row = &mut out[y * w..(y + 1) * w];
            if y < r || y >= h - r {
                row.fill(0.0);
                continue;
            }
            row[..r].fill(0.0);
            row[w - r..].fill(0.0);
            let inner = &mut row[r..w - r];
            plain::response_row(&self.bytes, w, y as i32, &self.ring, inner, r, w - r);
        }
    }

    /// Whether these are the values of the Rust's call.
    pub fn same(&self, out: &[f32]) -> bool {
        let image = View::new(self.size[0], self.size[1], &self.bytes);
        let (_, _, want) =
            plain::response_patch(image, self.radius == 10, self.region).expect("a region");
        calls::same_floats(out, &want)
    }
}

fn row(size: [usize; 2], radius: usize, repetitions: usize) -> bool {
    let scene = Scene::new(size, radius);
    let [mut ours, mut rows] = [scene.lent(), scene.lent()];
    let mut by_port = || timed(|| scene.by_port(&mut ours)).0;
    let mut by_call = || timed(|| scene.by_rust()).0;
    let mut by_rows = || timed(|| scene.by_rust_rows(&mut rows)).0;
    let t = in_turn(&mut [&mut by_port, &mut by_call, &mut by_rows], repetitions);
    let [w, h] = size;
    println!(
        "| response {w}x{h}, ring {radius} | {} | {} | {} | {} | {} |",
        t[0].told(),
        t[1].told(),
        ratio(&t[0], &t[1]),
        t[2].told(),
        ratio(&t[0], &t[2]),
    );
    scene.same(&ours) && scene.same(&rows)
}

pub fn table() -> bool {
    println!("| call | ours | the Rust's call | ours / Rust | the Rust's rows, lent buffer | ours / rows |");
    println!("|---|---|---|---|---|---|");
    let mut same = true;
    for radius in [5, 10] {
        same &= row([640, 480], radius, 201);
    }
    for radius in [5, 10] {
        same &= row([4096, 4096], radius, 11);
    }
    same & pitch::responses()
}
