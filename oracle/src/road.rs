//! The whole road of a picture: response, peaks, refined list, merge, by the
//! Rust and document 01 together, on the small board that examples/ ships.

use crate::calls;
use crate::pictures::shake;
use crate::random::Random;
use crate::types::{paper_ring, Image, PeakSettings, Region, Settings, Triple, View};

pub const WIDTH: usize = 128;
pub const HEIGHT: usize = 96;

/// A board of squares of 18 pixels, turned a little, with a little noise. Each
/// pixel is the mean of 8 by 8 points, in whole numbers.
pub fn board(seed: u64) -> Image {
    let mut bytes = Vec::with_capacity(WIDTH * HEIGHT);
    for y in 0..HEIGHT as i64 {
        for x in 0..WIDTH as i64 {
            let light: i64 = (0..64)
                .map(|k| {
                    let (px, py) = (8 * x + k % 8, 8 * y + k / 8);
                    let (u, v) = (31 * px + 4 * py, 31 * py - 4 * px + 700);
                    i64::from((u.div_euclid(4464) + v.div_euclid(4464)) % 2 == 0)
                })
                .sum();
            bytes.push((40 + 170 * light / 64) as u8);
        }
    }
    let mut image = Image::new(WIDTH, HEIGHT, bytes);
    shake(&mut Random::of(seed, "road"), &mut image, 3);
    image
}

/// The corners at the end of the road, with the settings that the examples use.
pub fn corners(image: &Image) -> Vec<Triple> {
    let view = View::from(image);
    let whole = Region {
        x0: 0,
        y0: 0,
        x1: image.width,
        y1: image.height,
    };
    let (_, _, _, response) = calls::response(view, 5, &paper_ring(1), whole, image.bytes.len());
    let settings = PeakSettings {
        threshold: 200.0,
        ring_radius: 5,
        window_radius: 2,
        refiner_radius: 2,
        min_cluster_size: 2,
    };
    let (_, peaks) = calls::peaks(image.width, image.height, &response, &settings, 3 * 4096);
    let flat = |list: &[Triple]| list.concat();
    let floats = flat(&peaks);
    let (_, refined) = calls::refine_list(view, &Settings::default(), &floats, floats.len());
    let (_, _, kept) = calls::merge(&flat(&refined), 2.0, 16_384, 4_096);
    kept
}

/// As merge-print writes them.
pub fn text(corners: &[Triple]) -> String {
    let mut text = String::new();
    for [x, y, strength] in corners {
        text += &format!(
            "{:08X} {:08X} {:08X}\n",
            x.to_bits(),
            y.to_bits(),
            strength.to_bits()
        );
    }
    text + &format!("total {}\n", corners.len())
}
