//! The whole road of a picture: response, peaks, refined list, merge.
//!   road FILE WIDTH HEIGHT
//! FILE holds WIDTH times HEIGHT bytes, row after row. A line a corner on standard output, as merge-print writes them; or `refused`, the call and its
//! number, as examples/c/road.c says it.

use chess_corners::{
    merge, merge_heads, peaks, refine_list, response, Image, PeakSettings, Refusal, Roi,
    SaddlePointConfig,
};
use std::process::ExitCode;

const MOST: usize = 4096;

/// The paper's ring of radius 5.
const RING: [(i32, i32); 16] = [
    (0, -5),
    (2, -5),
    (3, -3),
    (5, -2),
    (5, 0),
    (5, 2),
    (3, 3),
    (2, 5),
    (0, 5),
    (-2, 5),
    (-3, 3),
    (-5, 2),
    (-5, 0),
    (-5, -2),
    (-3, -3),
    (-2, -5),
];

/// The step that was refused, and why.
type Stopped = (&'static str, Refusal);

fn corners(image: Image<'_>) -> Result<Vec<f32>, Stopped> {
    let at = |step: &'static str| move |refusal: Refusal| (step, refusal);
    let whole = Roi {
        x0: 0,
        y0: 0,
        x1: image.width,
        y1: image.height,
    };
    // The rows have no padding: as many values as bytes.
    let mut values = vec![0.0; image.bytes.len()];
    let (width, height) = response(image, &RING, 5, whole, &mut values).map_err(at("response"))?;
    let settings = PeakSettings {
        ring_radius: 5,
        window_radius: 2,
        refine_radius: 2,
        threshold: 200.0,
        min_cluster_size: 2,
    };
    let mut found = vec![0.0; 3 * MOST];
    let count = peaks(&values, width, height, settings, &mut found).map_err(at("peaks"))?;
    let config = SaddlePointConfig {
        radius: 2,
        det_margin: 1e-3,
        max_offset: 1.5,
        min_abs_det: 1e-4,
    };
    let mut list = vec![0.0; 3 * count];
    let count =
        refine_list(image, config, &found[..3 * count], &mut list).map_err(at("refine_list"))?;
    list.truncate(3 * count);
    let mut heads = vec![0; merge_heads(&list, 2.0).map_err(at("merge"))?];
    let count = merge(&mut list, 2.0, &mut heads, &mut [0; MOST]).map_err(at("merge"))?;
    list.truncate(3 * count);
    Ok(list)
}

fn main() -> ExitCode {
    let words: Vec<String> = std::env::args().skip(1).collect();
    let [file, width, height] = words.as_slice() else {
        eprintln!("usage: road FILE WIDTH HEIGHT");
        return ExitCode::from(2);
    };
    let (Ok(width), Ok(height)) = (width.parse(), height.parse()) else {
        eprintln!("usage: road FILE WIDTH HEIGHT");
        return ExitCode::from(2);
    };
    let Ok(bytes) = std::fs::read(file) else {
        eprintln!("road: {file} cannot be read");
        return ExitCode::from(2);
    };
    match corners(Image::new(&bytes, width, height)) {
        Ok(list) => {
            for c in list.chunks_exact(3) {
                let [x, y, s] = [c[0], c[1], c[2]].map(f32::to_bits);
                println!("{x:08X} {y:08X} {s:08X}");
            }
            println!("total {}", list.len() / 3);
            ExitCode::SUCCESS
        }
        Err((step, refusal)) => {
            println!("refused {step} {}", refusal.number());
            ExitCode::FAILURE
        }
    }
}
