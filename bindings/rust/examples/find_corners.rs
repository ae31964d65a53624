//! The corners of a graymap of 8 bits, with the Rust's defaults and a threshold of 200.
//!   find_corners FILE
//! A line a corner: x, y and strength; then `total` and the count.

use chess_corners::{
    graymap, merge, merge_heads, peaks, refine_list, response, PeakSettings, Roi,
    SaddlePointConfig, RING5,
};
use std::error::Error;

fn main() -> Result<(), Box<dyn Error>> {
    let file = std::fs::read(std::env::args().nth(1).ok_or("usage: find_corners FILE")?)?;
    let picture = graymap(&file)?;
    let image = picture.image();
    let whole = Roi {
        x0: 0,
        y0: 0,
        x1: image.width,
        y1: image.height,
    };
    let mut values = vec![0.0; image.width * image.height];
    let (width, height) = response(image, &RING5, 5, whole, &mut values)?;
    let settings = PeakSettings {
        threshold: 200.0,
        ..PeakSettings::default()
    };
    let (mut found, mut list) = (vec![0.0; 3 * 4096], vec![0.0; 3 * 4096]);
    let count = peaks(&values, width, height, settings, &mut found)?;
    let seeds = &found[..3 * count];
    let count = refine_list(image, SaddlePointConfig::default(), seeds, &mut list)?;
    list.truncate(3 * count);
    let mut heads = vec![0; merge_heads(&list, 2.0)?];
    let count = merge(&mut list, 2.0, &mut heads, &mut [0; 4096])?;
    for corner in list.chunks_exact(3).take(count) {
        println!("{} {} {}", corner[0], corner[1], corner[2]);
    }
    println!("total {count}");
    Ok(())
}
