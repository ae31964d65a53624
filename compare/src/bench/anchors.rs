//! The response beside the Rust's SIMD build and a copy of memory, in one run. The
//! copy is of the image's bytes and of as many floats as the response writes.

use super::response::Scene;
use super::times::{in_turn, timed};
use chess_corners_core_simd as simd;

fn by_simd(scene: &Scene) -> simd::ResponseMap {
    let [w, h] = scene.size;
    let mut params = simd::ChessParams::default();
    params.use_radius10 = scene.radius == 10;
    let roi = simd::Roi::new(0, 0, w, h).expect("a region");
    simd::chess_response_u8_patch(&scene.bytes, w, h, &params, roi)
}

/// Where the copy comes from and goes to; its pages are there before any timing.
struct Copied {
    bytes: Vec<u8>,
    from: Vec<f32>,
    to: Vec<f32>,
}

impl Copied {
    fn new(scene: &Scene) -> Self {
        Copied {
            bytes: scene.bytes.clone(),
            from: scene.lent(),
            to: scene.lent(),
        }
    }

    fn copy(&mut self, scene: &Scene) {
        self.bytes.copy_from_slice(&scene.bytes);
        self.to.copy_from_slice(&self.from);
    }
}

/// How many values differ in their bits, and by how much at most.
fn apart(ours: &[f32], theirs: &[f32]) -> String {
    let pairs = || ours.iter().zip(theirs);
    let count = pairs().filter(|(a, b)| a.to_bits() != b.to_bits()).count();
    let most = pairs().map(|(a, b)| (a - b).abs()).fold(0.0, f32::max);
    match count {
        0 => "none".to_string(),
        _ => format!("{count} of {}, by up to {most}", ours.len()),
    }
}

fn row(size: [usize; 2], radius: usize, repetitions: usize) -> bool {
    let scene = Scene::new(size, radius);
    let mut copied = Copied::new(&scene);
    let mut ours = scene.lent();
    let mut by_copy = || timed(|| copied.copy(&scene)).0;
    let mut by_port = || timed(|| scene.by_port(&mut ours)).0;
    let mut by_rust = || timed(|| scene.by_rust()).0;
    let mut by_lanes = || timed(|| by_simd(&scene)).0;
    let t = in_turn(
        &mut [&mut by_copy, &mut by_port, &mut by_rust, &mut by_lanes],
        repetitions,
    );
    let cells: Vec<String> = t.iter().map(|t| t.told_each(scene.pixels())).collect();
    let [w, h] = size;
    println!(
        "| response {w}x{h}, ring {radius} | {} | {} |",
        cells.join(" | "),
        apart(&ours, by_simd(&scene).data()),
    );
    scene.same(&ours)
}

pub fn table() -> bool {
    println!("| nanoseconds a pixel | a copy of memory | ours | the Rust's | the Rust's SIMD build | values of the SIMD build that are not ours |");
    println!("|---|---|---|---|---|---|");
    let mut same = true;
    for (size, repetitions) in [([640, 480], 201), ([4096, 4096], 11)] {
        for radius in [5, 10] {
            same &= row(size, radius, repetitions);
        }
    }
    same
}
