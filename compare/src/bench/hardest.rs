//! The worst seeds: those that try most windows before they settle.

use super::refine::{settings, LISTS, SEEDS};
use super::{in_turn, of_rust, timed, worst};
use crate::picture;
use crate::port::{self, Retried};
use oracle::lists::refine as known;
use oracle::plain::original as rust;
use oracle::random::Random;
use oracle::types::{Image, Triple};
use oracle::{calls, pictures};

/// A seed on an image, and how many windows it tries.
struct Seed {
    image: Image,
    at: [f32; 2],
    tries: u32,
}

fn tries(image: &Image, s: port::Settings, at: [f32; 2]) -> u32 {
    let (mut place, mut state, mut covariance) = ([0.0; 3], [0; 3], [0.0; 3]);
    let answer = port::Answer {
        place: &mut place,
        state: &mut state,
        covariance: &mut covariance,
    };
    match port::refine(picture::lent(image), s, at, 0, answer) {
        0 => state[1],
        _ => 0,
    }
}

/// Settings of a radius that refuse a fit only where it is farther than `max_offset`.
fn open(radius: i32, max_offset: f32) -> (port::Settings, rust::SaddlePointConfig) {
    let (_, mut lent, mut config) = settings(radius);
    (lent.det_margin, lent.max_offset, lent.min_abs_det) = (0.0, max_offset, 0.0);
    (config.det_margin, config.max_offset, config.min_abs_det) = (0.0, max_offset, 0.0);
    (lent, config)
}

/// The seed with most tries at a radius: of the rare runs that the oracle's search
/// met, and of some on pictures that are hard to step on.
fn hardest(radius: i32) -> Seed {
    let (s, _) = open(radius, 1e30);
    let mut random = Random::of(7, "worst");
    let side = 2 * radius as usize + 6;
    let rare = known::met().into_iter().filter(|run| run.1 == radius);
    let mut runs: Vec<(Image, [f32; 2])> = rare.map(|(image, _, at)| (image, at)).collect();
    for _ in 0..16 * SEEDS {
        let image = pictures::hard(&mut random, side);
        let at = [0, 1].map(|_| side as f32 * random.unit());
        runs.push((image, at));
    }
    let seeds = runs.into_iter().map(|(image, at)| Seed {
        tries: tries(&image, s, at),
        image,
        at,
    });
    seeds.max_by_key(|seed| seed.tries).expect("some seed")
}

impl Seed {
    /// The seed again and again.
    fn list(&self) -> Vec<Triple> {
        vec![[self.at[0], self.at[1], 1.0]; SEEDS]
    }

    fn seen(&self) -> rust::ImageView<'_> {
        let [w, h] = [self.image.width as usize, self.image.height as usize];
        rust::ImageView::from_u8_slice(w, h, &self.image.bytes).expect("a whole image")
    }
}

fn same(ours: &[f32], theirs: &[rust::Corner]) -> bool {
    let theirs: Vec<f32> = theirs.iter().flat_map(|c| [c.x, c.y, c.strength]).collect();
    calls::same_floats(ours, &theirs)
}

fn one_pass(radius: i32, hard: &Seed) -> bool {
    let (lent, config) = open(radius, 1e30);
    let (floats, corners) = (hard.list().concat(), of_rust(&hard.list()));
    let (mut out, mut count) = (vec![1.0f32; 3 * SEEDS], 0);
    let image = picture::lent(&hard.image);
    let mut theirs = Vec::new();
    let mut by_port = || timed(|| port::refine_list(image, lent, &floats, &mut out, &mut count)).0;
    let mut by_rust = || {
        let list = corners.clone();
        let (time, found) = timed(|| {
            let mut refiner = rust::SaddlePointRefiner::new(config);
            rust::refine_corners_on_image(list, Some(hard.seen()), None, &mut refiner)
        });
        theirs = found;
        time
    };
    let t = in_turn(&mut [&mut by_port, &mut by_rust], 4 * LISTS);
    let name = format!(
        "refine_list, radius {radius}: {SEEDS} seeds of {} tries",
        hard.tries
    );
    let grows = "seeds times tries (64 at most) times samples of a patch";
    worst::row(&name, &t, 1, grows);
    same(&out[..3 * count], &theirs)
}

/// The first settings refuse each seed at its first fit, which is the latest that
/// they can; the second ones then try most windows.
fn two_passes(radius: i32, hard: &Seed) -> bool {
    let [(one, first), (two, second)] = [0.0, 1e30].map(|offset| open(radius, offset));
    let (floats, corners) = (hard.list().concat(), of_rust(&hard.list()));
    let (mut out, mut passes, mut count) = (vec![1.0f32; 3 * SEEDS], vec![0u8; SEEDS], 0);
    let image = picture::lent(&hard.image);
    let mut theirs = Vec::new();
    let mut by_port = || {
        let to = Retried {
            out: &mut out,
            passes: &mut passes,
            count: &mut count,
        };
        timed(|| port::fallback(image, [one, two], &floats, to)).0
    };
    let mut by_rust = || {
        let list = corners.clone();
        let (time, found) = timed(|| {
            let [mut a, mut b] = [first, second].map(rust::SaddlePointRefiner::new);
            let seen = Some(hard.seen());
            rust::refine_corners_on_image_with_fallback(list, seen, None, &mut a, &mut b)
        });
        theirs = found;
        time
    };
    let t = in_turn(&mut [&mut by_port, &mut by_rust], 4 * LISTS);
    let name =
        format!("refine_list_fallback, radius {radius}: the same, refused by the first settings");
    worst::row(&name, &t, 1, "the same and a first fit for each seed");
    same(&out[..3 * count], &theirs)
}

pub fn rows() -> bool {
    let mut same = true;
    for radius in [1, 2, 7] {
        let hard = hardest(radius);
        same &= one_pass(radius, &hard) & two_passes(radius, &hard);
    }
    same
}
