//! The refiner's rows: lists, operators, single seeds.

use super::pitch::{self, Call};
use super::{in_turn, of_rust, ratio, timed};
use crate::{picture, port};
use oracle::plain::original as rust;
use oracle::random::Random;
use oracle::types::{Settings, Triple, View};
use oracle::{calls, pictures, plain};

const SIZE: [usize; 2] = [640, 480];
pub const SEEDS: usize = 4096;

/// Lists of each row, called one after the other.
pub const LISTS: usize = 8;

/// A board, turned so that its corners lie anywhere between pixels, blurred
/// over two pixels and with a little noise.
pub struct Board {
    size: [usize; 2],
    image: oracle::types::Image,
    corners: Vec<[f32; 2]>,
}

/// The turned axes of the board, each 24 pixels and a little long.
const ACROSS: [f32; 2] = [24.0, 3.0];
const DOWN: [f32; 2] = [-3.0, 24.0];

/// The board's image with noise of up to so many levels, by a seed.
pub fn board(seed: u64, levels: i64) -> oracle::types::Image {
    let [w, h] = SIZE;
    let det = ACROSS[0] * DOWN[1] - ACROSS[1] * DOWN[0];
    let lit = |x: f32, y: f32| {
        let i = ((x * DOWN[1] - y * DOWN[0]) / det).floor() as i32;
        let j = ((y * ACROSS[0] - x * ACROSS[1]) / det).floor() as i32;
        (i + j) & 1 == 0
    };
    let mut bytes = Vec::new();
    for k in 0..w * h {
        let (x, y) = ((k % w) as f32, (k / w) as f32);
        let points = (0..64).filter(|p| {
            let at = |p: usize| (p % 8) as f32 / 4.0 - 0.875;
            lit(x + at(*p), y + at(*p / 8))
        });
        bytes.push(40 + (points.count() * 160 / 64) as u8);
    }
    let mut image = oracle::types::Image::new(w, h, bytes);
    pictures::shake(&mut Random::of(seed, "bench"), &mut image, levels);
    image
}

/// The corners of the board that lie ten pixels inside a field.
fn corners_in(field: [usize; 2]) -> Vec<[f32; 2]> {
    let mut corners = Vec::new();
    for j in -30i32..60 {
        for i in -30i32..60 {
            let at = [0, 1].map(|k| i as f32 * ACROSS[k] + j as f32 * DOWN[k]);
            let inside = |v: f32, side: usize| v > 10.0 && v < side as f32 - 11.0;
            if inside(at[0], field[0]) && inside(at[1], field[1]) {
                corners.push(at);
            }
        }
    }
    corners
}

impl Board {
    pub fn new() -> Self {
        Board::of(SIZE)
    }

    /// The board over any size: cut off, or again and again from its first
    /// pixel on. A corner near a seam is not one of its corners.
    pub fn of(size: [usize; 2]) -> Self {
        let once = board(1, 3);
        let ([w, h], [across, down]) = (size, SIZE);
        let at = |k: usize| once.bytes[k / w % down * across + k % w % across];
        let image = oracle::types::Image::new(w, h, (0..w * h).map(at).collect());
        let mut corners = Vec::new();
        for top in (0..h).step_by(down) {
            for left in (0..w).step_by(across) {
                let field = [across.min(w - left), down.min(h - top)];
                let moved = |[x, y]: [f32; 2]| [x + left as f32, y + top as f32];
                corners.extend(corners_in(field).into_iter().map(moved));
            }
        }
        Board {
            size,
            image,
            corners,
        }
    }

    /// Seeds within 0.8 pixels of a corner on each axis, or anywhere.
    pub fn seeds(&self, random: &mut Random, near: bool) -> Vec<Triple> {
        (0..SEEDS)
            .map(|_| {
                let corner = random.pick(&self.corners);
                let [x, y] = [0, 1].map(|k| match near {
                    true => corner[k] + 1.6 * (random.unit() - 0.5),
                    false => self.size[k] as f32 * random.unit(),
                });
                [x, y, random.unit()]
            })
            .collect()
    }

    pub fn lent(&self) -> port::Image<'_> {
        picture::lent(&self.image)
    }

    pub fn rust(&self) -> rust::ImageView<'_> {
        let [w, h] = self.size;
        rust::ImageView::from_u8_slice(w, h, &self.image.bytes).expect("a whole image")
    }

    pub fn view(&self) -> View<'_> {
        View::from(&self.image)
    }
}

/// The Rust's default settings at a radius, for both sides.
pub fn settings(radius: i32) -> (Settings, port::Settings, rust::SaddlePointConfig) {
    let mut config = rust::SaddlePointConfig::default();
    config.radius = radius;
    let s = Settings {
        radius,
        ..Settings::default()
    };
    let lent = port::Settings {
        radius: radius as usize,
        det_margin: config.det_margin,
        max_offset: config.max_offset,
        min_abs_det: config.min_abs_det,
    };
    (s, lent, config)
}

/// Lists of seeds on a board at a radius, for both sides.
pub struct Lists<'a> {
    board: &'a Board,
    lent: port::Settings,
    config: rust::SaddlePointConfig,
    floats: Vec<Vec<f32>>,
    of_rust: Vec<Vec<rust::Corner>>,
}

impl<'a> Lists<'a> {
    /// Lists of the first `count` seeds of each drawing.
    pub fn new(board: &'a Board, near: bool, radius: i32, count: usize) -> Self {
        let name = if near { "near corners" } else { "anywhere" };
        let mut random = Random::of(3, name);
        let (_, lent, config) = settings(radius);
        let lists: Vec<Vec<Triple>> = (0..LISTS)
            .map(|_| board.seeds(&mut random, near)[..count].to_vec())
            .collect();
        Lists {
            board,
            lent,
            config,
            floats: lists.iter().map(|list| list.concat()).collect(),
            of_rust: lists.iter().map(|list| of_rust(list)).collect(),
        }
    }

    pub fn by_port(&self, turn: usize, out: &mut [f32], count: &mut usize) -> f64 {
        let seeds = &self.floats[turn % LISTS];
        timed(|| port::refine_list(self.board.lent(), self.lent, seeds, out, count)).0
    }

    /// The refiner is built in the call.
    pub fn by_rust(&self, turn: usize) -> f64 {
        let list = self.of_rust[turn % LISTS].clone();
        timed(|| self.of_list(list)).0
    }

    fn of_list(&self, list: Vec<rust::Corner>) -> Vec<rust::Corner> {
        let mut refiner = rust::SaddlePointRefiner::new(self.config);
        rust::refine_corners_on_image(list, Some(self.board.rust()), None, &mut refiner)
    }

    fn by_kept(&self, turn: usize, kept: &mut rust::SaddlePointRefiner) -> f64 {
        let list = self.of_rust[turn % LISTS].clone();
        timed(|| rust::refine_corners_on_image(list, Some(self.board.rust()), None, kept)).0
    }

    /// Whether ours accepts what the Rust accepts of the first list, and how many.
    pub fn same(&self) -> (bool, usize) {
        let (mut out, mut count) = (vec![1.0f32; self.floats[0].len()], 0);
        self.by_port(0, &mut out, &mut count);
        let want = self.of_list(self.of_rust[0].clone());
        let want: Vec<f32> = want.iter().flat_map(|c| [c.x, c.y, c.strength]).collect();
        (calls::same_floats(&out[..3 * count], &want), count)
    }
}

fn list(board: &Board, near: bool, radius: i32) -> bool {
    let name = if near { "near corners" } else { "anywhere" };
    let lists = Lists::new(board, near, radius, SEEDS);
    let (mut out, mut count) = (vec![1.0f32; 3 * SEEDS], 0);
    let mut kept = rust::SaddlePointRefiner::new(lists.config);
    let (mut turn, mut built_turn, mut kept_turn) = (0, 0, 0);
    let mut by_port = || {
        turn += 1;
        lists.by_port(turn, &mut out, &mut count)
    };
    let mut by_built = || {
        built_turn += 1;
        lists.by_rust(built_turn)
    };
    let mut by_kept = || {
        kept_turn += 1;
        lists.by_kept(kept_turn, &mut kept)
    };
    let t = in_turn(&mut [&mut by_port, &mut by_built, &mut by_kept], 20 * LISTS);
    let (same, count) = lists.same();
    println!(
        "| list {name}, radius {radius}: {SEEDS} to {count} | {} | {} | {} | {} | {} | {} | {} |",
        t[0].told(),
        t[1].told(),
        ratio(&t[0], &t[1]),
        t[2].told(),
        ratio(&t[0], &t[2]),
        t[0].each(SEEDS),
        t[1].each(SEEDS),
    );
    same
}

/// Lists near corners at several pitches.
fn padded_list(board: &Board, radius: i32) -> bool {
    let mut random = Random::of(3, "padded");
    let (_, lent, _) = settings(radius);
    let floats: Vec<Vec<f32>> = (0..LISTS)
        .map(|_| board.seeds(&mut random, true).concat())
        .collect();
    let images = pitch::at_pitches(&board.image);
    let mut outs = vec![vec![1.0f32; 3 * SEEDS]; 3];
    let sides = images.iter().zip(&mut outs).map(|(image, out)| {
        let (mut turn, mut count) = (0, 0);
        let floats = &floats;
        let call = move || {
            turn += 1;
            let seeds = &floats[turn % LISTS];
            timed(|| port::refine_list(picture::lent(image), lent, seeds, out, &mut count)).0
        };
        Box::new(call) as Call<'_>
    });
    let name = format!("list near corners, radius {radius}: {SEEDS} seeds");
    pitch::row(&name, &mut sides.collect::<Vec<_>>(), 10 * LISTS);
    outs.iter().all(|out| calls::same_floats(out, &outs[0]))
}

/// Operators of a radius built in one timing.
const BUILT: usize = 16;

fn operator(radius: i32) -> bool {
    let (_, _, config) = settings(radius);
    let mut columns = [0.0; port::COLUMNS];
    let mut overlap = [0.0; port::OVERLAP];
    let mut by_port = || {
        timed(|| {
            for _ in 0..BUILT {
                port::fit_operator(radius as usize, &mut columns, &mut overlap);
            }
        })
        .0
    };
    let mut by_rust = || {
        timed(|| {
            for _ in 0..BUILT {
                std::hint::black_box(rust::SaddlePointRefiner::new(config));
            }
        })
        .0
    };
    let t = in_turn(&mut [&mut by_port, &mut by_rust], 400);
    println!(
        "| operator, radius {radius} | {} | {} | {} |",
        t[0].told_each(BUILT),
        t[1].told_each(BUILT),
        ratio(&t[0], &t[1]),
    );
    let want = calls::operator(radius).expect("an operator");
    let entries: Vec<f32> = want.columns.concat();
    calls::same_floats(&columns[..entries.len()], &entries)
        && calls::same_floats(&overlap, &want.overlap.concat().concat())
}

/// Single calls over the seeds of a list, with an operator built before.
fn single(board: &Board, radius: i32, covariance: bool) -> bool {
    let mut random = Random::of(4, "single");
    let (s, lent, _) = settings(radius);
    let seeds = board.seeds(&mut random, true);
    let mut columns = [0.0; port::COLUMNS];
    let mut overlap = [0.0; port::OVERLAP];
    port::fit_operator(radius as usize, &mut columns, &mut overlap);
    let wanted = u32::from(covariance);
    let call = |seed: &Triple, place: &mut [f32; 3]| {
        let mut state = [0; 3];
        let mut entries = [0.0; 3];
        let answer = port::Answer {
            place,
            state: &mut state,
            covariance: &mut entries,
        };
        let at = [seed[0], seed[1]];
        let number = port::refine_with(board.lent(), lent, at, wanted, &columns, &overlap, answer);
        (number, state, entries)
    };
    let mut by_port = || {
        let mut place = [0.0; 3];
        timed(|| {
            for seed in &seeds {
                std::hint::black_box(call(seed, &mut place));
            }
        })
        .0
    };
    let mut refiner = plain::Refiner::new(&s, covariance);
    let mut by_rust = || {
        timed(|| {
            for seed in &seeds {
                std::hint::black_box(refiner.refine(board.view(), [seed[0], seed[1]]));
            }
        })
        .0
    };
    let mut alone = plain::Refiner::new(&s, covariance);
    let mut by_estimate = || {
        timed(|| {
            for seed in &seeds {
                std::hint::black_box(alone.estimate(board.view(), [seed[0], seed[1]]));
            }
        })
        .0
    };
    let t = in_turn(&mut [&mut by_port, &mut by_rust, &mut by_estimate], 100);
    let asked = if covariance { "with" } else { "without" };
    println!(
        "| one seed, radius {radius}, {asked} covariance | {} | {} | {} | {} | {} |",
        t[0].told_each(SEEDS),
        t[1].told_each(SEEDS),
        ratio(&t[0], &t[1]),
        t[2].told_each(SEEDS),
        ratio(&t[0], &t[2]),
    );
    seeds.iter().all(|seed| {
        let mut place = [0.0; 3];
        let (number, state, entries) = call(seed, &mut place);
        let want = plain::Refiner::new(&s, covariance).refine(board.view(), [seed[0], seed[1]]);
        let given = want.covariance.is_some();
        number == want.status
            && calls::same_floats(&place, &[want.x, want.y, want.score])
            && (number != 0 || (state[0] == 1) == want.converged)
            && (number != 0 || (state[2] == 1) == given)
            && (!given || calls::same_floats(&entries, &want.covariance.unwrap_or_default()))
    })
}

pub fn tables() -> bool {
    let board = Board::new();
    let mut same = true;
    println!("| call: seeds in to records | ours | the Rust's, refiner built in the call | ours / Rust | the Rust's, refiner built before | ours / Rust | ours, ns a seed | the Rust's, built in the call |");
    println!("|---|---|---|---|---|---|---|---|");
    for radius in [2, 7] {
        for near in [true, false] {
            same &= list(&board, near, radius);
        }
    }
    pitch::head();
    for radius in [2, 7] {
        same &= padded_list(&board, radius);
    }
    println!("\nNanoseconds of one.\n");
    println!("| call | ours | the Rust's | ours / Rust |");
    println!("|---|---|---|---|");
    for radius in 1..=7 {
        same &= operator(radius);
    }
    println!("\n| call | ours | the Rust's `refine` | ours / Rust | the Rust's estimate alone | ours / estimate |");
    println!("|---|---|---|---|---|---|");
    for radius in [2, 7] {
        for covariance in [false, true] {
            same &= single(&board, radius, covariance);
        }
    }
    same
}
