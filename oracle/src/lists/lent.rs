//! Single seeds with a lent operator of any content: one picture, one set of
//! settings and one operator a case, and several seeds.

use super::*;
use crate::{pictures, plain};

/// A run by its number: all that a call is lent.
pub struct Lent {
    pub image: Image,
    pub settings: Settings,
    pub operator: LentOperator,
    pub seed: [f32; 2],
}

impl Lent {
    /// The answer, covariance asked for, and the counts.
    pub fn run(&self) -> (Refined, Run) {
        let image = (&self.image).into();
        calls::refine_lent_kept(image, &self.settings, &self.operator, self.seed, true)
    }
}

thread_local! {
    /// The Rust's own operators of radius 1 to 7.
    static OWN: Vec<LentOperator> = (1..=7).map(own).collect();
}

fn own(radius: i32) -> LentOperator {
    let op = plain::operator(radius).expect("an operator from radius 1 on");
    let mut lent = LentOperator {
        columns: [0.0; 1125],
        overlap: [0.0; 225],
    };
    lent.columns[..5 * op.columns.len()].copy_from_slice(op.columns.as_flattened());
    lent.overlap
        .copy_from_slice(op.overlap.as_flattened().as_flattened());
    lent
}

/// A factor of any size.
fn any_factor(random: &mut Random) -> f32 {
    match random.below(12) {
        0 => random.pick(&[0.0, -1.0, 1e-45, f32::MAX, f32::INFINITY, f32::NAN]),
        1..=4 => 1.0,
        5..=8 => 10.0f32.powi(random.between(-6, 6) as i32),
        _ => 10.0f32.powi(random.between(-30, 30) as i32),
    }
}

/// The Rust's own operator, each of its five rows times a factor, and the overlaps
/// times another.
fn scaled(random: &mut Random, radius: i32) -> LentOperator {
    let mut op = OWN.with(|all| all[radius as usize - 1].clone());
    let all = any_factor(random);
    let each: [f32; 5] = match random.once_in(2) {
        true => [all; 5],
        false => core::array::from_fn(|_| any_factor(random)),
    };
    for (k, v) in op.columns.iter_mut().enumerate() {
        *v *= each[k % 5];
    }
    let by = any_factor(random);
    op.overlap.iter_mut().for_each(|v| *v *= by);
    op
}

/// Numbers about zero, each row with a factor of its own.
fn loose(random: &mut Random) -> LentOperator {
    let each: [f32; 5] = core::array::from_fn(|_| any_factor(random));
    let by = any_factor(random);
    LentOperator {
        columns: core::array::from_fn(|k| (random.unit() - 0.5) * each[k % 5]),
        overlap: core::array::from_fn(|_| (random.unit() - 0.5) * by),
    }
}

/// The Rust's own operator with some of its numbers as others.
fn spoilt(random: &mut Random, radius: i32) -> LentOperator {
    let mut op = OWN.with(|all| all[radius as usize - 1].clone());
    let used = 5 * (2 * radius as usize + 1).pow(2);
    for _ in 0..1 + random.below(8) {
        let at = random.below(used);
        op.columns[at] *= any_factor(random);
        let at = random.below(225);
        op.overlap[at] *= any_factor(random);
    }
    op
}

/// Any bits.
fn wild(random: &mut Random) -> LentOperator {
    LentOperator {
        columns: core::array::from_fn(|_| f32::from_bits(random.word())),
        overlap: core::array::from_fn(|_| f32::from_bits(random.word())),
    }
}

/// An operator for a radius, which may be one that has none.
pub fn any_operator(random: &mut Random, radius: i32) -> LentOperator {
    let radius = radius.clamp(1, 7);
    match random.below(16) {
        0 => wild(random),
        1..=5 => loose(random),
        6..=9 => spoilt(random, radius),
        _ => scaled(random, radius),
    }
}

/// The run of a number, on a picture on which the steps have a hard time.
pub fn numbered(number: u64) -> Lent {
    let mut random = Random::of(number, "lent");
    let radius = random.pick(&[1, 1, 1, 2, 2, 3]);
    let side = random.between(6, 12) as usize;
    let at = |random: &mut Random| {
        let r = radius as f32;
        r + random.unit() * (side as f32 - 1.0 - 2.0 * r)
    };
    Lent {
        settings: refine::through(radius),
        operator: any_operator(&mut random, radius),
        image: pictures::hard(&mut random, side),
        seed: [at(&mut random), at(&mut random)],
    }
}

/// Runs found by `oracle lent`: a base that leaves 32 bits, and a seed that converged
/// without a finite covariance.
const MET: [u64; 2] = [4_722_099, 1_736];

/// These runs.
pub fn met() -> [Lent; 2] {
    MET.map(numbered)
}

fn write(list: &mut List, lent: &Lent, seeds: &[[f32; 2]], covariance: bool) {
    let Lent {
        image,
        settings: s,
        operator,
        ..
    } = lent;
    let mut case = Case::new();
    put_image(&mut case, image);
    put_settings(&mut case, s);
    case.flag(covariance)
        .count(seeds.len())
        .floats(&operator.columns)
        .floats(&operator.overlap);
    for &seed in seeds {
        let found = calls::refine_lent(image.into(), s, operator, seed, covariance);
        refine::put_seed(list, &mut case, seed, covariance, found);
    }
    list.push(&case);
    list.tally(format!("cases of radius {}", s.radius));
}

/// Settings that no number refuses; half of the time all is let through, or all but
/// small determinants.
fn any_settings(random: &mut Random) -> Settings {
    let good = good_settings(random);
    match random.below(4) {
        0 => refine::through(good.radius),
        1 => Settings {
            min_abs_det: 10.0f32.powi(random.between(-3, 6) as i32),
            ..refine::through(good.radius)
        },
        _ => good,
    }
}

/// A coordinate whose patch lies inside, now and then another.
fn any_place(random: &mut Random, size: u64, radius: i32) -> f32 {
    let (r, last) = (radius as f32, size as f32 - 1.0);
    match random.below(8) {
        0 => place(random, size),
        _ => r + random.unit() * (last - 2.0 * r),
    }
}

/// A picture, settings that no number refuses and any operator.
fn any(random: &mut Random) -> Lent {
    let settings = any_settings(random);
    let least = (2 * settings.radius + 1) as i64;
    let [w, h] = [0, 1].map(|_| random.between(least, least + 9) as usize);
    Lent {
        operator: any_operator(random, settings.radius),
        image: match random.once_in(3) {
            true => pictures::hard(random, w.max(7)),
            false => pictures::any(random, w, h),
        },
        settings,
        seed: [0.0; 2],
    }
}

pub fn list(seed: u64) -> List {
    let mut list = List::new("lent");
    for met in met() {
        write(&mut list, &met, &[met.seed], true);
    }
    let mut random = Random::of(seed, "lent list");
    while list.size() < ENOUGH {
        let lent = any(&mut random);
        let [width, height] = [lent.image.width, lent.image.height];
        let radius = lent.settings.radius;
        let at = |random: &mut Random, size| any_place(random, size, radius);
        let seeds: Vec<[f32; 2]> = (0..random.between(12, 24))
            .map(|_| [at(&mut random, width), at(&mut random, height)])
            .collect();
        let covariance = !random.once_in(8);
        write(&mut list, &lent, &seeds, covariance);
    }
    list
}
