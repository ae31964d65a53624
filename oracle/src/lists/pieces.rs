//! The private pieces of the refiner, one by one: fit, window, blend and
//! slope, Newton step, sensitivity, covariance. All answers are the Rust's.

use super::*;
use crate::{pictures, plain};

/// A float of a size that fits have, now and then odd.
fn size(random: &mut Random) -> f32 {
    match random.below(24) {
        0 => 0.0,
        1 => -0.0,
        2 => random.between(-4, 4) as f32,
        3 => f32::from_bits(
            (random.word() & 0x807F_FFFF) | ((random.between(100, 150) as u32) << 23),
        ),
        4 if random.once_in(3) => {
            random.pick(&[f32::NAN, f32::INFINITY, f32::NEG_INFINITY, 1e-45, f32::MAX])
        }
        _ => (random.unit() - 0.5) * 40.0,
    }
}

fn sizes<const N: usize>(random: &mut Random) -> [f32; N] {
    [(); N].map(|()| size(random))
}

/// A fraction as a window has it: 0 to 1, both ends among them.
fn fraction(random: &mut Random) -> f32 {
    match random.below(8) {
        0 => 0.0,
        1 => 1.0,
        2 => 0.5,
        3 => 0.999_999_94,
        _ => random.unit(),
    }
}

/// One fit: the rows of its patch are padded, and the Rust has the patch alone.
fn put_fit(list: &mut List, patch: &Image, padded: &Image, radius: i32) {
    let Some(coefs) = plain::fit(patch, radius, [radius, radius]) else {
        return;
    };
    let mut case = Case::new();
    case.int(radius)
        .count(padded.pitch as usize)
        .bytes(&padded.bytes)
        .floats(&coefs);
    list.push(&case);
    list.tally(format!("radius {radius}"));
    list.tally(padding::kind(padded.into()));
    if coefs.iter().any(|c| c.to_bits() == 0x8000_0000) {
        list.tally("a coefficient -0.0");
    }
}

pub fn fit(seed: u64) -> List {
    let mut list = List::new("fit");
    let mut random = Random::of(seed, "fit");
    let mut beside = Random::of(seed, "fit padding");
    for i in 0..420 {
        let radius = 1 + i % 7;
        let side = (2 * radius + 1) as usize;
        let image = match i % 21 {
            0 => pictures::flat(side, side, 0),
            1 => pictures::flat(side, side, 255),
            2 => pictures::few_levels(&mut random, side, side, &[0, 255]),
            _ => pictures::any(&mut random, side, side),
        };
        let padded = padding::at_times(&mut beside, image.clone());
        put_fit(&mut list, &image, &padded, radius);
    }
    let patch = pictures::noise(&mut random, 3, 3);
    for padded in padding::far(&mut beside, &patch) {
        put_fit(&mut list, &patch, &padded, 1);
    }
    list
}

pub fn window(seed: u64) -> List {
    let mut list = List::new("window");
    let mut random = Random::of(seed, "window");
    let odd = [
        0.0,
        -0.0,
        0.5,
        -0.5,
        1.0,
        -1.0,
        0.999_999_94,
        -1e-10,
        1e-10,
        -1e-45,
        -0.999_999_94,
        7.5,
        -7.5,
        8_191.5,
        -8_192.0,
        8_388_607.5,
        13_421_770.0,
        2_147_483_520.0,
        -2_147_483_648.0,
        2_147_483_648.0,
        3e9,
        -3e9,
        f32::INFINITY,
        f32::NEG_INFINITY,
        f32::NAN,
        f32::MAX,
    ];
    let mut cases: Vec<([i32; 2], [f32; 2])> = Vec::new();
    for &a in &odd {
        for centre in [0, 1, 4095] {
            cases.push(([centre, 7], [a, 0.25]));
            cases.push(([7, centre], [-0.25, a]));
        }
        cases.push(([0, 0], [a, a]));
    }
    for i in 0..600 {
        let centre = [random.below(4096) as i32, random.below(4096) as i32];
        let offset = [(); 2].map(|()| match i % 3 {
            0 => (random.unit() - 0.5) * 4.0,
            1 => (random.unit() - 0.5) * 16.0,
            _ => size(&mut random),
        });
        cases.push((centre, offset));
    }
    for (centre, offset) in cases {
        // In whole numbers; where it leaves 32 bits, document 01 decides.
        let fits = (0..2).all(|k| {
            i32::try_from(i64::from(centre[k]) + i64::from(offset[k].floor() as i32)).is_ok()
        });
        let mut case = Case::new();
        case.int(centre[0])
            .int(centre[1])
            .floats(&offset)
            .flag(fits);
        if fits {
            let (base, t) = plain::window(centre, offset);
            case.int(base[0]).int(base[1]).floats(&t);
            list.tally("a base of 32 bits");
            if t.contains(&1.0) {
                list.tally("a fraction that rounds to 1");
            }
        } else {
            case.int(0).int(0).floats(&[0.0, 0.0]);
            list.tally("a base that leaves 32 bits: document 01 decided");
        }
        list.push(&case);
    }
    list
}

pub fn blend(seed: u64) -> List {
    let mut list = List::new("blend");
    let mut random = Random::of(seed, "blend");
    for i in 0..400 {
        let corners: [[[f32; 5]; 2]; 2] = match i {
            0 => [[[0.0; 5]; 2]; 2],
            1 => [[[-0.0; 5]; 2]; 2],
            2 => [[[1.0; 5]; 2]; 2],
            _ => [(); 2].map(|()| [(); 2].map(|()| sizes(&mut random))),
        };
        let t = [fraction(&mut random), fraction(&mut random)];
        let (coefs, slope) = plain::blend(corners, t);
        let mut case = Case::new();
        case.floats(&corners.concat().concat())
            .floats(&t)
            .floats(&coefs)
            .floats(&slope.concat());
        list.push(&case);
        list.tally("cases");
    }
    list
}

pub fn newton(seed: u64) -> List {
    let mut list = List::new("newton");
    let mut random = Random::of(seed, "newton");
    let mut cases: Vec<([f32; 4], [f32; 2])> = vec![
        ([0.0; 4], [1.0, 1.0]),
        ([-1.0, 0.0, 0.0, -1.0], [0.5, -0.25]),
        ([-1.0, 0.0, 0.0, -1.0], [0.0, -0.0]),
        ([1.0, 0.0, 0.0, 1.0], [0.5, 0.5]),
        // The determinant at 0.05 and about it; the trace at 0.
        ([-1.0, 0.0, 0.0, -0.05], [1.0, 1.0]),
        ([-1.0, 0.0, 0.0, -0.050_000_004], [1.0, 1.0]),
        ([-1.0, 0.0, 0.0, -0.049_999_997], [1.0, 1.0]),
        ([-1.0, 2.0, -2.0, 1.0], [1.0, 1.0]),
        ([-1.0, 2.0, -2.0, 0.999_999_94], [1.0, 1.0]),
        ([1.0, 2.0, -2.0, -0.999_999_94], [1.0, 1.0]),
        ([f32::NAN, 0.0, 0.0, -1.0], [1.0, 1.0]),
        ([f32::NEG_INFINITY, 0.0, 0.0, -1.0], [1.0, 1.0]),
        ([f32::NEG_INFINITY, 1.0, 1.0, f32::NEG_INFINITY], [1.0, 1.0]),
        ([-1e20, 0.0, 0.0, -1e20], [1.0, 1.0]),
        ([-1e-9, 0.0, 0.0, -1e9], [1.0, 1.0]),
    ];
    for i in 0..800 {
        let m = if i % 3 == 0 {
            sizes(&mut random)
        } else {
            [
                -random.unit() * 1.2,
                (random.unit() - 0.5) * 0.6,
                (random.unit() - 0.5) * 0.6,
                -random.unit() * 1.2,
            ]
        };
        let u = [(random.unit() - 0.5) * 4.0, (random.unit() - 0.5) * 4.0];
        cases.push((m, u));
    }
    for (m, u) in cases {
        let step = plain::newton_step([[m[0], m[1]], [m[2], m[3]]], u);
        let mut case = Case::new();
        case.floats(&m)
            .floats(&u)
            .flag(step.is_some())
            .floats(&step.unwrap_or([0.0; 2]));
        list.push(&case);
        list.tally(if step.is_some() { "a step" } else { "no step" });
    }
    list
}

/// A saddle that `solve` gives.
fn seeded_saddle(random: &mut Random) -> Saddle {
    let open = Settings {
        det_margin: 0.0,
        min_abs_det: 0.0,
        ..Settings::default()
    };
    loop {
        if let Ok(saddle) = plain::solve(&open, sizes(random)) {
            return saddle;
        }
    }
}

pub fn sensitivity(seed: u64) -> List {
    let mut list = List::new("sensitivity");
    let mut random = Random::of(seed, "sensitivity");
    for i in 0..600 {
        let saddle = match i {
            0 | 1 => Saddle {
                u: [0.0, -0.0],
                quad: [1.0, 0.0, -1.0],
                det: -4.0,
            },
            // Every product of the first row is -0.0, and so is the sum.
            2 => Saddle {
                u: [0.5, 0.5],
                quad: [1.0, 0.0, -1.0],
                det: -4.0,
            },
            _ => seeded_saddle(&mut random),
        };
        let slope: [[f32; 5]; 2] = match i {
            0 | 2 => [[0.0; 5]; 2],
            1 => [[-0.0; 5]; 2],
            _ => [sizes(&mut random), sizes(&mut random)],
        };
        let (jac, m) = plain::sensitivity(&saddle, &slope);
        let mut case = Case::new();
        case.floats(&saddle.u)
            .floats(&saddle.quad)
            .float(saddle.det)
            .floats(&slope.concat())
            .floats(&jac.concat())
            .floats(&m.concat());
        list.push(&case);
        list.tally("cases");
        if m.concat().iter().any(|v| v.to_bits() == 0x8000_0000) {
            list.tally("a sum that is -0.0");
        }
    }
    list
}

pub fn covariance(seed: u64) -> List {
    let mut list = List::new("covariance");
    let mut random = Random::of(seed, "covariance");
    for i in 0..600 {
        let radius = 1 + i % 7;
        let t = [fraction(&mut random), fraction(&mut random)];
        let saddle = seeded_saddle(&mut random);
        let slope = [sizes(&mut random), sizes(&mut random)];
        let (jac, m) = plain::sensitivity(&saddle, &slope);
        let answer = plain::covariance(radius, t, &jac, m);
        let mut case = Case::new();
        case.int(radius)
            .floats(&t)
            .floats(&jac.concat())
            .floats(&m.concat())
            .flag(answer.is_some())
            .floats(&answer.unwrap_or([0.0; 3]));
        list.push(&case);
        list.tally(if answer.is_some() {
            "a covariance"
        } else {
            "not finite"
        });
    }
    list
}
