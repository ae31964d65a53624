//! Single seeds: one picture and one set of settings a case, and several
//! seeds.

use super::*;
use crate::rust_or_rule::Decided;
use crate::{pictures, plain};

/// One seed's record, 14 words, by its answer, the counts of its run and who decided.
pub fn put_seed(
    list: &mut List,
    case: &mut Case,
    seed: [f32; 2],
    covariance: bool,
    (a, run, decided): (Refined, Run, Decided),
) {
    case.floats(&seed);
    let number = a.status;
    put_decision(case, Decision { number, decided });
    case.float(a.x)
        .float(a.y)
        .float(a.score)
        .flag(a.converged)
        .word(run.tries)
        .flag(a.covariance.is_some())
        .floats(&a.covariance.unwrap_or([0.0; 3]));
    list.tally(number_name(a.status));
    list.tally(decided.name());
    if a.status == 0 {
        assert!(a.score > 0.0, "an accepted score is above zero");
        assert!(run.tries <= 64);
        tally_run(list, &a, &run, covariance);
    }
}

/// The counts of an accepted seed's run.
fn tally_run(list: &mut List, a: &Refined, run: &Run, covariance: bool) {
    list.tally(match run.tries {
        0 => "tries 0",
        1 => "tries 1",
        2..=4 => "tries 2 to 4",
        5..=16 => "tries 5 to 16",
        17..=40 => "tries 17 to 40",
        41..=63 => "tries 41 to 63",
        _ => "tries 64",
    });
    list.tally(match (a.converged, covariance, a.covariance.is_some()) {
        (false, _, _) => "accepted, not converged",
        (true, false, _) => "converged, covariance not asked for",
        (true, true, false) => "converged, covariance asked for and not finite",
        (true, true, true) => "converged, with covariance",
    });
    let below = !a.converged && !run.stuck && run.steps < 16;
    for (holds, what) in [
        (run.newtons > 0, "run with a Newton step"),
        (run.stuck, "run that stops: no candidate taken"),
        (run.steps == 16, "run of 16 steps"),
        (run.fits > 9, "run with more fits than the cache holds"),
        (run.far > 0, "run with a base that leaves 32 bits"),
        (
            run.reach >= 8192.0,
            "run with a candidate farther than 8,192 pixels",
        ),
        (run.fresh_slope, "slope without the four cached fits"),
        (below, "below the tolerance, not converged"),
    ] {
        if holds {
            list.tally(what);
        }
    }
}

fn write(list: &mut List, image: &Image, s: &Settings, seeds: &[[f32; 2]], covariance: bool) {
    let mut case = Case::new();
    put_image(&mut case, image);
    put_settings(&mut case, s);
    case.flag(covariance).count(seeds.len());
    for &seed in seeds {
        let found = calls::refine_one(image.into(), s, seed, covariance);
        put_seed(list, &mut case, seed, covariance, found);
    }
    list.push(&case);
    list.tally(format!("cases of radius {}", s.radius));
    list.tally(padding::kind(image.into()));
}

/// A saddle on 9 by 9 pixels, exact at (4, 4).
pub fn exact_saddle() -> Image {
    pictures::surface(9, 9, [4, 4], [2, 0, -2, 0, 0], 1)
}

/// A corner between pixels.
pub fn plain_corner() -> Image {
    pictures::Corner {
        centre: [1600, 1500],
        a: [8, 1],
        b: [-1, 8],
        dark: 30,
        light: 220,
        blur: 2,
    }
    .draw(13, 13)
}

/// A corner on which the steps start and then fail, its seed and settings.
pub fn stuck_corner() -> (Image, [f32; 2]) {
    let mut random = Random::of(STUCK, "stuck");
    let image = pictures::any(&mut random, 13, 13);
    (image, [6.0, 6.0])
}

pub fn stuck_settings() -> Settings {
    Settings::default()
}

/// The seed number of that picture, the first found by `oracle hunt`.
pub const STUCK: u64 = 24;

/// A picture from rows of digits, each times `step`.
fn digits(rows: &[&str], step: u8) -> Image {
    let bytes: Vec<u8> = rows
        .iter()
        .flat_map(|row| row.bytes().map(|d| (d - b'0') * step))
        .collect();
    Image::new(rows[0].len(), rows.len(), bytes)
}

/// Settings that let everything through.
pub fn through(radius: i32) -> Settings {
    Settings {
        radius,
        det_margin: 0.0,
        max_offset: 1e30,
        min_abs_det: 0.0,
    }
}

/// The number of the picture with 64 tries, the first found by `oracle tries`.
const MOST_TRIES: u64 = 894_527;

/// A picture of 32 by 30 by its number, and a seed about its middle.
pub fn wide(number: u64) -> (Image, [f32; 2]) {
    let mut random = Random::of(number, "wide");
    let image = match random.below(4) {
        0 => pictures::noise(&mut random, 32, 30),
        1 => pictures::few_levels(&mut random, 32, 30, &[0, 255]),
        2 => pictures::few_levels(&mut random, 32, 30, &[0, 0, 0, 1, 2]),
        _ => pictures::any(&mut random, 32, 30),
    };
    let at = [8.0 + 16.0 * random.unit(), 8.0 + 14.0 * random.unit()];
    (image, at)
}

/// Runs met by `oracle hunt`, `oracle far` and `oracle tries`: picture, radius, seed.
pub fn met() -> Vec<(Image, i32, [f32; 2])> {
    let (most, seed) = wide(MOST_TRIES);
    vec![
        // 64 tries.
        (most, 7, seed),
        // Candidates 368,377,800, 55,924,068, 13,421,770 and 5,592,405
        // pixels away.
        (
            Image::new(
                7,
                7,
                (0..49)
                    .map(|k| {
                        let p = [0, 12, 10, 11, 19, 7, 18];
                        let q = [11, 12, 11, 11, 10, 12, 14];
                        if k / 7 % 2 == 0 {
                            p[k % 7]
                        } else {
                            q[k % 7]
                        }
                    })
                    .collect(),
            ),
            2,
            [4.0, 3.0],
        ),
        (
            Image::new(
                4,
                4,
                [
                    [10, 10, 10, 10],
                    [27, 6, 6, 9],
                    [10, 10, 10, 10],
                    [27, 6, 6, 9],
                ]
                .concat(),
            ),
            1,
            [2.0, 2.0],
        ),
        (
            digits(
                &["121000", "021220", "021010", "202001", "021001", "202011"],
                1,
            ),
            1,
            [2.0, 3.0],
        ),
        (
            digits(
                &["101020", "110101", "100011", "012102", "221000", "020001"],
                1,
            ),
            1,
            [2.0, 2.0],
        ),
        // 63 tries.
        (
            digits(
                &[
                    "000100100110",
                    "001111001111",
                    "111101001101",
                    "101011111000",
                    "000100101011",
                    "110111011000",
                    "110010010000",
                    "110001010100",
                    "001101011101",
                    "101101101110",
                    "010111101000",
                    "001011000110",
                ],
                255,
            ),
            2,
            [7.197_636_6, 1.823_254_8],
        ),
    ]
}

/// The bits one above those of a number above zero.
fn above(x: f32) -> f32 {
    f32::from_bits(x.to_bits() + 1)
}

fn borders(list: &mut List) {
    let image = plain_corner();
    let base = Settings::default();
    // Seeds at the rim, half-way, saturated and odd, at every radius.
    for radius in 0..=7 {
        let s = Settings { radius, ..base };
        let r = radius as f32;
        let last = 12.0 - r;
        let m = 6.0;
        let seeds = [
            [m, m],
            [r, m],
            [r - 0.5, m],
            [r - 0.500_001, m],
            [r - 1.0, m],
            [m, r - 0.5],
            [m, r - 1.0],
            [last, m],
            [last + 0.499_999, m],
            [last + 0.5, m],
            [m, last + 0.5],
            [m, last + 1.0],
            [f32::NAN, m],
            [m, f32::NAN],
            [f32::NAN, f32::NAN],
            [f32::INFINITY, m],
            [m, f32::NEG_INFINITY],
            [f32::NEG_INFINITY, f32::INFINITY],
            [3e9, m],
            [m, -3e9],
            [2_147_483_520.0, m],
            [m, -2_147_483_648.0],
            [-0.0, -0.0],
            [0.499_999_97, 0.499_999_97],
            [-0.499_999_97, 0.0],
            [-0.5, 0.5],
        ];
        write(list, &image, &s, &seeds, true);
    }
    // The least pictures: one patch, and one pixel less on a side.
    for radius in 0..=7usize {
        let s = Settings {
            radius: radius as i32,
            det_margin: 0.0,
            min_abs_det: 0.0,
            max_offset: 8.0,
        };
        let side = 2 * radius + 1;
        for (w, h) in [
            (side, side),
            (side, (side - 1).max(1)),
            (side + 1, side),
            (1, 1),
        ] {
            let image =
                pictures::surface(w, h, [radius as i64, radius as i64], [2, 1, -2, 1, 0], 1);
            let m = radius as f32;
            write(
                list,
                &image,
                &s,
                &[[m, m], [m + 0.4, m], [m, m - 0.4], [0.0, 0.0]],
                true,
            );
        }
    }
    // Ties at the limits of the determinant, found from the first fit.
    for (image, seed) in [(exact_saddle(), [4.0, 4.0]), (plain_corner(), [6.0, 6.0])] {
        for radius in [1, 2, 3] {
            let s = Settings { radius, ..base };
            let blind = Settings {
                min_abs_det: f32::MAX,
                ..s
            };
            let det = plain::Refiner::new(&blind, false)
                .refine(&image, seed)
                .score;
            assert!(det < 0.0);
            for s in [
                Settings {
                    det_margin: -det,
                    ..s
                },
                Settings {
                    det_margin: above(-det),
                    ..s
                },
                Settings {
                    min_abs_det: -det,
                    ..s
                },
                Settings {
                    min_abs_det: above(-det),
                    ..s
                },
                Settings {
                    det_margin: -det,
                    min_abs_det: -det,
                    ..s
                },
                Settings {
                    det_margin: above(-det),
                    min_abs_det: above(-det),
                    ..s
                },
            ] {
                write(list, &image, &s, &[seed], true);
            }
        }
    }
    // The box is inclusive: the saddle is exact at (4, 4).
    let image = exact_saddle();
    for (max_offset, seed) in [
        (0.0, [4.0, 4.0]),
        (-0.0, [4.0, 4.0]),
        (0.5, [3.5, 4.0]),
        (0.499_999_97, [3.5, 4.0]),
        (0.25, [4.0, 4.25]),
        (0.249_999_98, [4.0, 4.25]),
        (0.5, [4.0, 4.499_999_5]),
        (1e-45, [4.0, 4.0]),
    ] {
        write(
            list,
            &image,
            &Settings { max_offset, ..base },
            &[seed],
            true,
        );
    }
    // The half-side is at most radius + 0.5, however great max_offset is.
    let slope = pictures::surface(11, 11, [5, 5], [2, 0, -2, 10, 0], 1);
    let steep = pictures::surface(11, 11, [5, 5], [2, 0, -2, 13, 0], 1);
    for image in [&slope, &steep] {
        for max_offset in [1e30, 2.5, f32::MAX, 2.4, 3.0] {
            let s = Settings { max_offset, ..base };
            write(list, image, &s, &[[5.0, 5.0], [4.6, 5.0], [5.4, 5.0]], true);
        }
    }
    // Without a clear saddle: flat, bowl, ramp; thresholds 0 and not.
    let pictures = [
        pictures::flat(9, 9, 0),
        pictures::flat(9, 9, 255),
        pictures::surface(9, 9, [4, 4], [2, 0, 2, 0, 0], 1),
        pictures::surface(9, 9, [4, 4], [-2, 0, -2, 0, 0], 1),
        pictures::surface(9, 9, [4, 4], [0, 0, 0, 5, -3], 1),
        pictures::surface(9, 9, [4, 4], [3, 0, 0, 1, 0], 1),
    ];
    for image in &pictures {
        for (det_margin, min_abs_det) in [(0.0, 0.0), (1e-3, 1e-4), (0.0, 1e-4), (-0.0, -0.0)] {
            let s = Settings {
                det_margin,
                min_abs_det,
                ..base
            };
            write(list, image, &s, &[[4.0, 4.0], [3.0, 5.0]], false);
        }
    }
    refusals(list);
}

fn refusals(list: &mut List) {
    let base = Settings::default();
    let image = exact_saddle();
    let seeds = [[4.0, 4.0], [f32::NAN, 0.0], [99.0, 99.0]];
    for radius in [i32::MIN, -1, 8, 9, 100] {
        write(list, &image, &Settings { radius, ..base }, &seeds, true);
    }
    for bad in [
        f32::NAN,
        f32::INFINITY,
        f32::NEG_INFINITY,
        -1.0,
        -1e-45,
        f32::MIN,
    ] {
        write(
            list,
            &image,
            &Settings {
                det_margin: bad,
                ..base
            },
            &seeds,
            true,
        );
        write(
            list,
            &image,
            &Settings {
                max_offset: bad,
                ..base
            },
            &seeds,
            true,
        );
        write(
            list,
            &image,
            &Settings {
                min_abs_det: bad,
                ..base
            },
            &seeds,
            true,
        );
    }
    for (width, height, count) in [
        (0, 0, 0),
        (9, 0, 0),
        (0, 9, 0),
        (9, 9, 80),
        (9, 9, 82),
        (4097, 1, 4097),
        (1, 4097, 4097),
        (4096, 1, 4096),
        (1, 4096, 4096),
        (1 << 32, 1 << 32, 0),
        ((1 << 32) + 9, 9, 81),
        (usize::MAX, 1, 1),
    ] {
        let image = Image::new(width, height, vec![3; count]);
        write(list, &image, &base, &seeds[..2], true);
    }
    // The order: two numbers at once.
    let short = Image {
        bytes: vec![1; 80],
        ..image.clone()
    };
    let radius = Settings { radius: 8, ..base };
    let limit = Settings {
        max_offset: -1.0,
        ..base
    };
    let both = Settings {
        radius: -1,
        max_offset: f32::NAN,
        ..base
    };
    for (image, s) in [
        (&short, radius),
        (&short, limit),
        (&image, both),
        (&image, limit),
        (&short, both),
    ] {
        write(list, image, &s, &seeds, true);
    }
    // Status 4 before 2 and 3: a place outside beside what is no number.
    for radius in [0, 2] {
        write(
            list,
            &image,
            &Settings { radius, ..base },
            &[
                [f32::NAN, 99.0],
                [-99.0, f32::NAN],
                [f32::INFINITY, -99.0],
                [99.0, f32::NEG_INFINITY],
                [f32::NAN, f32::INFINITY],
                [f32::NEG_INFINITY, f32::NAN],
                [f32::INFINITY, f32::INFINITY],
            ],
            true,
        );
    }
    // Status 2 before 3: radius 0 outside the picture.
    write(
        list,
        &image,
        &Settings { radius: 0, ..base },
        &[[9.0, 4.0], [8.4, 4.0], [8.5, 4.0]],
        true,
    );
}

/// Rows with padding, and pitches and counts that 10 refuses, before 11 too.
fn pitches(list: &mut List) {
    let mut random = Random::of(13, "pitches");
    let base = Settings::default();
    let seeds = [
        [6.0, 6.0],
        [6.4, 5.7],
        [2.0, 2.0],
        [10.0, 10.0],
        [10.4, 6.0],
    ];
    for padded in padding::near(&mut random, &plain_corner()) {
        for radius in [1, 2, 5] {
            write(list, &padded, &Settings { radius, ..base }, &seeds, true);
        }
    }
    let (low, at) = refine_list::low();
    let (one, seed) = (Settings { radius: 1, ..base }, [at[0], at[1]]);
    for padded in padding::far(&mut random, &low) {
        write(list, &padded, &one, &[seed, [7.0, 1.0], [8.0, 1.0]], true);
    }
    for kind in 0..padding::WRONG {
        for radius in [1, 8] {
            let wrong = padding::wrong(&mut random, kind);
            write(list, &wrong, &Settings { radius, ..base }, &[seed], true);
        }
    }
}

/// What is rare about a run, if anything.
fn rare(a: &Refined, run: &Run) -> Option<usize> {
    [
        run.far > 0,
        a.converged && a.covariance.is_none(),
        run.tries > 40,
        run.steps == 16,
        !a.converged && !run.stuck && run.steps < 16,
        run.fits > 9,
        run.fresh_slope,
        run.tries > 16,
        run.stuck && run.steps > 3,
        run.steps > 8,
    ]
    .iter()
    .position(|holds| *holds)
}

/// Rare runs, looked for in pictures of few levels; so many of each kind.
fn rare_runs(list: &mut List, seed: u64) {
    let mut random = Random::of(seed, "rare");
    let mut beside = Random::of(seed, "rare padding");
    let mut left = [24usize; 10];
    for _ in 0..6_000 {
        let s = Settings {
            radius: random.pick(&[1, 1, 1, 2, 2, 3]),
            det_margin: random.pick(&[0.0, 0.0, 1e-30, 1e-3]),
            max_offset: random.pick(&[1e30, 1e30, 1.5, 8.0]),
            min_abs_det: random.pick(&[0.0, 0.0, 1e-30, 1e-4]),
        };
        let side = random.between(7, 12) as usize;
        let image = pictures::hard(&mut random, side);
        let mut seeds = Vec::new();
        for _ in 0..12 {
            let seed = [random.unit() * side as f32, random.unit() * side as f32];
            let (a, Some(run)) = plain::refine_counted(&image, &s, seed, true) else {
                continue;
            };
            if let Some(kind) = rare(&a, &run) {
                if left[kind] > 0 {
                    left[kind] -= 1;
                    seeds.push(seed);
                }
            }
        }
        if !seeds.is_empty() {
            let image = padding::at_times(&mut beside, image);
            write(list, &image, &s, &seeds, true);
        }
    }
}

pub fn list(seed: u64) -> List {
    let mut list = List::new("refine");
    borders(&mut list);
    pitches(&mut list);
    let (stuck, at) = stuck_corner();
    write(&mut list, &stuck, &stuck_settings(), &[at], true);
    for (image, radius, at) in met() {
        write(&mut list, &image, &through(radius), &[at], true);
    }
    rare_runs(&mut list, seed);
    let mut random = Random::of(seed, "refine");
    let mut beside = Random::of(seed, "refine padding");
    while list.size() < ENOUGH + ENOUGH / 4 {
        let s = good_settings(&mut random);
        let least = (2 * s.radius + 1) as i64;
        let (w, h) = (
            random.between(least, least + 12) as usize,
            random.between(least + 3, least + 12) as usize,
        );
        let image = padding::at_times(&mut beside, pictures::any(&mut random, w, h));
        let seeds: Vec<[f32; 2]> = (0..random.between(4, 10))
            .map(|_| [place(&mut random, w as u64), place(&mut random, h as u64)])
            .collect();
        let covariance = !random.once_in(8);
        write(&mut list, &image, &s, &seeds, covariance);
    }
    list
}
