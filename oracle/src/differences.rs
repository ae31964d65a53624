//! The smallest inputs of docs/DIFFERENCES.md, run on the Rust: each line
//! bears the entry's number there and says what the Rust did.

use crate::lists::{lent, refine};
use crate::random::Random;
use crate::rust_or_rule::{run, Decided};
use crate::types::*;
use crate::{any_ring, calls, checked, padding, pictures, plain, rules};

type Lines = Vec<(String, bool)>;

pub fn all() -> Lines {
    let mut out = Vec::new();
    pitch(&mut out);
    response(&mut out);
    far_seeds(&mut out);
    refiner(&mut out);
    refused_fits(&mut out);
    far_base(&mut out);
    peaks(&mut out);
    merge(&mut out);
    gradient(&mut out);
    out
}

fn whole(image: &Image) -> Region {
    Region {
        x0: 0,
        y0: 0,
        x1: image.width,
        y1: image.height,
    }
}

fn pitch(out: &mut Lines) {
    let mut say = |line: &str, holds: bool| out.push((line.to_string(), holds));
    let saddle = refine::exact_saddle();
    let padded = padding::padded(&mut Random::of(1, "pitch"), &saddle, 64);
    let (s, seed) = (Settings::default(), [4.0, 4.0]);
    say(
        "I4: 9 by 9 in rows of 64 bytes: the Rust takes no such bytes, and its response panics",
        run(|| plain::Refiner::new(&s, true).refine(&padded, seed)).is_none()
            && run(|| plain::response_patch(&padded, false, whole(&padded))).is_none(),
    );
    let (ours, _, decided) = calls::refine_one((&padded).into(), &s, seed, true);
    let rust = plain::Refiner::new(&s, true).refine(&saddle, seed);
    say(
        "I4: with the padding taken out it gives the answer",
        decided == Decided::ByRust && format!("{ours:?}") == format!("{rust:?}"),
    );
}

fn response(out: &mut Lines) {
    let mut say = |line: &str, holds: bool| out.push((line.to_string(), holds));
    let dot = pictures::flat(1, 1, 9);
    let ring = [(0, 0); 16];
    any_ring::lend_ring(2, &ring);
    checked::lend_ring(2, &ring);
    let plain_zero = run(|| any_ring::response_patch(&dot, false, whole(&dot)));
    let checked_zero = run(|| checked::response_patch(&dot, false, whole(&dot)));
    say(
        "R1: 1 by 1, ring radius 2: zeros without overflow checks, a panic with them",
        plain_zero == Some(Some((1, 1, vec![0.0]))) && checked_zero.is_none(),
    );
    say(
        "R2: 1 by 1, the whole-image call panics with and without checks",
        run(|| plain::response_whole(&dot, false)).is_none()
            && run(|| checked::response_whole(&dot, false)).is_none(),
    );
    let nine = pictures::flat(9, 11, 9);
    say(
        "R2: 9 by 11, radius 5, narrower than the ring and not than its radius: it panics too",
        run(|| plain::response_whole(&nine, false)).is_none(),
    );
    let short = Image::new(2, 2, vec![0; 3]);
    say(
        "R3: 3 bytes for 2 by 2: the Rust panics",
        run(|| plain::response_patch(&short, false, whole(&short))).is_none(),
    );
    let wide = Image::new(4097, 1, vec![0; 4097]);
    say(
        "R4: 4,097 by 1: the Rust answers",
        run(|| plain::response_patch(&wide, false, whole(&wide))).is_some(),
    );
    let none = Image::new(0, 0, Vec::new());
    let one = Region {
        x0: 0,
        y0: 0,
        x1: 1,
        y1: 1,
    };
    say(
        "R4: 0 by 0: the Rust answers 0 by 0",
        run(|| plain::response_patch(&none, false, one)) == Some(Some((0, 0, vec![]))),
    );
    let huge = Image::new(1 << 32, 1 << 32, Vec::new());
    say(
        "R5: 2^32 by 2^32 with no bytes: the product wraps to 0 and the Rust answers; with checks it panics",
        run(|| plain::response_patch(&huge, false, one)) == Some(Some((1, 1, vec![0.0])))
            && run(|| checked::response_patch(&huge, false, one)).is_none(),
    );
    let small = pictures::flat(16, 14, 1);
    let over = Region {
        x0: 3,
        y0: 2,
        x1: 99,
        y1: 99,
    };
    let (w, h, _) = plain::response_patch(&small, false, over).expect("a region");
    say(
        "R6: region (3,2)-(99,99) of 16 by 14 answers 13 by 12, not the 96 by 97 of the comment",
        (w, h) == (13, 12),
    );
    any_ring::lend_ring(1, &[(2, 0); 16]);
    let three = pictures::flat(3, 3, 9);
    say(
        "R7: a pair beyond the radius, (2,0) at radius 1 on 3 by 3: the Rust answers from the next row",
        run(|| any_ring::response_patch(&three, false, whole(&three))).is_some(),
    );
    let mut top = pictures::flat(11, 11, 0);
    for (k, (dx, dy)) in paper_ring(1).iter().enumerate() {
        top.bytes[((5 + dy) * 11 + 5 + dx) as usize] = if k % 8 < 4 { 255 } else { 0 };
    }
    for (d, v) in [(0, 128), (1, 128), (-1, 127), (11, 127), (-11, 127)] {
        top.bytes[(60 + d) as usize] = v;
    }
    let greatest = plain::response_at(&top.bytes, 11, 5, 5, &paper_ring(1));
    say(
        "R9: the greatest value met is 2038.4, N 10192",
        greatest == 2038.4 && rules::whole_at((&top).into(), &paper_ring(1), 5, 5) == 10192,
    );
    any_ring::lend_ring(0, &ring);
    say(
        "R8: ring radius 0 on 1 by 1: the Rust panics at the cross",
        run(|| any_ring::response_patch(&dot, false, whole(&dot))).is_none(),
    );
}

/// What the Rust does with a seed on 3 by 3 pixels: its status without checks
/// and with them, nothing where it panics.
fn statuses(radius: i32, seed: [f32; 2]) -> [Option<u32>; 2] {
    let image = pictures::flat(3, 3, 9);
    let s = Settings {
        radius,
        ..Settings::default()
    };
    [
        run(|| plain::Refiner::new(&s, true).refine(&image, seed).status),
        run(|| checked::Refiner::new(&s, true).refine(&image, seed).status),
    ]
}

/// Seeds beyond 32 bits, and those that are no numbers (4 by document 01): what
/// the Rust does at radius 0, and at radius 1.
fn far_seeds(out: &mut Lines) {
    let (nan, inf, far) = (f32::NAN, f32::INFINITY, 2_147_483_648.0);
    let (two, three, panics, wraps) = ([Some(2); 2], [Some(3); 2], [None; 2], [Some(2), None]);
    for (entry, seed, at_0, at_1) in [
        ("F1: seed (2^31, 1)", [far, 1.0], two, panics),
        ("F1: seed (-2^31, 1)", [-far, 1.0], two, panics),
        ("F1: seed (2^31 - 128, 1)", [2_147_483_520.0, 1.0], two, two),
        ("F2: seed (-2^31, 9)", [-far, 9.0], two, wraps),
        ("F3: seed (NaN, 1)", [nan, 1.0], three, two),
        ("F3: seed (1, NaN)", [1.0, nan], three, two),
        ("F3: seed (NaN, NaN)", [nan, nan], three, two),
        ("F3: seed (NaN, 9)", [nan, 9.0], two, two),
        ("F20: seed (inf, 1)", [inf, 1.0], two, panics),
        ("F20: seed (-inf, 1)", [-inf, 1.0], two, panics),
        ("F20: seed (1, inf)", [1.0, inf], two, panics),
        ("F20: seed (1, -inf)", [1.0, -inf], two, panics),
        ("F20: seed (inf, inf)", [inf, inf], two, panics),
        ("F21: seed (inf, 9)", [inf, 9.0], two, wraps),
        ("F21: seed (-inf, 9)", [-inf, 9.0], two, wraps),
        ("F21: seed (inf, NaN)", [inf, nan], two, two),
        ("F21: seed (-inf, NaN)", [-inf, nan], two, wraps),
    ] {
        for (radius, told) in [(0, at_0), (1, at_1)] {
            let [plain, checked] = told.map(|a| a.map_or("a panic".into(), |n| n.to_string()));
            let line = format!("{entry}, radius {radius}: {plain}, with checks {checked}");
            out.push((line, statuses(radius, seed) == told));
        }
    }
}

/// A base that leaves 32 bits, which only a lent operator was seen to reach.
fn far_base(out: &mut Lines) {
    let [far, _] = lent::met();
    let image = (&far.image).into();
    let (a, run, decided) = calls::refine_lent(image, &far.settings, &far.operator, far.seed, true);
    let line = "F17: with a lent operator a base leaves 32 bits: the Rust wraps, with checks it panics; the candidate is not taken";
    let holds = a.status == 0 && run.far == 4 && run.stuck && decided == Decided::RustWraps;
    out.push((line.to_string(), holds));
}

fn refiner(out: &mut Lines) {
    let mut say = |line: &str, holds: bool| out.push((line.to_string(), holds));
    let base = Settings::default();
    let one = Settings { radius: 1, ..base };
    let refine = |image: &Image, s: &Settings, seed: [f32; 2]| {
        run(|| plain::Refiner::new(s, true).refine(image, seed))
    };
    let status = |a: Option<Refined>| a.map(|a| a.status);
    let saddle = refine::exact_saddle();
    let exact = refine(&saddle, &base, [4.0, 4.0]);
    say(
        "F4: an exact saddle at a pixel is accepted where the seed was: nothing moved; it has converged if its neighbours' patches fit",
        exact.is_some_and(|a| a.status == 0 && a.converged && (a.x, a.y) == (4.0, 4.0)),
    );
    let open = Settings {
        radius: 1,
        det_margin: 0.0,
        min_abs_det: 0.0,
        ..base
    };
    let bars = Image::new(4, 4, vec![0, 1, 0, 1, 1, 0, 1, 0, 1, 0, 1, 0, 0, 0, 0, 0]);
    let place = refine(&bars, &open, [1.0, 1.0]);
    let first = plain::first_fit(&bars, &open, [1.0, 1.0]);
    say(
        "F14: two steps, below tolerance, sensitivity singular: not converged, and yet not the first fit",
        place.is_some_and(|a| a.status == 0 && !a.converged && [a.x, a.y] != first),
    );
    let blind = Settings {
        min_abs_det: f32::MAX,
        ..base
    };
    let det = refine(&saddle, &blind, [4.0, 4.0]).map_or(0.0, |a| a.score);
    let tie = Settings {
        det_margin: -det,
        ..base
    };
    say(
        "F5: det exactly -det_margin is accepted, against the comment at det_margin",
        det < 0.0 && status(refine(&saddle, &tie, [4.0, 4.0])) == Some(0),
    );
    say(
        "F6: the score of a refused seed is the determinant itself, below zero here",
        refine(&saddle, &blind, [4.0, 4.0]).is_some_and(|a| a.status == 3 && a.score < 0.0),
    );
    let bowl = pictures::surface(5, 5, [2, 2], [2, 0, 2, 0, 0], 1);
    say(
        "F6: and above zero on a bowl",
        refine(&bowl, &base, [2.0, 2.0]).is_some_and(|a| a.status == 3 && a.score > 0.0),
    );
    for (name, s) in [
        (
            "det_margin NaN",
            Settings {
                det_margin: f32::NAN,
                ..base
            },
        ),
        (
            "max_offset NaN",
            Settings {
                max_offset: f32::NAN,
                ..base
            },
        ),
        (
            "min_abs_det NaN",
            Settings {
                min_abs_det: f32::NAN,
                ..base
            },
        ),
        (
            "max_offset infinite",
            Settings {
                max_offset: f32::INFINITY,
                ..base
            },
        ),
        (
            "det_margin -1",
            Settings {
                det_margin: -1.0,
                ..base
            },
        ),
        (
            "min_abs_det -1",
            Settings {
                min_abs_det: -1.0,
                ..base
            },
        ),
    ] {
        let line = format!("F8: {name}: the Rust goes on and accepts");
        say(&line, status(refine(&saddle, &s, [4.0, 4.0])) == Some(0));
    }
    say(
        "F8: max_offset -1: the Rust goes on and rejects",
        status(refine(
            &saddle,
            &Settings {
                max_offset: -1.0,
                ..base
            },
            [4.0, 4.0],
        )) == Some(1),
    );
    say(
        "F9: radius -1 and radius 8: the Rust goes on (status 3, and 2 or a fit)",
        status(refine(
            &saddle,
            &Settings { radius: -1, ..base },
            [4.0, 4.0],
        )) == Some(3)
            && status(refine(
                &pictures::flat(17, 17, 9),
                &Settings { radius: 8, ..base },
                [8.0, 8.0],
            )) == Some(3),
    );
    say(
        "F10: seed r - 0.5 from the rim is in bounds, against the comment at CornerRefiner::radius",
        status(refine(&pictures::flat(3, 3, 9), &one, [0.5, 0.5])) == Some(3),
    );
    let six = pictures::surface(5, 5, [2, 2], [2, 0, -2, 0, 0], 1);
    say(
        "F11: where only one patch fits, no slope exists: accepted, below tolerance, not converged",
        refine(&six, &base, [2.0, 2.0]).is_some_and(|a| a.status == 0 && !a.converged),
    );
    let (stuck, at) = refine::stuck_corner();
    say(
        "F16: the steps start and fail: accepted, not converged",
        refine(&stuck, &base, at).is_some_and(|a| a.status == 0 && !a.converged),
    );
    for (name, x) in [("inf", f32::INFINITY), ("2^31", 2_147_483_648.0)] {
        let list = [[4.0, 4.0, 1.0], [x, 4.0, 1.0]];
        let line = format!("L1 (F12): one seed ({name}, 4) makes the whole list panic");
        say(
            &line,
            run(|| plain::Refiner::new(&base, false).refine_list(&saddle, &list)).is_none(),
        );
    }
    let list = [[4.0, 4.0, 1.0], [f32::NAN, 4.0, 1.0]];
    say(
        "L4: a NaN seed is left out of a list, as 2",
        run(|| plain::Refiner::new(&base, false).refine_list(&saddle, &list))
            .is_some_and(|kept| kept.len() == 1),
    );
    let (bytes, seed) = many_fits();
    let (a, run) = plain::refine_counted(&bytes, &base, seed, true);
    say(
        "F15: a converging corner needs more than the nine fits of the cache, against the comment at FIT_CACHE",
        a.converged && run.is_some_and(|r| r.fits > 9),
    );
    let bits = |m: Option<[[f64; 6]; 6]>| m.map(|m| m.map(|row| row.map(f64::to_bits)));
    let agrees = |last: bool| -> Vec<i32> {
        (0..=7)
            .filter(|&r| {
                let rust = plain::operator(r).map(|op| op.inverse);
                bits(rules::inverse_normal(r, last)) == bits(rust)
            })
            .collect()
    };
    say(
        "F13: the inverse with the last of equal pivots is the Rust's at radius 0 to 7; with the first it is not at radius 1",
        agrees(true) == [0, 1, 2, 3, 4, 5, 6, 7] && agrees(false) == [0, 2, 3, 4, 5, 6, 7],
    );
}

/// First fits that are refused: one status in the Rust, and the same as without
/// an operator; by document 01 the test that fails first.
fn refused_fits(out: &mut Lines) {
    let base = Settings::default();
    let open = Settings {
        det_margin: 0.0,
        min_abs_det: 0.0,
        ..base
    };
    let blind = Settings {
        min_abs_det: f32::MAX,
        ..base
    };
    let none = Settings { radius: 0, ..base };
    let bowl = pictures::surface(9, 9, [4, 4], [2, 0, 2, 0, 0], 1);
    let flat = pictures::flat(9, 9, 7);
    for (name, image, s, number) in [
        ("a bowl", &bowl, base, 5),
        (
            "a saddle, min_abs_det above it",
            &refine::exact_saddle(),
            blind,
            6,
        ),
        ("a flat picture, thresholds 0", &flat, open, 7),
        ("radius 0", &flat, none, 3),
    ] {
        let seed = [4.0, 4.0];
        let rust = plain::Refiner::new(&s, true).refine(image, seed);
        let (ours, _, _) = calls::refine_one(image.into(), &s, seed, true);
        let line = format!("F22: {name}: the Rust 3, document 01 {number}, with the same score");
        let same = ours.score.to_bits() == rust.score.to_bits();
        out.push((line, rust.status == 3 && ours.status == number && same));
    }
}

/// A picture and a seed whose run converges after more than nine fits, the
/// first of a fixed row of pictures.
fn many_fits() -> (Image, [f32; 2]) {
    for n in 0..200_000 {
        let mut random = Random::of(n, "many fits");
        let image = pictures::few_levels(&mut random, 9, 9, &[0, 255]);
        let seed = [random.between(2, 6) as f32, random.between(2, 6) as f32];
        if let (a, Some(run)) = plain::refine_counted(&image, &Settings::default(), seed, false) {
            if a.converged && run.fits > 9 {
                return (image, seed);
            }
        }
    }
    (pictures::flat(9, 9, 0), [4.0, 4.0])
}

fn peaks(out: &mut Lines) {
    let mut say = |line: &str, holds: bool| out.push((line.to_string(), holds));
    let s = PeakSettings {
        threshold: 0.0,
        ring_radius: 1,
        window_radius: 1,
        refiner_radius: 0,
        min_cluster_size: 0,
    };
    let at = |w: usize, h: usize, spots: &[(usize, usize, f32)]| {
        let mut map = vec![0.0; w * h];
        for &(x, y, v) in spots {
            map[y * w + x] = v;
        }
        map
    };
    let both = |w: usize, h: usize, map: &[f32], s: &PeakSettings| {
        [rules::peaks(w, h, map, s), plain::peaks(w, h, map, s)]
    };
    let counts = |w: usize, h: usize, map: &[f32], s: &PeakSettings| {
        both(w, h, map, s).map(|peaks| peaks.len())
    };
    let (first, second) = ([2.0, 2.0, 5.0], [3.0, 2.0, 5.0]);
    let tie = at(6, 5, &[(2, 2, 5.0), (3, 2, 5.0)]);
    say(
        "K1: two equal neighbours: document 01 the first, the Rust both",
        both(6, 5, &tie, &s) == [vec![first], vec![first, second]],
    );
    for (x, y, counted) in [
        (1, 2, [0, 1]),
        (2, 1, [0, 1]),
        (3, 2, [1, 1]),
        (2, 3, [1, 1]),
    ] {
        let outer = at(5, 5, &[(2, 2, 5.0), (x, y, 5.0)]);
        let line = format!("K1: (2,2) and an equal one outside the border at ({x},{y}): document 01 and the Rust give {counted:?}");
        say(&line, counts(5, 5, &outer, &s) == counted);
    }
    let nan = at(5, 5, &[(2, 2, f32::NAN)]);
    say(
        "K2: a NaN centre: none, the Rust one",
        counts(5, 5, &nan, &s) == [0, 1],
    );
    for x in [1, 3] {
        let beside = at(5, 5, &[(2, 2, 5.0), (x, 2, f32::NAN)]);
        let line = format!("K3: (2,2) with a NaN at ({x},2): none, the Rust one");
        say(&line, counts(5, 5, &beside, &s) == [0, 1]);
    }
    let one = at(5, 5, &[(2, 2, 5.0)]);
    for (t, n) in [(f32::NAN, 1), (f32::INFINITY, 0), (f32::NEG_INFINITY, 1)] {
        let line = format!("K4: threshold {t}: the Rust goes on and gives {n}");
        let s = PeakSettings { threshold: t, ..s };
        say(&line, plain::peaks(5, 5, &one, &s).len() == n);
    }
    let top = PeakSettings {
        threshold: f32::INFINITY,
        ..s
    };
    say(
        "K4: a NaN centre is a peak in the Rust even at threshold +inf",
        plain::peaks(5, 5, &nan, &top).len() == 1,
    );
    let below = at(5, 5, &[(2, 2, -1.0)])
        .iter()
        .map(|v| if *v == 0.0 { -2.0 } else { *v })
        .collect::<Vec<f32>>();
    let low = PeakSettings {
        threshold: -5.0,
        ..s
    };
    say(
        "K5: -1 among -2 at threshold -5 is no peak, against the comment at threshold",
        counts(5, 5, &below, &low) == [0, 0],
    );
    let zero = PeakSettings {
        window_radius: 0,
        ..s
    };
    say(
        "K6: window radius 0: the Rust goes on",
        run(|| plain::peaks(5, 5, &one, &zero)).is_some(),
    );
    say(
        "K7: 24 values for 5 by 5: the Rust panics",
        run(|| plain::peaks(5, 5, &one[..24], &s)).is_none(),
    );
}

fn merge(out: &mut Lines) {
    let mut say = |line: &str, holds: bool| out.push((line.to_string(), holds));
    let two = |a: f32, b: f32| vec![[a, 0.0, 1.0], [b, 0.0, 2.0]];
    let panics = |list: &[Triple], r: f32| {
        run(|| plain::merge(list, r)).is_none() && run(|| checked::merge(list, r)).is_none()
    };
    say(
        "M1: x 0 and 1 at radius 1e-30: the Rust panics",
        panics(&two(0.0, 1.0), 1e-30),
    );
    say(
        "M1: x -3e38 and 3e38 at radius 3e38: the Rust panics",
        panics(&two(-3e38, 3e38), 3e38),
    );
    let twice = [[0.0, 0.0, 1.0], [1e30, 1e30, 1.0]];
    say(
        "M1: (0,0) and (1e30,1e30) at radius 1, both counts saturated: the Rust panics",
        panics(&twice, 1.0),
    );
    let wrap = [[0.0, 0.0, 1.0], [1_099_511_627_776.0, 16_777_215.0, 1.0]];
    let cells = rules::cells(&wrap, 1.0);
    let wraps = (cells[0] as u64).checked_mul(cells[1] as u64).is_none();
    say(
        "M2: (0,0) and (2^40, 2^24-1) at radius 1: the product of the counts passes 64 bits; with checks a panic (not run without: 400 MB)",
        wraps && run(|| checked::merge(&wrap, 1.0)).is_none(),
    );
    let parts = [
        [0.0, 50.0, 1.0],
        [f32::from_bits(0x3FFF_FFFF), 0.0, 1.0],
        [4.0, 0.0, 1.0],
    ];
    say(
        "M3: (0,50), (3FFFFFFF,0), (4,0) at radius 2: the grid keeps 3, the plain scan 2",
        plain::merge(&parts, 2.0).len() == 3 && plain::merge_plain(&parts, 4.0).len() == 2,
    );
    let nan = [[0.0, 0.0, 1.0], [5e-30, 0.0, 2.0], [f32::NAN, 0.0, 3.0]];
    let r = 1e-30f32;
    say(
        "M4: a NaN coordinate stays on the grid: 3 kept, the plain scan 2",
        plain::merge(&nan, r).len() == 3 && plain::merge_plain(&nan, r * r).len() == 2,
    );
    let near = [[0.0, 0.0, 1.0], [3.0, 0.0, 1.0], [1.5, 0.0, 2.0]];
    let kept = plain::merge(&near, 2.0);
    say(
        "M5: (0,0,1), (3,0,1), (1.5,0,2) at radius 2: two are kept, 1.5 apart",
        kept == vec![[1.5, 0.0, 2.0], [3.0, 0.0, 1.0]],
    );
    let many = vec![[0.0, 0.0, 1.0]; 4097];
    say(
        "M6: 4,097 corners: the Rust answers",
        run(|| plain::merge(&many, 2.0)).is_some(),
    );
    let wide = two(0.0, 16_384.0);
    say(
        "M6: 16,385 cells: the Rust answers",
        run(|| plain::merge(&wide, 1.0)).is_some(),
    );
}

fn gradient(out: &mut Lines) {
    let mut say = |line: &str, holds: bool| out.push((line.to_string(), holds));
    let tile = pictures::flat(3, 3, 7).bytes;
    let ring = [(0, 0); 16];
    let zero = vec![[0.0f32; 2]; 9];
    let go = |scale: [f32; 2], ring: &Ring, x: i32, y: i32| {
        run(|| plain::add_gradient(ring, 3, &tile, x, y, scale, &zero))
    };
    say(
        "G1: an infinite scale on a flat tile, all coefficients zero: NaN at the ring",
        go([f32::INFINITY, 1.0], &ring, 1, 1).is_some_and(|g| g[4][0].is_nan() && g[4][1] == 0.0),
    );
    let side: Ring = [(2, 0); 16];
    say(
        "G2: a pair (2,0) at (1,1) of 3 by 3 leaves the tile sideways: the Rust goes on in the next row",
        go([f32::NAN, f32::NAN], &side, 1, 1).is_some_and(|g| g[6][0].is_nan()),
    );
    say(
        "G3: a pair (0,2) leaves it downwards: the Rust panics",
        go([1.0; 2], &[(0, 2); 16], 1, 1).is_none(),
    );
    say(
        "G4: the cross leaves the tile at (0,1): the Rust goes on in the row before",
        go([1.0; 2], &ring, 0, 1).is_some(),
    );
}
