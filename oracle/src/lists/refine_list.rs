//! Lists of seeds through one refiner.

use super::*;
use crate::{pictures, rules};

struct Call {
    image: Image,
    settings: Settings,
    floats: Vec<f32>,
    out: usize,
}

fn write(list: &mut List, c: &Call) {
    let (decision, answer) = calls::refine_list((&c.image).into(), &c.settings, &c.floats, c.out);
    let mut case = Case::new();
    put_image(&mut case, &c.image);
    put_settings(&mut case, &c.settings);
    put_padded(&mut case, &c.floats);
    case.count(c.out);
    put_decision(&mut case, decision);
    put_triples(&mut case, &answer);
    list.push(&case);
    list.tally(number_name(decision.number));
    list.tally(decision.decided.name());
    list.tally(padding::kind((&c.image).into()));
    if decision.number == 0 {
        list.tally(match answer.len() {
            0 => "accepted, none kept",
            n if 3 * n == c.floats.len() => "accepted, all kept",
            _ => "accepted, some kept",
        });
    }
}

/// A board of several corners, and a list of places about them.
pub fn board(random: &mut Random) -> (Image, Vec<Triple>) {
    let (w, h) = (
        random.between(14, 26) as usize,
        random.between(14, 26) as usize,
    );
    let cell = random.between(5, 8) as usize;
    let (dark, light) = (random.below(100) as u8, 150 + random.below(100) as u8);
    let shift = [random.below(cell), random.below(cell)];
    let mut image = pictures::flat(w, h, dark);
    for y in 0..h {
        for x in 0..w {
            if ((x + shift[0]) / cell + (y + shift[1]) / cell) % 2 == 1 {
                image.bytes[y * w + x] = light;
            }
        }
    }
    pictures::shake(random, &mut image, 6);
    let mut list = Vec::new();
    for y in 1..h - 1 {
        for x in 1..w - 1 {
            if (x + shift[0]) % cell == 0 && (y + shift[1]) % cell == 0 {
                let near =
                    |random: &mut Random, at: usize| at as f32 - 0.5 + (random.unit() - 0.5) * 2.0;
                let (px, py) = (near(random, x), near(random, y));
                list.push([px, py, random.unit() * 1000.0]);
            }
        }
    }
    (image, list)
}

/// The places of a board with odd ones among them.
pub fn places(
    random: &mut Random,
    image: &Image,
    mut list: Vec<Triple>,
    saturated: bool,
) -> Vec<f32> {
    for _ in 0..random.below(6) {
        let at = random.below(list.len() + 1);
        let mut odd = [
            place(random, image.width),
            place(random, image.height),
            odd_float(random),
        ];
        if !saturated {
            // Within 31 bits, so that the Rust does not panic.
            for v in &mut odd[..2] {
                if v.abs() >= 2e9 {
                    *v = 5.0;
                }
            }
        }
        list.insert(at, odd);
    }
    list.concat()
}

fn borders(list: &mut List) {
    let mut random = Random::of(3, "borders");
    let (image, corners) = board(&mut random);
    let base = Settings::default();
    let floats = corners.concat();
    let call = |floats: Vec<f32>, settings: Settings| Call {
        out: floats.len(),
        image: image.clone(),
        settings,
        floats,
    };
    write(list, &call(Vec::new(), base));
    write(list, &call(floats.clone(), base));
    for more in [1, 2, 3, 100] {
        let mut c = call(floats.clone(), base);
        c.out += more;
        write(list, &c);
    }
    for less in [1, 3, floats.len()] {
        let mut c = call(floats.clone(), base);
        c.out -= less;
        write(list, &c);
    }
    for cut in [1, 2] {
        write(list, &call(floats[..floats.len() - cut].to_vec(), base));
        write(list, &call(vec![0.0; cut], base));
    }
    // Each odd number as x, as y and as strength.
    for odd in [
        f32::NAN,
        f32::INFINITY,
        f32::NEG_INFINITY,
        3e9,
        -3e9,
        -0.0,
        1e-45,
        f32::MAX,
    ] {
        for k in 0..3 {
            let mut some = corners.clone();
            some[0][k] = odd;
            write(list, &call(some.concat(), base));
        }
    }
    // 4,096 corners and one more, most of them +0.0.
    for n in [4096, 4097, 4098] {
        let mut many = vec![0.0; 3 * n];
        many[..floats.len()].copy_from_slice(&floats);
        write(list, &call(many, base));
    }
    for radius in [-1, 8, 0, 7] {
        write(list, &call(floats.clone(), Settings { radius, ..base }));
    }
    for bad in [f32::NAN, f32::INFINITY, -1.0, -1e-45, -0.0] {
        write(
            list,
            &call(
                floats.clone(),
                Settings {
                    det_margin: bad,
                    ..base
                },
            ),
        );
        write(
            list,
            &call(
                floats.clone(),
                Settings {
                    max_offset: bad,
                    ..base
                },
            ),
        );
        write(
            list,
            &call(
                floats.clone(),
                Settings {
                    min_abs_det: bad,
                    ..base
                },
            ),
        );
    }
    for (width, height, count) in [(0, 0, 0), (9, 9, 80), (4097, 1, 4097), (1, 1, 1)] {
        let mut c = call(floats[..6].to_vec(), base);
        c.image = Image::new(width, height, vec![7; count]);
        write(list, &c);
    }
    // The order: each pair of numbers at once.
    let spoil = |c: &mut Call, number: u32| match number {
        rules::BAD_IMAGE => {
            c.image.bytes.pop();
        }
        rules::BAD_RADIUS => c.settings.radius = 8,
        rules::BAD_LIMIT => c.settings.max_offset = f32::NAN,
        rules::TOO_MANY => {
            let odd = c.floats.len() % 3;
            c.floats.resize(3 * 4097 + odd, 0.0);
            c.out = c.out.max(c.floats.len());
        }
        rules::BAD_LENGTH => c.floats.push(0.0),
        _ => c.out = 0,
    };
    let numbers = [10, 11, 12, 19, 16, 15];
    for (i, &a) in numbers.iter().enumerate() {
        for &b in &numbers[i + 1..] {
            let mut c = call(floats[..6].to_vec(), base);
            spoil(&mut c, a);
            spoil(&mut c, b);
            write(list, &c);
        }
    }
}

/// A picture of three rows with a corner at (4, 1) and a seed near it.
pub fn low() -> (Image, Vec<f32>) {
    let image = pictures::surface(9, 3, [4, 1], [2, 1, -2, 1, 0], 1);
    (image, vec![4.2, 1.0, 7.0])
}

/// Rows with padding, and pitches and counts that 10 refuses, before 11 too.
fn pitches(list: &mut List) {
    let mut random = Random::of(13, "pitches");
    let base = Settings::default();
    let one = Settings { radius: 1, ..base };
    let call = |image: Image, settings: Settings, floats: &[f32]| Call {
        image,
        settings,
        floats: floats.to_vec(),
        out: floats.len(),
    };
    let (image, corners) = board(&mut random);
    for padded in padding::near(&mut random, &image) {
        write(list, &call(padded, base, &corners.concat()));
    }
    let (low, floats) = low();
    for padded in padding::far(&mut random, &low) {
        write(list, &call(padded, one, &floats));
    }
    for kind in 0..padding::WRONG {
        for radius in [1, 8] {
            let wrong = padding::wrong(&mut random, kind);
            write(list, &call(wrong, Settings { radius, ..base }, &floats));
        }
    }
}

pub fn list(seed: u64) -> List {
    let mut list = List::new("refine_list");
    borders(&mut list);
    pitches(&mut list);
    let mut random = Random::of(seed, "refine_list");
    let mut beside = Random::of(seed, "refine_list padding");
    while list.size() < ENOUGH * 3 / 4 {
        let (image, corners) = board(&mut random);
        let saturated = random.once_in(6);
        let floats = places(&mut random, &image, corners, saturated);
        let c = Call {
            out: floats.len() + random.below(4),
            settings: good_settings(&mut random),
            image: padding::at_times(&mut beside, image),
            floats,
        };
        write(&mut list, &c);
    }
    list
}
