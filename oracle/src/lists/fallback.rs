//! Lists of seeds with a second refiner for those that the first refuses
//! (W-209).

use super::*;
use crate::rules;

struct Call {
    image: Image,
    one: Settings,
    two: Settings,
    floats: Vec<f32>,
    out: usize,
    passes: usize,
}

fn write(list: &mut List, c: &Call) {
    let image = View::from(&c.image);
    let (decision, answer, passes) =
        calls::fallback(image, &c.one, &c.two, &c.floats, c.out, c.passes);
    if decision.number == 0 && c.one == c.two {
        let (_, single) = calls::refine_list(image, &c.one, &c.floats, c.out);
        assert!(
            same_triples(&answer, &single),
            "equal settings, the single pass"
        );
        list.tally("equal settings");
    }
    let mut case = Case::new();
    put_image(&mut case, &c.image);
    put_settings(&mut case, &c.one);
    put_settings(&mut case, &c.two);
    put_padded(&mut case, &c.floats);
    case.count(c.out).count(c.passes);
    put_decision(&mut case, decision);
    put_triples(&mut case, &answer);
    case.bytes(&passes);
    list.push(&case);
    list.tally(number_name(decision.number));
    list.tally(decision.decided.name());
    list.tally(padding::kind(image));
    for (pass, name) in [(1, "corners of pass 1"), (2, "corners of pass 2")] {
        list.tally_many(name, passes.iter().filter(|p| **p == pass).count());
    }
}

fn borders(list: &mut List) {
    let mut random = Random::of(5, "borders");
    let (image, corners) = refine_list::board(&mut random);
    let floats = corners.concat();
    let good = Settings::default();
    let small = Settings { radius: 1, ..good };
    let big = Settings { radius: 5, ..good };
    let call = |floats: Vec<f32>, one: Settings, two: Settings| Call {
        out: floats.len(),
        passes: floats.len() / 3,
        image: image.clone(),
        one,
        two,
        floats,
    };
    write(list, &call(Vec::new(), good, small));
    for (one, two) in [
        (good, good),
        (good, small),
        (big, good),
        (big, small),
        (small, big),
    ] {
        write(list, &call(floats.clone(), one, two));
    }
    for more in [1, 4] {
        let mut c = call(floats.clone(), big, small);
        c.out += more;
        c.passes += more;
        write(list, &c);
    }
    for (out, passes) in [
        (1, 0),
        (0, 1),
        (1, 1),
        (floats.len(), 0),
        (0, corners.len()),
    ] {
        let mut c = call(floats.clone(), big, small);
        c.out -= out;
        c.passes -= passes;
        write(list, &c);
    }
    // Only the two radius 0, which has no fit, and limits of each alone.
    let none = Settings { radius: 0, ..good };
    write(list, &call(floats.clone(), none, good));
    write(list, &call(floats.clone(), good, none));
    write(list, &call(floats.clone(), none, none));
    let wrong = Settings { radius: 8, ..good };
    let below = Settings { radius: -1, ..good };
    let limit = Settings {
        max_offset: -1.0,
        ..good
    };
    let nan = Settings {
        min_abs_det: f32::NAN,
        ..good
    };
    for (one, two) in [
        (wrong, good),
        (good, wrong),
        (below, wrong),
        (good, below),
        (limit, good),
        (good, limit),
        (nan, good),
        (good, nan),
        (limit, wrong),
        (wrong, limit),
        (nan, below),
        (limit, nan),
    ] {
        write(list, &call(floats.clone(), one, two));
    }
    for odd in [f32::NAN, f32::INFINITY, f32::NEG_INFINITY, 3e9, -3e9, -0.0] {
        for k in 0..3 {
            let mut some = corners.clone();
            some[0][k] = odd;
            write(list, &call(some.concat(), big, small));
        }
    }
    for n in [4096, 4097] {
        let mut many = vec![0.0; 3 * n];
        many[..floats.len()].copy_from_slice(&floats);
        write(list, &call(many, big, small));
    }
    let spoil = |c: &mut Call, number: u32| match number {
        rules::BAD_IMAGE => {
            c.image.bytes.pop();
        }
        rules::BAD_RADIUS => c.two.radius = 8,
        rules::BAD_LIMIT => c.one.max_offset = f32::NAN,
        rules::TOO_MANY => {
            let odd = c.floats.len() % 3;
            c.floats.resize(3 * 4097 + odd, 0.0);
            c.out = c.out.max(c.floats.len());
            c.passes = c.passes.max(4097);
        }
        rules::BAD_LENGTH => c.floats.push(0.0),
        _ => c.passes = 0,
    };
    let numbers = [10, 11, 12, 19, 16, 15];
    for (i, &a) in numbers.iter().enumerate() {
        for &b in &numbers[i..] {
            let mut c = call(floats[..6].to_vec(), big, small);
            spoil(&mut c, a);
            spoil(&mut c, b);
            write(list, &c);
        }
    }
}

/// Rows with padding, and pitches and counts that 10 refuses, before 11 too.
fn pitches(list: &mut List) {
    let mut random = Random::of(13, "pitches");
    let good = Settings::default();
    let small = Settings { radius: 1, ..good };
    let big = Settings { radius: 5, ..good };
    let call = |image: Image, one: Settings, floats: &[f32]| Call {
        image,
        one,
        two: small,
        floats: floats.to_vec(),
        out: floats.len(),
        passes: floats.len() / 3,
    };
    let (image, corners) = refine_list::board(&mut random);
    for padded in padding::near(&mut random, &image) {
        write(list, &call(padded, big, &corners.concat()));
    }
    let (low, floats) = refine_list::low();
    for padded in padding::far(&mut random, &low) {
        write(list, &call(padded, big, &floats));
    }
    for kind in 0..padding::WRONG {
        for radius in [1, 8] {
            let wrong = padding::wrong(&mut random, kind);
            write(list, &call(wrong, Settings { radius, ..good }, &floats));
        }
    }
}

pub fn list(seed: u64) -> List {
    let mut list = List::new("fallback");
    borders(&mut list);
    pitches(&mut list);
    let mut random = Random::of(seed, "fallback");
    let mut beside = Random::of(seed, "fallback padding");
    while list.size() < ENOUGH * 3 / 4 {
        let (image, corners) = refine_list::board(&mut random);
        let saturated = random.once_in(8);
        let floats = refine_list::places(&mut random, &image, corners, saturated);
        let one = good_settings(&mut random);
        let two = if random.once_in(6) {
            one
        } else {
            good_settings(&mut random)
        };
        let c = Call {
            out: floats.len() + random.below(3),
            passes: floats.len() / 3 + random.below(3),
            image: padding::at_times(&mut beside, image),
            one,
            two,
            floats,
        };
        write(&mut list, &c);
    }
    list
}
