//! The peak scan by document 01, and as the Rust does it.

use super::*;
use crate::rules;

struct Call {
    width: u64,
    height: u64,
    response: Vec<f32>,
    settings: PeakSettings,
    out: usize,
}

fn write(list: &mut List, c: &Call) {
    let s = &c.settings;
    let mut case = Case::new();
    case.long(c.width)
        .long(c.height)
        .count(c.response.len())
        .floats(&c.response);
    case.float(s.threshold)
        .int(s.ring_radius)
        .int(s.window_radius)
        .int(s.refiner_radius)
        .word(s.min_cluster_size)
        .count(c.out);
    let (decision, peaks) = calls::peaks(c.width, c.height, &c.response, s, c.out);
    put_decision(&mut case, decision);
    put_triples(&mut case, &peaks);
    list.tally(number_name(decision.number));
    list.tally(decision.decided.name());
    list.tally_many("peaks", peaks.len());
    let (w, h) = (c.width as usize, c.height as usize);
    match calls::peaks_of_rust(w, h, &c.response, s) {
        None => {
            case.word(1).count(0);
            list.tally("the Rust: panics");
        }
        Some(peaks) => {
            case.word(0);
            put_triples(&mut case, &peaks);
            list.tally("the Rust: answers");
            list.tally_many("the Rust: peaks", peaks.len());
        }
    }
    list.push(&case);
}

fn base() -> PeakSettings {
    PeakSettings {
        threshold: 0.0,
        ring_radius: 1,
        window_radius: 1,
        refiner_radius: 0,
        min_cluster_size: 0,
    }
}

/// A response of 7 by 7 with these values in the middle 3 by 3.
fn middle(values: [f32; 9]) -> Vec<f32> {
    let mut out = vec![0.0; 49];
    for (k, v) in values.iter().enumerate() {
        out[(2 + k / 3) * 7 + 2 + k % 3] = *v;
    }
    out
}

fn call(width: u64, height: u64, response: Vec<f32>, settings: PeakSettings) -> Call {
    Call {
        width,
        height,
        response,
        settings,
        out: 300,
    }
}

/// An equal value at each place of the window, outside the border too: an
/// earlier one blocks, a later one does not.
fn equal_neighbours(list: &mut List) {
    for at in [16, 32] {
        for place in [
            at - 8,
            at - 7,
            at - 6,
            at - 1,
            at + 1,
            at + 6,
            at + 7,
            at + 8,
        ] {
            let mut response = vec![0.0; 49];
            response[at] = 5.0;
            response[place] = 5.0;
            write(list, &call(7, 7, response, base()));
        }
    }
}

fn borders(list: &mut List) {
    let nan = f32::NAN;
    let inf = f32::INFINITY;
    // Ties, NaN at the centre and beside it, infinities, zeros.
    for values in [
        [0.0, 0.0, 0.0, 0.0, 5.0, 0.0, 0.0, 0.0, 0.0],
        [0.0, 0.0, 0.0, 0.0, 5.0, 5.0, 0.0, 0.0, 0.0],
        [0.0, 0.0, 0.0, 5.0, 5.0, 0.0, 0.0, 0.0, 0.0],
        [0.0, 5.0, 0.0, 0.0, 5.0, 0.0, 0.0, 0.0, 0.0],
        [5.0, 0.0, 0.0, 0.0, 5.0, 0.0, 0.0, 0.0, 5.0],
        [0.0, 0.0, 5.0, 0.0, 5.0, 0.0, 5.0, 0.0, 0.0],
        [5.0; 9],
        [0.0, 0.0, 0.0, 5.0, 5.0, 6.0, 0.0, 0.0, 0.0],
        [0.0, 0.0, 0.0, 6.0, 5.0, 5.0, 0.0, 0.0, 0.0],
        [0.0, 0.0, 0.0, 5.0, 6.0, 5.0, 0.0, 0.0, 0.0],
        [0.0, 0.0, 0.0, 5.0, 5.0, nan, 0.0, 0.0, 0.0],
        [nan, 0.0, 0.0, 0.0, 5.0, 5.0, 0.0, 0.0, 0.0],
        [0.0, 0.0, 0.0, 0.0, nan, 0.0, 0.0, 0.0, 0.0],
        [0.0, 0.0, 0.0, nan, 5.0, 0.0, 0.0, 0.0, 0.0],
        [0.0, 0.0, 0.0, 0.0, 5.0, nan, 0.0, 0.0, 0.0],
        [nan; 9],
        [0.0, 0.0, 0.0, 0.0, inf, 0.0, 0.0, 0.0, 0.0],
        [0.0, 0.0, 0.0, 0.0, inf, inf, 0.0, 0.0, 0.0],
        [-inf, -inf, -inf, -inf, 1e-45, -inf, -inf, -inf, -inf],
        [0.0, 0.0, 0.0, 0.0, -0.0, 0.0, 0.0, 0.0, 0.0],
        [-1.0, -1.0, -1.0, -1.0, 0.0, -1.0, -1.0, -1.0, -1.0],
        [-0.0, -0.0, -0.0, -0.0, 1e-45, -0.0, -0.0, -0.0, -0.0],
        [1.0, 2.0, 3.0, 4.0, 9.0, 5.0, 6.0, 7.0, 8.0],
        [3.0, 0.0, 3.0, 0.0, 3.0, 0.0, 3.0, 0.0, 3.0],
        [3.0, 0.0, 3.0, 0.0, 0.0, 0.0, 3.0, 0.0, 3.0],
    ] {
        for min_cluster_size in [0, 1, 2, 8, 9, u32::MAX] {
            let s = PeakSettings {
                min_cluster_size,
                ..base()
            };
            write(list, &call(7, 7, middle(values), s));
        }
    }
    equal_neighbours(list);
    // The threshold: a tie is no peak, and below zero counts as zero.
    let one = middle([0.0, 0.0, 0.0, 0.0, 5.0, 1.0, 0.0, 0.0, 0.0]);
    for threshold in [
        4.999_999_5,
        5.0,
        5.000_000_5,
        -0.0,
        -5.0,
        f32::MIN,
        f32::MAX,
        1e-45,
        nan,
        inf,
        -inf,
    ] {
        write(
            list,
            &call(
                7,
                7,
                one.clone(),
                PeakSettings {
                    threshold,
                    ..base()
                },
            ),
        );
    }
    // The border: one pixel inside, and none.
    for (ring_radius, window_radius, refiner_radius) in [
        (1, 1, 0),
        (1, 2, 0),
        (2, 1, 3),
        (5, 2, 2),
        (10, 1, 0),
        (1, 8, 0),
        (1, 1, 7),
        (3, 4, 1),
    ] {
        let s = PeakSettings {
            ring_radius,
            window_radius,
            refiner_radius,
            ..base()
        };
        let b = (ring_radius + window_radius + refiner_radius) as usize;
        for (w, h) in [
            (2 * b + 1, 2 * b + 1),
            (2 * b, 2 * b + 1),
            (2 * b + 1, 2 * b),
            (2 * b + 2, 2 * b + 1),
        ] {
            let mut response = vec![0.0; w * h];
            let middle = (h / 2) * w + w / 2;
            response[middle] = 4.0;
            if middle + 1 < w * h {
                response[middle + 1] = 2.0;
            }
            write(list, &call(w as u64, h as u64, response, s));
        }
    }
    // 11: each end of each radius.
    // The window stays below what the Rust would scan for hours.
    for bad in [-1, 0, 1, 7, 8, 9, 10, 11, 100] {
        write(
            list,
            &call(
                7,
                7,
                one.clone(),
                PeakSettings {
                    ring_radius: bad,
                    ..base()
                },
            ),
        );
        write(
            list,
            &call(
                7,
                7,
                one.clone(),
                PeakSettings {
                    window_radius: bad,
                    ..base()
                },
            ),
        );
        write(
            list,
            &call(
                7,
                7,
                one.clone(),
                PeakSettings {
                    refiner_radius: bad,
                    ..base()
                },
            ),
        );
    }
    // 10: sizes and counts.
    for (width, height, count) in [
        (0, 0, 0),
        (7, 0, 0),
        (0, 7, 0),
        (7, 7, 48),
        (7, 7, 50),
        (4097, 1, 4097),
        (1, 4097, 4097),
        (4096, 1, 4096),
        (1, 1, 1),
        (1 << 32, 1 << 32, 0),
        (u64::MAX, 1, 1),
    ] {
        write(list, &call(width, height, vec![1.0; count], base()));
    }
    // 19 and 16: the output.
    let many = |c: &mut Call| {
        c.response = (0..49)
            .map(|k| {
                if k % 2 == 0 && (k / 7) % 2 == 0 {
                    2.0
                } else {
                    1.0
                }
            })
            .collect();
    };
    for out in [0, 1, 2, 3, 4, 5, 6, 9, 12, 15, 26, 27, 28, 30] {
        let mut c = call(7, 7, one.clone(), base());
        c.out = out;
        write(list, &c);
        many(&mut c);
        write(list, &c);
    }
    // The order: each pair of numbers at once.
    let spoil = |c: &mut Call, number: u32| match number {
        rules::BAD_IMAGE => c.height = 8,
        rules::BAD_RADIUS => c.settings.window_radius = 9,
        rules::BAD_LIMIT => c.settings.threshold = f32::NAN,
        rules::BAD_LENGTH => c.out += 1,
        _ => c.out %= 3,
    };
    let numbers = [10, 11, 12, 19, 16];
    for (i, &a) in numbers.iter().enumerate() {
        for &b in &numbers[i + 1..] {
            let mut c = call(7, 7, one.clone(), base());
            spoil(&mut c, a);
            spoil(&mut c, b);
            write(list, &c);
        }
    }
}

fn seeded(random: &mut Random) -> Call {
    let settings = PeakSettings {
        threshold: random.pick(&[0.0, 0.0, 0.0, -3.0, 1.0, 2.5, -0.0]),
        ring_radius: random.between(1, 5) as i32,
        window_radius: random.pick(&[1, 1, 1, 2, 2, 3, 4]),
        refiner_radius: random.pick(&[0, 0, 0, 1, 2]),
        min_cluster_size: random.pick(&[0, 0, 1, 2, 2, 3, 5]),
    };
    let b = (settings.ring_radius + settings.window_radius + settings.refiner_radius) as i64;
    let (w, h) = (
        random.between(2 * b + 1, 2 * b + 8) as usize,
        random.between(2 * b + 1, 2 * b + 8) as usize,
    );
    let kind = random.below(5);
    let response = (0..w * h)
        .map(|_| match kind {
            0 => random.between(-3, 3) as f32,
            1 => random.between(0, 1) as f32,
            2 => (random.unit() - 0.6) * 100.0,
            3 if random.once_in(9) => random.pick(&[
                f32::NAN,
                f32::INFINITY,
                f32::NEG_INFINITY,
                -0.0,
                1e-45,
                f32::MAX,
            ]),
            3 => random.between(-2, 4) as f32,
            _ => {
                if random.once_in(4) {
                    random.between(1, 9) as f32
                } else {
                    0.0
                }
            }
        })
        .collect();
    Call {
        width: w as u64,
        height: h as u64,
        response,
        settings,
        out: if random.once_in(10) {
            3 * random.below(6)
        } else {
            300
        },
    }
}

pub fn list(seed: u64) -> List {
    let mut list = List::new("peaks");
    borders(&mut list);
    let mut random = Random::of(seed, "peaks");
    while list.size() < ENOUGH {
        let c = seeded(&mut random);
        write(&mut list, &c);
    }
    list
}
