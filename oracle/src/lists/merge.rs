//! Merging in place: the way taken and the corners kept.

use super::*;
use crate::rules::Way;
use crate::{plain, rules};

struct Call {
    floats: Vec<f32>,
    radius: f32,
    heads: usize,
    links: usize,
}

/// The heads and links of `merge-print`.
const HEADS: usize = 16_384;
const LINKS: usize = 4_096;

fn call(list: &[Triple], radius: f32) -> Call {
    Call {
        floats: list.concat(),
        radius,
        heads: HEADS,
        links: LINKS,
    }
}

fn way_word(way: Way) -> u32 {
    match way {
        Way::Refused(_) => 0,
        Way::Empty => 1,
        Way::Unchanged => 2,
        Way::Plain => 3,
        Way::Grid => 4,
    }
}

fn write(list: &mut List, c: &Call) {
    let (decision, way, kept) = calls::merge(&c.floats, c.radius, c.heads, c.links);
    let corners = triples(&c.floats);
    let mut case = Case::new();
    put_padded(&mut case, &c.floats);
    case.float(c.radius).count(c.heads).count(c.links);
    put_decision(&mut case, decision);
    case.word(way_word(way));
    put_triples(&mut case, &kept);
    list.push(&case);
    list.tally(number_name(decision.number));
    list.tally(decision.decided.name());
    match way {
        Way::Refused(_) => {}
        Way::Empty => list.tally("way 1, empty list"),
        Way::Unchanged => list.tally("way 2, radius that needs no merging"),
        Way::Plain => list.tally("way 3, plain scan"),
        Way::Grid => {
            list.tally("way 4, grid");
            if kept.len() < corners.len() {
                list.tally("grid, some merged");
            }
            let scan = plain::merge_plain(&corners, c.radius * c.radius);
            if !same_triples(&scan, &kept) {
                list.tally("grid, where the plain scan keeps other corners");
            }
            if corners.iter().any(|c| c[0].is_nan() || c[1].is_nan()) {
                list.tally("grid, with a NaN coordinate");
            }
        }
    }
}

/// P11 and P12: the corners, the radius, and what is kept.
pub fn examples() -> [(&'static str, Vec<Triple>, Vec<Triple>); 2] {
    let at = |x: f32, s: f32| [x, 0.0, s];
    [
        (
            "P11",
            vec![at(0.0, 1.0), at(2.0, 2.0), at(4.0, 3.0)],
            vec![at(4.0, 3.0)],
        ),
        (
            "P12",
            vec![at(0.0, 3.0), at(2.0, 2.0), at(4.0, 1.0)],
            vec![at(0.0, 3.0), at(4.0, 1.0)],
        ),
    ]
}

fn borders(list: &mut List) {
    for (_, corners, _) in examples() {
        write(list, &call(&corners, 2.0));
    }
    let two = |a: f32, b: f32| vec![[a, 0.0, 1.0], [b, 0.0, 2.0]];
    // The empty list, also with a radius that needs no merging, and one corner.
    for radius in [2.0, 0.0, f32::NAN, -1.0] {
        write(list, &call(&[], radius));
        write(
            list,
            &Call {
                links: 0,
                heads: 0,
                ..call(&[], radius)
            },
        );
        write(list, &call(&[[5.0, -7.0, 1.0]], radius));
    }
    // Radii that need no merging, and the least and greatest that do.
    for radius in [
        f32::NAN,
        f32::INFINITY,
        f32::NEG_INFINITY,
        0.0,
        -0.0,
        -1.0,
        -1e-45,
        f32::MIN,
    ] {
        write(list, &call(&two(0.0, 0.0), radius));
        write(
            list,
            &Call {
                heads: 0,
                ..call(&two(0.0, 1.0), radius)
            },
        );
        write(list, &call(&two(f32::NAN, f32::INFINITY), radius));
    }
    for radius in [
        1e-45,
        1e-40,
        1e-38,
        1e-30,
        1e-20,
        1e18,
        1e19,
        1e20,
        1e38,
        2e38,
        f32::MAX,
    ] {
        for (a, b) in [
            (0.0, 0.0),
            (1.0, 1.0),
            (0.0, radius),
            (0.0, radius * 2.0),
            (0.0, radius * 5.0),
        ] {
            write(list, &call(&two(a, b), radius));
            write(list, &call(&two(b, a), radius));
        }
    }
    // Shortcuts: the squares underflow; grid and plain scan part.
    write(list, &call(&two(0.0, 5e-30), 1e-30));
    write(
        list,
        &call(
            &[[0.0, 0.0, 1.0], [5e-30, 0.0, 2.0], [f32::NAN, 0.0, 9.0]],
            1e-30,
        ),
    );
    let parts = [
        [0.0, 50.0, 1.0],
        [f32::from_bits(0x3FFF_FFFF), 0.0, 1.0],
        [4.0, 0.0, 1.0],
    ];
    write(list, &call(&parts, 2.0));
    // Exactly at the radius, and one last bit beyond.
    write(list, &call(&[[0.0, 0.0, 1.0], [3.0, 4.0, 2.0]], 5.0));
    write(
        list,
        &call(&[[0.0, 0.0, 1.0], [3.0, 4.000_000_5, 2.0]], 5.0),
    );
    // Strengths: equal, NaN, zeros of both signs, infinities.
    let odd = [
        1.0,
        f32::NAN,
        0.0,
        -0.0,
        f32::INFINITY,
        f32::NEG_INFINITY,
        1e-45,
    ];
    for &a in &odd {
        for &b in &odd {
            write(list, &call(&[[1.0, 1.0, a], [1.5, 1.0, b]], 2.0));
        }
    }
    // Coordinates: NaN lands in cell 0, an infinity ends the grid.
    let odd = [
        f32::NAN,
        f32::INFINITY,
        f32::NEG_INFINITY,
        -0.0,
        3e38,
        -3e38,
        1e-45,
    ];
    for &x in &odd {
        for &y in &odd {
            write(
                list,
                &call(
                    &[[1.0, 1.0, 1.0], [x, y, 2.0], [2.0, 1.0, 3.0], [x, y, 4.0]],
                    2.0,
                ),
            );
        }
        write(list, &call(&[[x, x, 1.0], [x, x, 2.0]], 2.0));
        write(
            list,
            &call(&[[x, 0.0, 1.0], [x, 1.0, 2.0], [x, 9.0, 2.0]], 2.0),
        );
    }
    // All NaN: no box. x NaN everywhere, y not.
    write(list, &call(&[[f32::NAN, f32::NAN, 1.0]; 4], 2.0));
    write(
        list,
        &call(&[[f32::NAN, 1.0, 1.0], [f32::NAN, 9.0, 1.0]], 2.0),
    );
    // Chains: one corner meets two kept ones and takes the lower number.
    write(
        list,
        &call(&[[0.0, 0.0, 1.0], [3.0, 0.0, 1.0], [1.5, 0.0, 2.0]], 2.0),
    );
    write(
        list,
        &call(&[[3.0, 0.0, 1.0], [0.0, 0.0, 1.0], [1.5, 0.0, 2.0]], 2.0),
    );
    write(
        list,
        &call(
            &[
                [3.9, 0.0, 1.0],
                [0.1, 0.0, 1.0],
                [2.0, 0.0, 2.0],
                [1.9, 0.0, 3.0],
                [0.2, 0.0, 4.0],
            ],
            2.0,
        ),
    );
    // Heads: exactly enough, and one too few.
    for (x, y) in [
        (0.0, 0.0),
        (7.0, 0.0),
        (0.0, 7.0),
        (7.0, 5.0),
        (127.0, 127.0),
        (16_383.0, 0.0),
    ] {
        let corners = [[0.0, 0.0, 1.0], [x, y, 2.0]];
        let [across, down] = rules::cells(&corners, 1.0);
        let need = (across * down) as usize;
        for heads in [need, need - 1] {
            write(
                list,
                &Call {
                    heads,
                    ..call(&corners, 1.0)
                },
            );
        }
    }
    // Grids beyond any computer: counts that wrap, saturate, or multiply past 64 bits.
    let huge = 1_099_511_627_776.0; // 2^40
    for (corners, radius) in [
        (two(0.0, 1.0), 1e-30),
        (two(-3e38, 3e38), 3e38),
        (two(-3e38, 3e38), 1.0),
        (vec![[0.0, 0.0, 1.0], [huge, 16_777_215.0, 1.0]], 1.0),
        (vec![[0.0, 0.0, 1.0], [huge, huge, 1.0]], 1.0),
        (
            vec![[0.0, 0.0, 1.0], [4_294_967_296.0, 4_294_967_296.0, 1.0]],
            1.0,
        ),
        (vec![[0.0, 0.0, 1.0], [1e30, 1e30, 1.0]], 1.0),
        (vec![[0.0, 0.0, 1.0], [1e30, 0.0, 1.0]], 1.0),
        (vec![[0.0, 0.0, 1.0], [0.0, 1e30, 1.0]], 1.0),
        (two(0.0, 16_384.0), 1.0),
        (two(0.0, 1e6), 1.0),
        (two(0.0, 1.8e19), 1.0),
        (two(0.0, 1.8446744e19), 1.0),
        (two(0.0, 9.3e18), 1.0),
    ] {
        write(list, &call(&corners, radius));
    }
    // 19, 16, 18 and their order.
    for cut in [1, 2] {
        let mut c = call(&[[1.0, 2.0, 3.0], [4.0, 5.0, 6.0]], 2.0);
        c.floats.truncate(6 - cut);
        write(list, &c);
        c.floats = vec![0.0; cut];
        write(list, &c);
        c.floats = vec![0.0; 3 * 4097 + cut];
        write(list, &c);
        c.links = 0;
        write(list, &c);
    }
    for (n, links) in [
        (4096, 4096),
        (4097, 4097),
        (4097, 4098),
        (4097, 0),
        (4096, 4095),
    ] {
        let mut c = call(&[], 2.0);
        c.floats = vec![0.0; 3 * n];
        c.links = links;
        write(list, &c);
    }
    for links in [0, 1, 2, 3] {
        for radius in [2.0, f32::NAN] {
            for heads in [0, 1, HEADS] {
                write(
                    list,
                    &Call {
                        links,
                        heads,
                        ..call(&two(0.0, 1.0), radius)
                    },
                );
                let wide = [[0.0, 0.0, 1.0], [f32::INFINITY, 0.0, 2.0]];
                write(
                    list,
                    &Call {
                        links,
                        heads,
                        ..call(&wide, radius)
                    },
                );
            }
        }
    }
    full(list);
}

/// 4,096 corners at once, on 122 by 122 cells.
fn full(list: &mut List) {
    let mut random = Random::of(9, "full");
    let corners: Vec<Triple> = (0..4096)
        .map(|_| {
            [
                random.unit() * 242.0,
                random.unit() * 242.0,
                random.unit() * 100.0,
            ]
        })
        .collect();
    write(list, &call(&corners, 2.0));
}

fn seeded(random: &mut Random) -> Call {
    let n = random.between(1, 24) as usize;
    let radius = random.pick(&[0.5, 1.0, 2.0, 2.0, 2.0, 3.0, 7.5, 0.1, 1e-30, 1e25]);
    let scale = radius * random.pick(&[1.0, 3.0, 6.0, 20.0, 60.0]);
    let grid = random.once_in(3);
    let mut corners: Vec<Triple> = (0..n)
        .map(|_| {
            let at = |random: &mut Random| {
                if grid {
                    // On a grid of the radius: ties, and borders of cells.
                    (random.unit() * 6.0).floor() * radius
                } else {
                    (random.unit() - 0.25) * scale
                }
            };
            let strength = if random.once_in(2) {
                random.below(4) as f32
            } else {
                random.unit() * 100.0
            };
            [at(random), at(random), strength]
        })
        .collect();
    if random.once_in(5) {
        for _ in 0..random.between(1, 3) {
            let (i, k) = (random.below(n), random.below(3));
            corners[i][k] = odd_float(random);
        }
    }
    if random.once_in(6) {
        let i = random.below(n);
        corners[i][random.below(2)] = f32::NAN;
    }
    let mut c = call(&corners, radius);
    if random.once_in(10) {
        c.heads = random.below(200);
    }
    c
}

pub fn list(seed: u64) -> List {
    let mut list = List::new("merge");
    borders(&mut list);
    let mut random = Random::of(seed, "merge");
    while list.size() < ENOUGH {
        let c = seeded(&mut random);
        write(&mut list, &c);
    }
    list
}
