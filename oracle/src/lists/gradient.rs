//! `ResponseStencil::add_gradient` on a tile and a gradient grid (W-213).

use super::*;
use crate::{pictures, rules};

struct Call {
    side: u32,
    tile: Vec<u8>,
    ring: Ring,
    x: u32,
    y: u32,
    scale: [f32; 2],
    grads: Vec<f32>,
}

fn write(list: &mut List, c: &Call) {
    let (decision, after) = calls::gradient(c.side, &c.tile, &c.ring, c.x, c.y, c.scale, &c.grads);
    let mut case = Case::new();
    case.word(c.side).count(c.tile.len()).bytes(&c.tile);
    put_ring(&mut case, &c.ring);
    case.word(c.x).word(c.y).floats(&c.scale);
    put_padded(&mut case, &c.grads);
    put_decision(&mut case, decision);
    put_padded(&mut case, &after);
    list.push(&case);
    list.tally(number_name(decision.number));
    list.tally(decision.decided.name());
    if after.iter().any(|g| g.is_nan()) {
        list.tally("a NaN in the gradient afterwards");
    }
    if c.side % 2 == 0 {
        list.tally("even side");
    }
}

/// A call whose tile just holds the ring of radius `r`.
fn tight(tile: Image, ring: Ring, r: u32) -> Call {
    let side = tile.width as u32;
    Call {
        side,
        grads: vec![0.0; 2 * (side * side) as usize],
        tile: tile.bytes,
        ring,
        x: r,
        y: r,
        scale: [1.0, -0.5],
    }
}

fn borders(list: &mut List) {
    let mut random = Random::of(13, "borders");
    let five = paper_ring(1);
    for (_, image, _, _) in response::examples() {
        write(list, &tight(image, five, 5));
    }
    let noise = |random: &mut Random| tight(pictures::noise(random, 11, 11), five, 5);
    // Scales: zeros, infinities, NaN, the least and the greatest.
    let odd = [
        0.0,
        -0.0,
        1.0,
        f32::INFINITY,
        f32::NEG_INFINITY,
        f32::NAN,
        1e-45,
        f32::MAX,
        f32::MIN,
    ];
    for &a in &odd {
        for &b in &odd {
            let mut c = noise(&mut random);
            c.scale = [a, b];
            write(list, &c);
        }
        let mut flat = tight(pictures::flat(11, 11, 7), five, 5);
        flat.scale = [a, a];
        write(list, &flat);
    }
    // What the grid holds before.
    for start in [1.0, -1e-45, f32::INFINITY, f32::NAN, f32::MAX, -0.0] {
        let mut c = noise(&mut random);
        c.grads.fill(start);
        write(list, &c);
    }
    // The place: every cell of the rim of where the ring fits, and one beyond.
    for (w, places) in [
        (
            11u32,
            vec![
                (5, 5),
                (4, 5),
                (5, 4),
                (6, 5),
                (5, 6),
                (0, 0),
                (10, 10),
                (11, 5),
                (5, 11),
                (200, 5),
                (u32::MAX, 5),
                (5, u32::MAX),
            ],
        ),
        (
            13,
            vec![
                (5, 5),
                (7, 7),
                (7, 5),
                (5, 7),
                (8, 6),
                (6, 8),
                (4, 6),
                (6, 4),
            ],
        ),
        (12, vec![(5, 5), (6, 6), (7, 6), (6, 7)]),
    ] {
        for (x, y) in places {
            let mut c = tight(
                pictures::noise(&mut random, w as usize, w as usize),
                five,
                5,
            );
            (c.x, c.y) = (x, y);
            write(list, &c);
        }
    }
    // The cross leaves though the ring does not, and small tiles.
    for side in [0u32, 1, 2, 3, 4] {
        for at in 0..=side {
            let tile = pictures::noise(&mut random, side as usize, side as usize);
            let mut c = tight(tile, [(0, 0); 16], at);
            c.y = side / 2;
            write(list, &c);
        }
    }
    for d in [i32::MIN, i32::MAX, 6, -6, 5, -5] {
        for (i, across) in [(0, true), (15, false)] {
            let mut c = noise(&mut random);
            c.ring = [(1, 1); 16];
            c.ring[i] = if across { (d, 0) } else { (0, d) };
            write(list, &c);
        }
    }
    // 10, 13, 15 and their order.
    let spoil = |c: &mut Call, number: u32| match number {
        rules::BAD_IMAGE => {
            c.tile.pop();
        }
        rules::BAD_RING => c.x = 4,
        _ => {
            c.grads.pop();
        }
    };
    for a in [10, 13, 15] {
        for b in [10, 13, 15] {
            let mut c = noise(&mut random);
            spoil(&mut c, a);
            if a != b {
                spoil(&mut c, b);
            }
            write(list, &c);
        }
    }
    for (tile, grads) in [
        (0, 242),
        (122, 242),
        (121, 0),
        (121, 121),
        (121, 243),
        (121, 244),
        (121, 241),
    ] {
        let mut c = noise(&mut random);
        c.tile.resize(tile, 1);
        c.grads.resize(grads, 0.0);
        write(list, &c);
    }
}

pub fn list(seed: u64) -> List {
    let mut list = List::new("gradient");
    borders(&mut list);
    let mut random = Random::of(seed, "gradient");
    while list.size() < ENOUGH / 2 {
        let r = random.between(1, 5);
        let side = (2 * r + 1 + random.between(0, 3)) as usize;
        let mut ring = [(0, 0); 16];
        for d in &mut ring {
            *d = (random.between(-r, r) as i32, random.between(-r, r) as i32);
        }
        if r == 5 && random.once_in(2) {
            ring = paper_ring(1);
        }
        let tile = pictures::any(&mut random, side, side);
        let mut c = tight(tile, ring, r as u32);
        c.x = random.between(r, side as i64 - 1 - r) as u32;
        c.y = random.between(r, side as i64 - 1 - r) as u32;
        c.scale = [(random.unit() - 0.5) * 4.0, (random.unit() - 0.5) * 4.0];
        if random.once_in(3) {
            for g in &mut c.grads {
                *g = (random.unit() - 0.5) * 10.0;
            }
        }
        write(&mut list, &c);
    }
    list
}
