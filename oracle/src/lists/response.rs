//! Response patches with any ring.

use super::*;
use crate::{pictures, plain, rules};

struct Call {
    image: Image,
    radius: i32,
    ring: Ring,
    region: Region,
    out: usize,
}

fn whole(image: &Image) -> Region {
    Region {
        x0: 0,
        y0: 0,
        x1: image.width,
        y1: image.height,
    }
}

/// A call with the buffer that the rule asks for.
fn call(image: Image, radius: i32, ring: Ring, region: Region) -> Call {
    let (_, _, w, h) = rules::clamped((&image).into(), region);
    Call {
        out: w.saturating_mul(h) as usize,
        image,
        radius,
        ring,
        region,
    }
}

/// A ring of its radius: any pairs, or the corners, or the paper's ring.
fn any_ring_of(random: &mut Random, radius: i32) -> Ring {
    let r = i64::from(radius);
    match random.below(6) {
        0 if radius % 5 == 0 => paper_ring(radius / 5),
        0 | 1 => [(); 16].map(|()| {
            (
                random.pick(&[-radius, radius]),
                random.pick(&[-radius, radius]),
            )
        }),
        2 => {
            let one = (random.between(-r, r) as i32, random.between(-r, r) as i32);
            [one; 16]
        }
        // The paper's ring, drawn together to the radius.
        3 => paper_ring(1).map(|(dx, dy)| (dx * radius / 5, dy * radius / 5)),
        _ => [(); 16].map(|()| (random.between(-r, r) as i32, random.between(-r, r) as i32)),
    }
}

fn write(list: &mut List, c: &Call) {
    let (decision, w, h, values) =
        calls::response((&c.image).into(), c.radius, &c.ring, c.region, c.out);
    if decision.number == 0 {
        check_more(list, c, w, h, &values);
        if values.is_empty() {
            list.tally("accepted, nothing of the region in the image");
        }
    }
    let mut case = Case::new();
    put_image(&mut case, &c.image);
    case.int(c.radius);
    put_ring(&mut case, &c.ring);
    case.long(c.region.x0)
        .long(c.region.y0)
        .long(c.region.x1)
        .long(c.region.y1)
        .count(c.out);
    put_decision(&mut case, decision);
    case.count(w as usize).count(h as usize).floats(&values);
    list.push(&case);
    list.tally(number_name(decision.number));
    list.tally(decision.decided.name());
    list.tally(padding::kind((&c.image).into()));
}

/// The row kernel and the pixel function of the unchanged ring.rs give the
/// same with the pitch for their width, the unchanged patch call does where the
/// ring is its own, and each value lies as near to N as document 01 says.
fn check_more(list: &mut List, c: &Call, w: u64, h: u64, values: &[f32]) {
    let (x0, y0, _, _) = rules::clamped((&c.image).into(), c.region);
    let pitch = c.image.pitch as usize;
    for py in 0..h {
        let y = y0 + py;
        let fits: Vec<u64> = (x0..x0 + w)
            .filter(|&x| rules::ring_fits((&c.image).into(), c.radius, x, y))
            .collect();
        let (Some(&from), Some(&last)) = (fits.first(), fits.last()) else {
            continue;
        };
        let mut row = vec![0.0; fits.len()];
        plain::response_row(
            &c.image.bytes,
            pitch,
            y as i32,
            &c.ring,
            &mut row,
            from as usize,
            last as usize + 1,
        );
        let start = (py * w + (from - x0)) as usize;
        let part = &values[start..start + row.len()];
        assert!(same_floats(&row, part), "the row kernel parts");
        for (x, &v) in fits.iter().zip(part) {
            let one = plain::response_at(&c.image.bytes, pitch, *x as i32, y as i32, &c.ring);
            assert!(bits32(one) == bits32(v), "the pixel function parts");
            let n = i64::from(rules::whole_at(
                (&c.image).into(),
                &c.ring,
                *x as i64,
                y as i64,
            ));
            let units = f64::from(v) * 4_194_304.0;
            assert!(
                units.fract() == 0.0,
                "the value is no whole number of units"
            );
            let apart = (units as i64 * 5 - n * 4_194_304).abs();
            assert!(apart <= 10_240, "demand 3 fails in the Rust");
            list.tally(if v > 0.0 {
                "value above zero"
            } else if v < 0.0 {
                "value below zero"
            } else {
                "value zero, ring fits"
            });
        }
    }
    let own =
        (c.ring == paper_ring(1) && c.radius == 5) || (c.ring == paper_ring(2) && c.radius == 10);
    let narrow = c.image.width < c.radius as u64 || c.image.height < c.radius as u64;
    if own {
        let bytes = padding::taken_out((&c.image).into());
        let whole = View::new(c.image.width as usize, c.image.height as usize, &bytes);
        let (_, _, rv) = plain::response_patch(whole, c.radius == 10, c.region).expect("a region");
        assert!(same_floats(&rv, values), "the unchanged patch call parts");
        list.tally("also by the unchanged ring.rs");
    }
    if narrow {
        list.tally("narrower than the ring radius");
    }
}

/// A picture of 11 by 11 with given ring samples and cross about its middle.
fn marked(ring: [u8; 16], cross: [u8; 5]) -> Image {
    let mut image = pictures::flat(11, 11, 0);
    let mut set = |(dx, dy): (i32, i32), v: u8| {
        image.bytes[((5 + dy) * 11 + 5 + dx) as usize] = v;
    };
    for (k, d) in paper_ring(1).iter().enumerate() {
        set(*d, ring[k]);
    }
    for (k, d) in [(0, 0), (0, -1), (0, 1), (1, 0), (-1, 0)]
        .iter()
        .enumerate()
    {
        set(*d, cross[k]);
    }
    image
}

/// The marked examples P1 to P5: picture, N and bits of the value.
pub fn examples() -> Vec<(&'static str, Image, i32, u32)> {
    let pick = |f: fn(usize) -> u8| core::array::from_fn(f);
    vec![
        ("P1", pictures::flat(11, 11, 7), 0, 0),
        (
            "P2",
            marked(pick(|k| if k % 8 < 4 { 200 } else { 0 }), [100; 5]),
            8000,
            1600f32.to_bits(),
        ),
        (
            "P3",
            marked(pick(|k| if k < 8 { 100 } else { 0 }), [50; 5]),
            -4000,
            (-800f32).to_bits(),
        ),
        ("P4", marked([0; 16], [1, 0, 0, 0, 0]), -16, 0xC04C_CCCD),
        (
            "P5",
            marked([255; 16], [0; 5]),
            -20400,
            (-4080f32).to_bits(),
        ),
    ]
}

fn borders(list: &mut List) {
    let five = paper_ring(1);
    for (_, image, _, _) in examples() {
        let region = whole(&image);
        write(list, &call(image, 5, five, region));
    }
    // Narrow pictures, and pictures where one pixel or none has its ring.
    for (radius, ring) in [
        (5, five),
        (10, paper_ring(2)),
        (1, [(1, -1); 16]),
        (3, [(-3, 3); 16]),
    ] {
        let r = radius as usize;
        for (w, h) in [
            (1, 1),
            (r, r),
            (r.max(2) - 1, 2 * r + 1),
            (2 * r + 1, r.max(2) - 1),
            (2 * r, 2 * r + 1),
            (2 * r + 1, 2 * r),
            (2 * r + 1, 2 * r + 1),
            (2 * r + 2, 2 * r + 1),
            (2 * r + 2, 2 * r + 3),
        ] {
            let mut random = Random::of(7, "narrow");
            let image = pictures::noise(&mut random, w, h);
            let region = whole(&image);
            write(list, &call(image, radius, ring, region));
        }
    }
    let mut random = Random::of(11, "borders");
    let image = pictures::noise(&mut random, 16, 14);
    let good = |region: Region| call(image.clone(), 5, five, region);
    let at = |x0: u64, y0: u64, x1: u64, y1: u64| Region { x0, y0, x1, y1 };
    let max = u64::MAX;
    // Regions: whole, one pixel, over the edge, outside, at the ends of 64 bits.
    for region in [
        at(0, 0, 16, 14),
        at(5, 5, 6, 6),
        at(4, 5, 6, 6),
        at(10, 8, 11, 9),
        at(11, 9, 16, 14),
        at(3, 2, 99, 99),
        at(0, 0, max, max),
        at(15, 13, max, max),
        at(16, 0, 17, 14),
        at(0, 14, 16, 15),
        at(16, 14, max, max),
        at(max - 1, max - 1, max, max),
        at(1 << 32, 0, (1 << 32) + 5, 14),
        at(0, 1 << 32, 16, (1 << 32) + 1),
    ] {
        write(list, &good(region));
        let mut wrong = good(region);
        wrong.out += 1;
        write(list, &wrong);
    }
    // 14: every way a region is empty before clamping.
    for region in [
        at(0, 0, 0, 14),
        at(0, 0, 16, 0),
        at(5, 5, 5, 6),
        at(6, 5, 5, 6),
        at(5, 6, 6, 5),
        at(max, 0, 0, 14),
        at(16, 14, 16, 14),
        at(max, max, max, max),
    ] {
        write(list, &good(region));
    }
    // 15: one too few, none, many.
    for out in [0, 1, 16 * 14 - 1, 16 * 14 + 1, 4096] {
        let mut wrong = good(at(0, 0, 16, 14));
        wrong.out = out;
        write(list, &wrong);
    }
    // 11 and 13: each end of each limit.
    for radius in [i32::MIN, -1, 0, 11, 12, i32::MAX] {
        let mut wrong = good(at(0, 0, 16, 14));
        wrong.radius = radius;
        write(list, &wrong);
    }
    for radius in 1..=10 {
        for d in [radius, -radius, radius + 1, -radius - 1] {
            for across in [false, true] {
                let mut ring = [(0, 0); 16];
                ring[(radius as usize) % 16] = if across { (d, 0) } else { (0, d) };
                let mut some = good(at(0, 0, 16, 14));
                some.radius = radius;
                some.ring = ring;
                write(list, &some);
            }
        }
    }
    for d in [i32::MIN, i32::MAX, 256, -256, 128, -128, 65536] {
        let mut some = good(at(0, 0, 16, 14));
        some.ring[15] = (0, d);
        write(list, &some);
    }
    // 10: sizes and counts.
    let sized =
        |width: usize, height: usize, count: usize| Image::new(width, height, vec![9; count]);
    for image in [
        sized(0, 0, 0),
        sized(0, 14, 0),
        sized(16, 0, 0),
        sized(16, 14, 223),
        sized(16, 14, 225),
        sized(16, 14, 0),
        sized(4097, 1, 4097),
        sized(1, 4097, 4097),
        sized(4096, 1, 4096),
        sized(1, 4096, 4096),
        sized(1 << 32, 1 << 32, 0),
        sized((1 << 32) + 16, 14, 224),
        sized(usize::MAX, usize::MAX, 1),
    ] {
        let mut some = call(image, 5, five, at(0, 0, 1, 1));
        some.out = 1;
        write(list, &some);
    }
    // The order: each pair of numbers at once.
    let spoil = |c: &mut Call, number: u32| match number {
        rules::BAD_IMAGE => {
            c.image.bytes.pop();
        }
        rules::BAD_RADIUS => c.radius = 11,
        rules::BAD_RING => c.ring[3] = (0, 12),
        rules::EMPTY_ROI => c.region.x1 = c.region.x0,
        _ => c.out += 1,
    };
    let numbers = [10, 11, 13, 14, 15];
    for (i, &a) in numbers.iter().enumerate() {
        for &b in &numbers[i + 1..] {
            let mut c = good(at(0, 0, 16, 14));
            spoil(&mut c, a);
            spoil(&mut c, b);
            write(list, &c);
        }
    }
}

/// Rows with padding, and pitches and counts that 10 refuses, before 11 too.
fn pitches(list: &mut List) {
    let mut random = Random::of(13, "pitches");
    let image = pictures::noise(&mut random, 16, 14);
    let at = |x0: u64, y0: u64, x1: u64, y1: u64| Region { x0, y0, x1, y1 };
    for padded in padding::near(&mut random, &image) {
        for region in [whole(&image), at(4, 4, 12, 10), at(10, 8, 99, 99)] {
            write(list, &call(padded.clone(), 5, paper_ring(1), region));
        }
    }
    // The ring fits on the middle one of three rows.
    let low = pictures::noise(&mut random, 16, 3);
    let ring = any_ring_of(&mut random, 1);
    for padded in padding::far(&mut random, &low) {
        write(list, &call(padded, 1, ring, whole(&low)));
    }
    let wide = pictures::noise(&mut random, 4096, 1);
    for padded in padding::far(&mut random, &wide) {
        write(list, &call(padded, 1, ring, at(4090, 0, 8192, 1)));
    }
    for kind in 0..padding::WRONG {
        for radius in [1, 11] {
            let mut wrong = call(
                padding::wrong(&mut random, kind),
                radius,
                ring,
                at(0, 0, 1, 1),
            );
            wrong.out = 1;
            write(list, &wrong);
        }
    }
}

pub fn list(seed: u64) -> List {
    let mut list = List::new("response");
    borders(&mut list);
    pitches(&mut list);
    let mut random = Random::of(seed, "response");
    let mut beside = Random::of(seed, "response padding");
    while list.size() < ENOUGH + ENOUGH / 4 {
        let radius = random.between(1, 10) as i32;
        let (w, h) = if random.once_in(12) {
            (
                random.between(20, 40) as usize,
                random.between(20, 30) as usize,
            )
        } else {
            let r = i64::from(radius);
            (
                random.between(1.max(r - 2), 2 * r + 8) as usize,
                random.between(1.max(r - 2), 2 * r + 8) as usize,
            )
        };
        let image = padding::at_times(&mut beside, pictures::any(&mut random, w, h));
        let ring = any_ring_of(&mut random, radius);
        let region = if random.once_in(3) {
            let (x0, y0) = (random.below(w + 1) as u64, random.below(h + 1) as u64);
            Region {
                x0,
                y0,
                x1: x0 + 1 + random.below(w + 2) as u64,
                y1: y0 + 1 + random.below(h + 2) as u64,
            }
        } else {
            whole(&image)
        };
        write(&mut list, &call(image, radius, ring, region));
    }
    list
}
