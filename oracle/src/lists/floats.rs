//! What the library of rustc answers on single numbers: floor, round, root,
//! conversions, magnitude, order. Nothing of docs/src is read here.

use crate::random::Random;
use crate::words::{Case, List, NAN32, NAN64};

const SEEDED: usize = 3_000;

/// Patterns at the borders of binary32, both signs.
fn edges32() -> Vec<u32> {
    let mut out: Vec<u32> = vec![0, 1, 2, 0x007F_FFFE, 0x007F_FFFF, 0x0080_0000, 0x0080_0001];
    // Every power of two from the least normal up, with its neighbours
    // where whole numbers and conversions change their ways.
    for e in [
        -126, -125, -64, -24, -23, -22, -3, -2, -1, 0, 1, 2, 3, 6, 7, 8, 15, 16, 21, 22, 23, 24,
        25, 26, 29, 30, 31, 32, 33, 52, 53, 61, 62, 63, 64, 65, 100, 126, 127,
    ] {
        let p = ((e + 127) as u32) << 23;
        out.extend([p - 1, p, p + 1]);
    }
    // Halves n + 0.5 and their neighbours, and small whole numbers.
    for n in (0..=20u32).chain([
        31, 63, 64, 99, 100, 127, 255, 256, 999, 4_095, 4_096, 65_535, 65_536, 1_048_575,
        2_097_151, 2_097_152, 4_194_303, 4_194_304, 8_388_606, 8_388_607, 8_388_608, 16_777_215,
    ]) {
        for x in [n as f32, n as f32 + 0.5, n as f32 + 0.25, n as f32 + 0.75] {
            let p = x.to_bits();
            out.extend([p.saturating_sub(1), p, p + 1]);
        }
    }
    // Squares and neighbours, where a root is exact or nearly so.
    for n in [1u32, 2, 3, 5, 7, 10, 100, 1_000, 2_047, 4_095, 4_096] {
        let p = (n as f32 * n as f32).to_bits();
        out.extend([p - 1, p, p + 1]);
    }
    out.extend([0x7F7F_FFFF, 0x7F7F_FFFE, 0x7F80_0000]);
    out.sort_unstable();
    out.dedup();
    let both: Vec<u32> = out.iter().flat_map(|&p| [p, p | 0x8000_0000]).collect();
    let mut all = both;
    all.push(NAN32);
    all
}

/// A seeded pattern of binary32 that is no NaN but the one.
fn seeded32(random: &mut Random, i: usize) -> u32 {
    let p = match i % 4 {
        // Subnormals of every length.
        1 if i % 16 == 1 => {
            (random.word() & 0x007F_FFFF) >> random.below(23) | (random.word() & 0x8000_0000)
        }
        0 | 1 => random.word(),
        // Near small numbers: up to 64 in steps of 2^-12 with a last bit more or less.
        2 => {
            let x = random.below(1 << 18) as f32 / 4096.0;
            let near = x
                .to_bits()
                .wrapping_add(random.below(3) as u32)
                .saturating_sub(1);
            near | (random.word() & 0x8000_0000)
        }
        // Uniform exponent from 2^-3 to 2^66.
        _ => {
            let e = random.between(124, 193) as u32;
            (e << 23) | (random.word() & 0x807F_FFFF)
        }
    };
    if f32::from_bits(p).is_nan() {
        NAN32
    } else {
        p
    }
}

pub fn floats32(seed: u64) -> List {
    let mut list = List::new("floats32");
    let mut random = Random::of(seed, "floats32");
    let mut patterns = edges32();
    list.tally_many("at a border", patterns.len());
    patterns.extend((0..SEEDED).map(|i| seeded32(&mut random, i)));
    for p in patterns {
        let x = f32::from_bits(p);
        let mut case = Case::new();
        case.word(p)
            .float(x.floor())
            .float(x.round())
            .float(x.sqrt())
            .int(x as i32)
            .long(x as usize as u64)
            .float(x.abs())
            .flag(x.is_finite());
        list.push(&case);
        list.tally(match x.classify() {
            std::num::FpCategory::Nan => "NaN",
            std::num::FpCategory::Infinite => "infinite",
            std::num::FpCategory::Zero => "zero",
            std::num::FpCategory::Subnormal => "subnormal",
            std::num::FpCategory::Normal => "normal",
        });
        if x.is_finite() && x.fract().abs() == 0.5 {
            list.tally("half way between whole numbers");
        }
        if x as i32 == i32::MAX || x as i32 == i32::MIN {
            list.tally("as i32 at an end");
        }
        if x as usize == usize::MAX {
            list.tally("as usize at the end");
        }
        if x.sqrt().is_nan() {
            list.tally("no root");
        }
    }
    list
}

pub fn ints32(seed: u64) -> List {
    let mut list = List::new("ints32");
    let mut random = Random::of(seed, "ints32");
    let mut ints: Vec<i32> = vec![0, i32::MIN, i32::MIN + 1, i32::MAX];
    for k in 0..31 {
        let p = 1i32 << k;
        for n in [p - 1, p, p.wrapping_add(1)] {
            ints.extend([n, n.wrapping_neg()]);
        }
    }
    // Ties and neighbours of ties of the rounding to 24 digits.
    for k in 1..7 {
        let unit = 1i32 << k;
        for m in [(1 << 23) + 1, (1 << 23) + 2, (1 << 24) - 1, (1 << 24) - 2] {
            let tie = m * unit + unit / 2;
            for n in [tie - 1, tie, tie + 1] {
                ints.extend([n, -n]);
            }
        }
    }
    ints.sort_unstable();
    ints.dedup();
    list.tally_many("at a border", ints.len());
    for i in 0..1_000 {
        let w = random.word() as i32;
        ints.push(if i % 2 == 0 { w } else { w >> random.below(31) });
    }
    for n in ints {
        let mut case = Case::new();
        case.int(n).float(n as f32);
        list.push(&case);
        if (n as f32) as i64 == i64::from(n) {
            list.tally("exact");
        } else {
            list.tally("rounded");
        }
    }
    list
}

/// Patterns of binary64 at its own borders and at those of the narrowing.
fn edges64() -> Vec<u64> {
    let mut out: Vec<u64> = vec![
        0,
        1,
        2,
        0x000F_FFFF_FFFF_FFFF,
        0x0010_0000_0000_0000,
        0x0010_0000_0000_0001,
        0x3E11_2E0B_E826_D695, // 1e-9, the least pivot
        0x7FEF_FFFF_FFFF_FFFF,
        0x7FF0_0000_0000_0000,
    ];
    // Around every border of binary32: the value, half way to the next, a
    // quarter, and the neighbours of each in binary64.
    for p in edges32() {
        let x = f32::from_bits(p);
        if !x.is_finite() || x < 0.0 {
            continue;
        }
        let here = f64::from(x);
        let next = if p == 0x7F7F_FFFF {
            2f64.powi(128)
        } else {
            f64::from(f32::from_bits(p + 1))
        };
        let half = here + (next - here) / 2.0;
        out.push(here.to_bits());
        out.extend([half.to_bits() - 1, half.to_bits(), half.to_bits() + 1]);
    }
    // Halves below the least subnormal of binary32.
    let least = 2f64.powi(-149);
    for x in [
        least / 4.0,
        least / 2.0,
        least * 0.75,
        least * 1.5,
        least * 2.5,
    ] {
        out.extend([x.to_bits() - 1, x.to_bits(), x.to_bits() + 1]);
    }
    out.extend([2f64.powi(128).to_bits(), 2f64.powi(1023).to_bits()]);
    out.sort_unstable();
    out.dedup();
    let mut all: Vec<u64> = out.iter().flat_map(|&p| [p, p | (1 << 63)]).collect();
    all.push(NAN64);
    all
}

fn seeded64(random: &mut Random, i: usize) -> u64 {
    let p = match i % 3 {
        0 => random.word64(),
        // Exponents that binary32 has, subnormals with them.
        1 => {
            let e = random.between(1023 - 151, 1023 + 129) as u64;
            (e << 52) | (random.word64() & 0x800F_FFFF_FFFF_FFFF)
        }
        // Few digits below the place where binary32 ends: ties are common.
        _ => {
            let e = random.between(1023 - 151, 1023 + 128) as u64;
            let m = (random.word64() & 0xF_FFFF_FFFF_FFFF) >> 27 << 27;
            (e << 52) | m | (random.word64() & (1 << 63))
        }
    };
    if f64::from_bits(p).is_nan() {
        NAN64
    } else {
        p
    }
}

pub fn floats64(seed: u64) -> List {
    let mut list = List::new("floats64");
    let mut random = Random::of(seed, "floats64");
    let mut patterns = edges64();
    list.tally_many("at a border", patterns.len());
    patterns.extend((0..SEEDED).map(|i| seeded64(&mut random, i)));
    for p in patterns {
        let x = f64::from_bits(p);
        let narrow = x as f32;
        let mut case = Case::new();
        case.long(p)
            .float(narrow)
            .double(x.abs())
            .flag(x.is_finite());
        list.push(&case);
        list.tally(match narrow.classify() {
            std::num::FpCategory::Nan => "narrows to NaN",
            std::num::FpCategory::Infinite => "narrows to an infinity",
            std::num::FpCategory::Zero => "narrows to a zero",
            std::num::FpCategory::Subnormal => "narrows to a subnormal",
            std::num::FpCategory::Normal => "narrows to a normal number",
        });
        if f64::from(narrow) == x {
            list.tally("exact");
        }
    }
    list
}

pub fn order64(seed: u64) -> List {
    let mut list = List::new("order64");
    let mut random = Random::of(seed, "order64");
    let marks: Vec<u64> = [
        0,
        1,
        0x000F_FFFF_FFFF_FFFF,
        0x0010_0000_0000_0000,
        0x3E11_2E0B_E826_D695,
        0x3FF0_0000_0000_0000,
        0x3FF0_0000_0000_0001,
        0x4008_0000_0000_0000,
        0x7FEF_FFFF_FFFF_FFFF,
        0x7FF0_0000_0000_0000,
    ]
    .iter()
    .flat_map(|&p: &u64| [p, p | (1 << 63)])
    .chain([NAN64])
    .collect();
    let mut pairs: Vec<(u64, u64)> = Vec::new();
    for &a in &marks {
        for &b in &marks {
            pairs.push((a, b));
        }
    }
    for i in 0..1_500 {
        let a = seeded64(&mut random, i);
        let b = match i % 4 {
            0 => seeded64(&mut random, i),
            1 => a ^ (1 << 63),
            2 => a.wrapping_add(1),
            _ => a.wrapping_sub(1) ^ (1 << 63),
        };
        let b = if f64::from_bits(b).is_nan() { NAN64 } else { b };
        pairs.push((a, b));
    }
    for (a, b) in pairs {
        let order = f64::from_bits(a).abs().total_cmp(&f64::from_bits(b).abs());
        let number = match order {
            std::cmp::Ordering::Less => 0,
            std::cmp::Ordering::Equal => 1,
            std::cmp::Ordering::Greater => 2,
        };
        let mut case = Case::new();
        case.long(a).long(b).word(number);
        list.push(&case);
        list.tally(["less", "equal", "greater"][number as usize]);
        if f64::from_bits(a).is_nan() || f64::from_bits(b).is_nan() {
            list.tally("with a NaN");
        }
    }
    list
}
