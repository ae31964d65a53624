//! The readers' rows: images without a sample above the maximum. The Rust has no
//! such calls, so beside each stands a plain loop that tests every sample.

use super::times::{timed_all, Times};
use super::{in_turn, ratio};
use crate::port;
use oracle::random::Random;
use oracle::rules;
use std::hint::black_box;

/// Calls in one timing.
const AT_ONCE: usize = 16;

fn head([width, height]: [usize; 2], maximum: u16) -> Vec<u8> {
    format!("P5\n{width} {height}\n{maximum}\n").into_bytes()
}

/// A file of one byte a sample, or two where the maximum asks for them.
pub fn file(size: [usize; 2], maximum: u16) -> Vec<u8> {
    let mut random = Random::of(u64::from(maximum), "bench");
    let mut file = head(size, maximum);
    for _ in 0..size[0] * size[1] {
        let sample = random.below(usize::from(maximum) + 1) as u16;
        match maximum > 255 {
            true => file.extend(sample.to_be_bytes()),
            false => file.push(sample as u8),
        }
    }
    file
}

/// The first sample above the maximum, where there is one.
type Read = Result<[u64; 3], usize>;

/// The header by the rules, and then every sample.
pub fn in_a_loop(file: &[u8]) -> Option<Read> {
    let (numbers, pixels) = rules::header(rules::behind_magic(file)?)?;
    for (k, sample) in pixels.iter().enumerate() {
        if u64::from(*sample) > numbers[2] {
            return Some(Err(k));
        }
    }
    Some(Ok(numbers))
}

/// The same of samples of two bytes: first the test, since a refusal writes none.
pub fn deep_in_a_loop(file: &[u8], out: &mut [u16]) -> Option<Read> {
    let (numbers, pixels) = rules::header(rules::behind_magic(file)?)?;
    let words = || {
        pixels
            .chunks_exact(2)
            .map(|b| u16::from_be_bytes([b[0], b[1]]))
    };
    for (k, sample) in words().enumerate() {
        if u64::from(sample) > numbers[2] {
            return Some(Err(k));
        }
    }
    for (to, sample) in out.iter_mut().zip(words()) {
        *to = sample;
    }
    Some(Ok(numbers))
}

fn row(size: [usize; 2], maximum: u16) -> bool {
    let file = file(size, maximum);
    let mut given = port::Given::painted(0);
    let mut by_port = || timed_all(AT_ONCE, || port::graymap(black_box(&file), &mut given));
    let mut by_loop = || timed_all(AT_ONCE, || in_a_loop(black_box(&file)));
    let t = in_turn(&mut [&mut by_port, &mut by_loop], 201);
    told("graymap", size, maximum, &t);
    is_read(&given, &file, size, maximum, 1)
}

fn deep_row(size: [usize; 2], maximum: u16) -> bool {
    let file = file(size, maximum);
    let mut given = port::Given::painted(0);
    let [mut ours, mut theirs] = [vec![1u16; size[0] * size[1]], vec![2; size[0] * size[1]]];
    let mut by_port = || {
        timed_all(AT_ONCE, || {
            port::graymap_u16(black_box(&file), &mut ours, &mut given)
        })
    };
    let mut by_loop = || timed_all(AT_ONCE, || deep_in_a_loop(black_box(&file), &mut theirs));
    let t = in_turn(&mut [&mut by_port, &mut by_loop], 101);
    told("graymap_u16", size, maximum, &t);
    ours == theirs && is_read(&given, &file, size, maximum, 2)
}

fn told(name: &str, [width, height]: [usize; 2], maximum: u16, t: &[Times]) {
    println!(
        "| {name} {width} by {height}, maximum {maximum}, {AT_ONCE} calls | {} | {} | {} | {} | {} |",
        t[0].told(),
        t[1].told(),
        ratio(&t[0], &t[1]),
        t[0].each(AT_ONCE * width * height),
        t[1].each(AT_ONCE * width * height),
    );
}

fn is_read(given: &port::Given, file: &[u8], size: [usize; 2], maximum: u16, bytes: usize) -> bool {
    let want = [size[0], size[1], usize::from(maximum)];
    [given.width, given.height, given.maximum] == want
        && given.start + bytes * size[0] * size[1] == file.len()
}

pub fn table() -> bool {
    println!(
        "| call | ours | a plain loop in Rust | ours / loop | ours, ns a pixel | the loop's |"
    );
    println!("|---|---|---|---|---|---|");
    let mut same = true;
    for maximum in [254, 255] {
        same &= row([640, 480], maximum);
    }
    for maximum in [1023, 4095] {
        same &= deep_row([640, 480], maximum);
    }
    same
}
