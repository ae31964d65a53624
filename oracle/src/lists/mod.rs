//! One module a list, and the table of all.

use crate::calls::{self, same_floats, same_triples, triples, Decision};
use crate::padding;
use crate::random::Random;
use crate::types::*;
use crate::words::{bits32, Case, List};

pub mod board;
pub mod coverage;
pub mod fallback;
pub mod floats;
pub mod gradient;
pub mod graymap;
pub mod lent;
pub mod merge;
pub mod merge_print;
pub mod operator;
pub mod peaks;
pub mod pieces;
pub mod refine;
pub mod refine_list;
pub mod response;
pub mod salvage;
pub mod solve;

/// A list's name and its writer.
pub type Writer = (&'static str, fn(u64) -> List);

/// Every list, in the order in which they are written.
pub const ALL: &[Writer] = &[
    ("floats32", floats::floats32),
    ("ints32", floats::ints32),
    ("floats64", floats::floats64),
    ("order64", floats::order64),
    ("response", response::list),
    ("refine", refine::list),
    ("lent", lent::list),
    ("refine_list", refine_list::list),
    ("fallback", fallback::list),
    ("merge", merge::list),
    ("merge_print", merge_print::list),
    ("peaks", peaks::list),
    ("solve", solve::list),
    ("operator", operator::list),
    ("gradient", gradient::list),
    ("board", board::list),
    ("graymap", graymap::list),
    ("salvage", salvage::list),
    ("coverage", coverage::list),
    ("fit", pieces::fit),
    ("window", pieces::window),
    ("blend", pieces::blend),
    ("newton", pieces::newton),
    ("sensitivity", pieces::sensitivity),
    ("covariance", pieces::covariance),
];

/// Most words of a list; with padding a quarter more.
pub const ENOUGH: usize = 120_000;

/// The numbers of document 01 that each list must reach.
const REACHED: &[(&str, &[u32])] = &[
    ("response", &[0, 10, 11, 13, 14, 15]),
    ("refine", &[0, 1, 2, 3, 4, 5, 6, 7, 10, 11, 12]),
    ("lent", &[0, 1, 2, 3, 4, 5, 6, 7]),
    ("refine_list", &[0, 10, 11, 12, 15, 16, 19]),
    ("fallback", &[0, 10, 11, 12, 15, 16, 19]),
    ("merge", &[0, 16, 17, 18, 19]),
    ("merge_print", &[0, 16, 17, 19]),
    ("peaks", &[0, 10, 11, 12, 16, 19]),
    ("gradient", &[0, 10, 13, 15]),
    ("board", &[0, 30, 31, 32, 33, 34]),
    ("graymap", &[0, 20, 21, 22, 23, 24, 25]),
    ("salvage", &[0, 10, 15, 16]),
    ("coverage", &[0, 10, 16, 35]),
];

/// The lists that have an image in each case.
const PADDED: &[&str] = &["response", "refine", "refine_list", "fallback"];

/// What a list must reach and does not.
pub fn missing(list: &List) -> Vec<String> {
    let mut wanted: Vec<String> = Vec::new();
    for (name, numbers) in REACHED {
        if *name == list.name {
            wanted.extend(numbers.iter().map(|n| number_name(*n).to_string()));
        }
    }
    match list.name {
        "peaks" => wanted.extend(
            [
                "the Rust gave the answer",
                "document 01 decided: the Rust answers otherwise",
            ]
            .map(String::from),
        ),
        "merge" => wanted.extend(
            [
                "way 1, empty list",
                "way 2, radius that needs no merging",
                "way 3, plain scan",
                "way 4, grid",
            ]
            .map(String::from),
        ),
        "refine" => wanted.extend(
            [
                "accepted, not converged",
                "below the tolerance, not converged",
                "converged, with covariance",
                "run of 16 steps",
                "tries 64",
                "run with a Newton step",
                "run with more fits than the cache holds",
            ]
            .map(String::from),
        ),
        "lent" => wanted.extend(
            [
                "accepted, not converged",
                "converged, with covariance",
                "converged, covariance asked for and not finite",
                "run with a base that leaves 32 bits",
            ]
            .map(String::from),
        ),
        "solve" => wanted
            .extend(["fitted", "5 AboveMargin", "6 TooSmall", "7 NotFinite"].map(String::from)),
        "board" => wanted.extend(board::MET.map(String::from)),
        "graymap" => wanted.extend(graymap::MET.map(String::from)),
        "salvage" => wanted.extend(salvage::MET.map(String::from)),
        "coverage" => wanted.extend(coverage::MET.map(String::from)),
        _ => {}
    }
    wanted.retain(|what| list.counted(what) == 0);
    if PADDED.contains(&list.name) {
        wanted.extend(missing_pitches(list));
    }
    wanted
}

/// The same of pitches: every kind, and none in at least half of the cases.
fn missing_pitches(list: &List) -> Vec<String> {
    let kinds = padding::KINDS.into_iter();
    let mut missing: Vec<String> = kinds
        .filter(|kind| list.counted(kind) == 0)
        .map(String::from)
        .collect();
    if 2 * list.counted(padding::KINDS[0]) < list.cases() {
        missing.push("half of the cases without padding".into());
    }
    missing
}

// --- fields that several lists have ----------------------------------------

fn put_image(case: &mut Case, image: &Image) {
    case.long(image.width)
        .long(image.height)
        .long(image.pitch)
        .count(image.bytes.len())
        .bytes(&image.bytes);
}

fn put_settings(case: &mut Case, s: &Settings) {
    case.int(s.radius)
        .float(s.det_margin)
        .float(s.max_offset)
        .float(s.min_abs_det);
}

fn put_decision(case: &mut Case, d: Decision) {
    let [by, why] = d.decided.words();
    case.word(d.number).word(by).word(why);
}

fn put_triples(case: &mut Case, list: &[Triple]) {
    case.count(list.len());
    for c in list {
        case.floats(c);
    }
}

/// Floats of which the last ones are +0.0: all of their number, how many
/// are written, and these.
fn put_padded(case: &mut Case, floats: &[f32]) {
    let given = floats
        .iter()
        .rposition(|x| x.to_bits() != 0)
        .map_or(0, |last| last + 1);
    case.count(floats.len())
        .count(given)
        .floats(&floats[..given]);
}

fn put_ring(case: &mut Case, ring: &Ring) {
    for &(dx, dy) in ring {
        case.int(dx).int(dy);
    }
}

/// The name of a number, for the counts.
fn number_name(number: u32) -> &'static str {
    match number {
        0 => "0 Accepted",
        1 => "1 Rejected",
        2 => "2 OutOfBounds",
        3 => "3 IllConditioned",
        4 => "4 BadSeed",
        5 => "5 AboveMargin",
        6 => "6 TooSmall",
        7 => "7 NotFinite",
        10 => "10 BadImage",
        11 => "11 BadRadius",
        12 => "12 BadLimit",
        13 => "13 BadRing",
        14 => "14 EmptyRoi",
        15 => "15 BadOut",
        16 => "16 TooMany",
        17 => "17 GridTooBig",
        18 => "18 BadScratch",
        19 => "19 BadLength",
        20 => "20 NoMagic",
        21 => "21 BadHeader",
        22 => "22 BadGraymapSize",
        23 => "23 TooShort",
        24 => "24 AboveMaximum",
        25 => "25 LeftOver",
        30 => "30 BadBoard",
        31 => "31 BadPlaces",
        32 => "32 BadList",
        33 => "33 NoCorner",
        34 => "34 UsedTwice",
        35 => "35 NoSuchCorner",
        _ => "a number that document 01 does not have",
    }
}

/// Seeds and corners about places where the rules change.
pub fn odd_float(random: &mut Random) -> f32 {
    random.pick(&[
        f32::NAN,
        f32::INFINITY,
        f32::NEG_INFINITY,
        3e9,
        -3e9,
        2_147_483_520.0,
        2_147_483_648.0,
        -2_147_483_648.0,
        -2_147_483_904.0,
        0.0,
        -0.0,
        -0.5,
        0.499_999_97,
        -0.499_999_97,
        1e30,
        -1e30,
        f32::MAX,
        f32::MIN,
        1e-40,
        8_388_609.0,
    ])
}

/// A place about the middle of something of that size, now and then odd.
pub fn place(random: &mut Random, size: u64) -> f32 {
    let middle = (size - 1) as f32 / 2.0;
    match random.below(64) {
        0 => odd_float(random),
        1..=2 => random.between(-2, size as i64 + 1) as f32,
        3..=4 => random.between(-2, size as i64 + 1) as f32 + 0.5,
        5..=8 => (random.unit() * 1.2 - 0.1) * size as f32,
        9..=20 => middle.floor() + random.between(-2, 2) as f32,
        _ => middle + (random.unit() - 0.5) * 3.0,
    }
}

/// Settings that no number refuses, the Rust's own half of the time.
pub fn good_settings(random: &mut Random) -> Settings {
    let plain = Settings::default();
    if random.once_in(2) {
        return Settings {
            radius: random.pick(&[1, 2, 2, 2, 3, 4, 5, 6, 7]),
            ..plain
        };
    }
    Settings {
        radius: random.pick(&[0, 1, 1, 2, 2, 2, 3, 3, 4, 5, 6, 7]),
        det_margin: random.pick(&[0.0, -0.0, 1e-3, 1e-3, 0.5, 4.0, 100.0, 1e30]),
        max_offset: random.pick(&[0.0, 0.25, 0.5, 1.0, 1.5, 1.5, 2.5, 7.5, 8.0, 1e30]),
        min_abs_det: random.pick(&[0.0, -0.0, 1e-4, 1e-4, 1e-45, 1.0, 50.0]),
    }
}
