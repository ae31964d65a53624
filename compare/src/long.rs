//! The long run: every exported call until it has had its share of random cases.
//! What the ordinary run leaves too few of is filled up with cheap ones: small
//! images, short lists.

use crate::picture::{by_bytes, by_words};
use crate::{
    board, coverage, deep_graymap, fallback, gradient, graymap, list, merge, number, operator,
    peaks, response, salvage,
};
use crate::{Kept, Tallies};
use oracle::random::Random;

/// Tries one more case of a call; `false` where it differs.
type More = fn(&mut Tallies, &mut Random, &mut Kept) -> bool;

/// An exported call, how many shares of cases it must have, and one more case of it.
type Call = (&'static str, u64, More);

/// Shares of single seeds, bytes and words together.
const BYTE_SEEDS: u64 = 7;
const WORD_SEEDS: u64 = 3;

/// Every exported call, in the order of the header.
const CALLS: [Call; 26] = [
    ("chess_corners_response", 1, |t, r, kept| {
        t.responses
            .tried(&by_bytes(&response::any(r, &mut kept.rings)))
    }),
    ("chess_corners_response_u16", 1, |t, r, kept| {
        let call = response::any(r, &mut kept.rings);
        t.responses.tried(&by_words(r, &call))
    }),
    ("chess_corners_fit_operator", 1, |t, r, _| {
        t.operators.tried(&operator::any(r))
    }),
    ("chess_corners_refine", 1, |t, r, kept| {
        t.seeds.tried(&by_bytes(&kept.scenes.both(r)))
    }),
    ("chess_corners_refine_u16", 1, |t, r, kept| {
        let call = kept.scenes.both(r);
        t.seeds.tried(&by_words(r, &call))
    }),
    ("chess_corners_refine_with", BYTE_SEEDS, |t, r, kept| {
        t.seeds.tried(&by_bytes(&kept.scenes.any(r)))
    }),
    ("chess_corners_refine_with_u16", WORD_SEEDS, |t, r, kept| {
        let call = kept.scenes.any(r);
        t.seeds.tried(&by_words(r, &call))
    }),
    ("chess_corners_refine_list", 1, |t, r, _| {
        t.lists.tried(&by_bytes(&list::brief(r)))
    }),
    ("chess_corners_refine_list_u16", 1, |t, r, _| {
        let call = list::brief(r);
        t.lists.tried(&by_words(r, &call))
    }),
    ("chess_corners_refine_list_fallback", 1, FALLBACK),
    ("chess_corners_refine_list_fallback_u16", 1, FALLBACK_U16),
    ("chess_corners_refine_list_fallback_with", 1, FALLBACK),
    (
        "chess_corners_refine_list_fallback_with_u16",
        1,
        FALLBACK_U16,
    ),
    ("chess_corners_peaks", 1, |t, r, _| {
        t.peaks.tried(&peaks::any(r))
    }),
    ("chess_corners_merge_heads", 1, MERGE),
    ("chess_corners_merge", 1, MERGE),
    ("chess_corners_tie", 1, |t, r, _| {
        t.boards.tried(&board::any(r))
    }),
    ("chess_corners_graymap", 1, |t, r, _| {
        t.graymaps.tried(&graymap::any(r))
    }),
    ("chess_corners_graymap_u16", 1, |t, r, _| {
        t.deep_graymaps.tried(&deep_graymap::any(r))
    }),
    ("chess_corners_salvage", 1, |t, r, _| {
        t.salvages.tried(&salvage::any(r))
    }),
    ("chess_corners_coverage", 1, COVERAGE),
    ("chess_corners_coverage_add", 1, COVERAGE),
    ("chess_corners_coverage_replace", 1, COVERAGE),
    ("chess_corners_coverage_drop", 1, COVERAGE),
    ("chess_corners_gradient", 1, |t, r, _| {
        t.gradients.tried(&gradient::any(r))
    }),
    ("chess_corners_old_number", 1, |t, r, _| {
        t.numbers.tried(&number::any(r))
    }),
];

// A case makes several of these calls.
const FALLBACK: More = |t, r, _| t.fallbacks.tried(&by_bytes(&fallback::brief(r)));
const FALLBACK_U16: More = |t, r, _| {
    let call = fallback::brief(r);
    t.fallbacks.tried(&by_words(r, &call))
};
const MERGE: More = |t, r, _| t.merges.tried(&merge::any(r));
const COVERAGE: More = |t, r, _| t.covers.tried(&coverage::brief(r));

/// The calls that the header declares: the words before a bracket.
fn declared() -> impl Iterator<Item = &'static str> {
    const HEADER: &str = include_str!("../../include/chess_corners.h");
    HEADER
        .split('(')
        .filter_map(|text| text.split_whitespace().last())
        .filter(|word| word.starts_with("chess_corners_"))
}

/// Every call of the header has its share.
pub fn complete() -> Result<(), String> {
    for name in declared() {
        if !CALLS.iter().any(|(call, ..)| *call == name) {
            return Err(format!("{name} has no share of a long run"));
        }
    }
    Ok(())
}

/// Fills up each call to its shares; `false` where a case differs.
pub fn filled(tallies: &mut Tallies, random: &mut Random, kept: &mut Kept, share: u64) -> bool {
    CALLS.iter().all(|(name, shares, more)| {
        while tallies.count(name).random() < shares * share {
            if !more(tallies, random, kept) {
                return false;
            }
        }
        true
    })
}

/// What was tried of each exported call, as a table.
pub fn told(tallies: &mut Tallies) {
    println!("\n| exported call | cases | of them random | differ |\n|---|---|---|---|");
    for (name, ..) in CALLS {
        let count = tallies.count(name);
        let (cases, random, differ) = (count.cases, count.random(), count.differ);
        println!("| `{name}` | {cases} | {random} | {differ} |");
    }
}
