//! Times of the port and of the Rust, taken in turn on the same inputs. They
//! are the thread's time on the processor: on a busy computer the clock on the
//! wall would count the work of others, the more the longer a call takes.

#[cfg(feature = "anchors")]
mod anchors;
mod board;
mod calls;
mod coverage;
mod depth;
mod fallback;
mod gradient;
mod graymap;
mod growth;
mod hardest;
mod merge;
mod peaks;
mod pitch;
mod refine;
mod response;
mod salvage;
mod times;
mod worst;

use merge::of_rust;
use times::{in_turn, ratio, timed, Side};

/// A table by its name.
type Table = (&'static str, fn() -> bool);

const TABLES: &[Table] = &[
    ("response", response::table),
    ("peaks", peaks::table),
    ("merge", merge::table),
    ("refine", refine::tables),
    ("fallback", fallback::table),
    ("board", board::table),
    ("graymap", graymap::table),
    ("salvage", salvage::table),
    ("coverage", coverage::table),
    ("gradient", gradient::table),
    ("depth", depth::table),
    ("calls", calls::table),
    ("growth", growth::table),
    ("worst", worst::table),
    #[cfg(feature = "anchors")]
    ("anchors", anchors::table),
];

/// Prints the tables, or one of them by its name. `false` where the two sides
/// do not answer alike.
pub fn run(one: Option<&str>) -> bool {
    println!("Milliseconds on the processor: median (least, quartiles, greatest). Nanoseconds of one: median (least, greatest). Ratios: of the medians (of the least).");
    let mut same = true;
    for (name, table) in TABLES {
        if one.is_none_or(|one| one == *name) {
            println!();
            same &= table();
        }
    }
    if !same {
        println!("\nTHE TWO SIDES DO NOT ANSWER ALIKE");
    }
    same
}
