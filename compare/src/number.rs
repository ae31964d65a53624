//! `chess_corners_old_number` against document 01's table of the numbers.

use crate::port;
use crate::trial::{self, Met, Tally, Trial};
use oracle::random::Random;
use oracle::rules;
use std::fmt::{self, Display, Formatter};

#[derive(Clone)]
pub struct Number {
    number: u32,
}

impl Display for Number {
    fn fmt(&self, f: &mut Formatter<'_>) -> fmt::Result {
        writeln!(f, "  number {}", self.number)
    }
}

impl Trial for Number {
    const NAME: &'static str = "number";
    const CLASSES: &'static [&'static str] = &["3 for 5", "3 for 6", "3 for 7", "itself"];
    type Left = u32;

    fn exported(&self, name: &mut dyn FnMut(&'static str)) {
        name("chess_corners_old_number");
    }

    fn by_port(&self) -> u32 {
        port::old_number(self.number)
    }

    fn judged(&self, left: &u32) -> Result<Met, String> {
        trial::held("old number", *left, rules::old_number(self.number))?;
        Ok(Met::of(match self.number {
            rules::ABOVE_MARGIN => "3 for 5",
            rules::TOO_SMALL => "3 for 6",
            rules::NOT_FINITE => "3 for 7",
            _ => "itself",
        }))
    }

    fn size(&self) -> u64 {
        u64::from(self.number)
    }

    fn simpler(&self) -> Vec<Self> {
        let less = |number| Number { number };
        vec![less(self.number / 2), less(self.number.saturating_sub(1))]
    }
}

/// Every number that is given and those about them.
pub fn short(tally: &mut Tally) -> bool {
    let went = (0..=40).all(|number| tally.tried(&Number { number }));
    tally.exhaustive = tally.cases;
    went
}

/// Any number, or one of which some bits are those of a number that is given.
pub fn any(random: &mut Random) -> Number {
    let low = random.below(41) as u32;
    Number {
        number: match random.below(3) {
            0 => random.word(),
            1 => low | 1 << random.below(32),
            _ => low,
        },
    }
}

/// The driver notices another number.
pub fn faults_noticed() -> Result<(), String> {
    trial::faults_noticed(
        &[0, 3, 4, 5, 6, 7, 8, 34].map(|number| Number { number }),
        &[
            ("the number", |l| *l ^= 1),
            ("a high bit", |l| *l ^= 1 << 31),
        ],
    )
}
