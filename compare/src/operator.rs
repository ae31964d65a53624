//! `chess_corners_fit_operator` against `fit_operator`.

use crate::port;
use crate::trial::{self, alike, bits, parts, Lent, Met, Tally, Trial, PAINT_F};
use oracle::random::Random;
use oracle::{calls, rules};
use std::fmt::{self, Display, Formatter};

#[derive(Clone)]
pub struct Operator {
    pub radius: usize,
}

/// All that the call leaves.
#[derive(Clone)]
pub struct Left {
    number: u32,
    columns: Lent<f32>,
    overlap: Lent<f32>,
}

/// What is expected of a radius.
struct Expected {
    number: u32,
    class: &'static str,
    columns: Vec<f32>,
    overlap: Vec<f32>,
}

impl Expected {
    /// Of a radius up to 7, by the Rust; of 8, as of all above it.
    fn of(radius: usize) -> Self {
        let mut columns = vec![PAINT_F; port::COLUMNS];
        let mut overlap = vec![PAINT_F; port::OVERLAP];
        let made = (radius <= 7).then(|| calls::operator(radius as i32));
        let (number, class) = match made {
            None => (rules::BAD_RADIUS, "11"),
            Some(None) => (3, "3"),
            Some(Some(op)) => {
                columns[..5 * op.columns.len()].copy_from_slice(&op.columns.concat());
                overlap = op.overlap.concat().concat();
                (0, "0")
            }
        };
        Expected {
            number,
            class,
            columns,
            overlap,
        }
    }
}

thread_local! {
    /// The Rust works each operator out once.
    static EXPECTED: [Expected; 9] = core::array::from_fn(Expected::of);
}

impl Display for Operator {
    fn fmt(&self, f: &mut Formatter<'_>) -> fmt::Result {
        writeln!(f, "  radius {}", self.radius)
    }
}

impl Trial for Operator {
    const NAME: &'static str = "operator";
    const CLASSES: &'static [&'static str] = &["0", "3", "11"];
    type Left = Left;

    fn exported(&self, name: &mut dyn FnMut(&'static str)) {
        name("chess_corners_fit_operator");
    }

    fn by_port(&self) -> Left {
        let mut columns = Lent::painted(port::COLUMNS, PAINT_F);
        let mut overlap = Lent::painted(port::OVERLAP, PAINT_F);
        let number = port::fit_operator(self.radius, columns.array(), overlap.array());
        Left {
            number,
            columns,
            overlap,
        }
    }

    fn judged(&self, left: &Left) -> Result<Met, String> {
        EXPECTED.with(|all| {
            let expected = &all[self.radius.min(8)];
            trial::held("number", left.number, expected.number)?;
            for (name, lent, want) in [
                ("columns", &left.columns, &expected.columns),
                ("overlap", &left.overlap, &expected.overlap),
            ] {
                if let Some(k) = parts(lent.inside(), want, |a, b| alike(*a, *b)) {
                    let (got, want) = (bits(lent.inside()[k]), bits(want[k]));
                    return Err(format!("element {k} of {name} is {got}, expected {want}"));
                }
                lent.outside_kept(name)?;
            }
            Ok(Met::of(expected.class))
        })
    }

    fn size(&self) -> u64 {
        self.radius as u64
    }

    fn simpler(&self) -> Vec<Self> {
        let less = |radius| Operator { radius };
        vec![less(self.radius / 2), less(self.radius.saturating_sub(1))]
    }
}

/// Every radius up to 9, and some that are cut to a good one in 32 bits.
pub fn short(tally: &mut Tally) -> bool {
    let before = tally.cases;
    let far = [1 << 31, 1 << 32, (1 << 32) + 2, (1 << 63) + 7, usize::MAX];
    let all = (0..=9).chain(far);
    let went = all
        .into_iter()
        .all(|radius| tally.tried(&Operator { radius }));
    tally.exhaustive = tally.cases - before;
    went
}

/// Any radius, a far one, or one of which some bits are those of a good one.
pub fn any(random: &mut Random) -> Operator {
    let near = random.below(10);
    Operator {
        radius: match random.below(8) {
            0 => random.word64() as usize,
            1 => near | 1 << random.below(64),
            _ => near,
        },
    }
}

/// The driver notices each fault of an answer.
pub fn faults_noticed() -> Result<(), String> {
    trial::faults_noticed(
        &[0, 2, 7, 8].map(|radius| Operator { radius }),
        &[
            ("number", |l| l.number ^= 1),
            ("a column", |l| l.columns.part()[7] += 1.0),
            ("the last element", |l| l.columns.part()[1124] += 1.0),
            ("an overlap", |l| l.overlap.part()[224] += 1.0),
            ("outside the columns", |l| l.columns.spoil()[0] = 0.0),
            ("outside the overlap", |l| l.overlap.spoil()[0] = 0.0),
        ],
    )
}
