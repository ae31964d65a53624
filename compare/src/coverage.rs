//! The four calls of coverage against the rules, in rows on one list; the Rust
//! has no such calls.

use crate::port::{self, ROOM};
use crate::trial::{self, bits, flip, parts, Lent, Met, Tally, Trial, PAINT_F, PAINT_U16};
use oracle::lists::coverage::{self as known, Row};
use oracle::random::Random;
use oracle::types::{Asked, Triple};
use oracle::{calls, rules};
use std::collections::BTreeSet;
use std::fmt::{self, Display, Formatter};

#[derive(Clone)]
pub struct Coverage(Row);

/// What one call of a row leaves: the list and the counts are those that the
/// next one is lent.
#[derive(Clone)]
pub struct Step {
    number: u32,
    count: usize,
    list: Lent<f32>,
    counts: Lent<u16>,
}

fn class_of(number: u32) -> &'static str {
    match number {
        0 => "0",
        10 => "10",
        16 => "16",
        _ => "35",
    }
}

impl Display for Coverage {
    fn fmt(&self, f: &mut Formatter<'_>) -> fmt::Result {
        let row = &self.0;
        let [width, height] = row.size;
        writeln!(f, "  {width} by {height}, {} corners", row.held.count)?;
        for [x, y, _] in row.held.list.iter().take(row.held.count.min(20) as usize) {
            writeln!(f, "  at {} {}", bits(*x), bits(*y))?;
        }
        let counts = row.held.counts.iter().enumerate();
        let some: Vec<_> = counts.filter(|(_, n)| **n != 0).collect();
        writeln!(f, "  counts by tile {some:?}, else 0")?;
        for asked in &row.calls {
            writeln!(f, "  {asked:?}")?;
        }
        Ok(())
    }
}

/// A list is the expected one to the bit, and the paint around it is there.
fn list_held(step: &Step, want: &[Triple]) -> Result<(), String> {
    let same = |a: &f32, b: &f32| a.to_bits() == b.to_bits();
    if let Some(k) = parts(step.list.inside(), want.as_flattened(), same) {
        let [got, want] = [step.list.inside()[k], want[k / 3][k % 3]].map(bits);
        return Err(format!("float {k} of the list {got}, expected {want}"));
    }
    step.list.outside_kept("the list")
}

impl Trial for Coverage {
    const NAME: &'static str = "coverage";
    const CLASSES: &'static [&'static str] = &[
        "0",
        "10",
        "16",
        "35",
        "a row that began with the summary",
        "a row of 20 calls",
    ];
    const SHARED: &'static [&'static str] = &known::MET;
    const PARTS: &'static str = "calls";
    type Left = Vec<Step>;

    fn exported(&self, name: &mut dyn FnMut(&'static str)) {
        for asked in &self.0.calls {
            name(match asked {
                Asked::Afresh => "chess_corners_coverage",
                Asked::Add(_) => "chess_corners_coverage_add",
                Asked::Replace(..) => "chess_corners_coverage_replace",
                Asked::Drop(_) => "chess_corners_coverage_drop",
            });
        }
    }

    fn by_port(&self) -> Vec<Step> {
        let row = &self.0;
        let mut step = Step {
            number: 0,
            count: row.held.count as usize,
            list: Lent::holding(row.held.list.as_flattened(), PAINT_F),
            counts: Lent::holding(&row.held.counts, PAINT_U16),
        };
        let one = |asked: &Asked| {
            let Step {
                number,
                count,
                list,
                counts,
            } = &mut step;
            *number = port::cover(
                row.size,
                *asked,
                list.array::<ROOM>(),
                count,
                counts.array::<65>(),
            );
            step.clone()
        };
        row.calls.iter().map(one).collect()
    }

    fn judged(&self, left: &Vec<Step>) -> Result<Met, String> {
        let row = &self.0;
        let mut held = row.held.clone();
        let mut met = BTreeSet::new();
        let corners = |count: u64| count.min(rules::MOST as u64) as usize;
        let summed = |held: &oracle::types::Covered| {
            let list = &held.list[..corners(held.count)];
            held.counts == rules::summary(row.size, list)
        };
        let sized = row.size.iter().all(|side| (1..=4096).contains(side));
        let began = sized && row.held.count <= rules::MOST as u64 && summed(&held);
        for (step, asked) in left.iter().zip(&row.calls) {
            met.extend(known::met(row.size, &held, *asked));
            let decision = calls::cover(row.size, &mut held, *asked);
            met.insert(class_of(decision.number));
            trial::held("number", step.number, decision.number)?;
            trial::held("count", step.count as u64, held.count)?;
            trial::held("counts", step.counts.inside(), &held.counts[..])?;
            step.counts.outside_kept("the counts")?;
            list_held(step, &held.list)?;
        }
        // What is claimed of the calls: the summary stays one.
        if began {
            met.insert("a row that began with the summary");
            trial::held("the counts are the summary:", summed(&held), true)?;
            let sum: u64 = held.counts.iter().map(|n| u64::from(*n)).sum();
            trial::held("the sum of the counts", sum, held.count)?;
        }
        if row.calls.len() >= 20 {
            met.insert("a row of 20 calls");
        }
        let mut met = met.into_iter();
        let first = met.next().unwrap_or("0");
        Ok(met
            .fold(Met::of(first), Met::and)
            .with_parts(row.calls.len() as u64))
    }

    fn size(&self) -> u64 {
        let row = &self.0;
        let counts = row.held.counts.iter().filter(|n| **n != 0).count() as u64;
        100 * row.calls.len() as u64 + 10 * row.held.count.min(5000) + counts
    }

    fn simpler(&self) -> Vec<Self> {
        let row = &self.0;
        let mut out = Vec::new();
        for gone in trial::fewer(row.calls.len()) {
            let mut less = row.clone();
            less.calls.drain(gone);
            out.push(Coverage(less));
        }
        let count = row.held.count as usize;
        if count <= rules::MOST {
            for gone in trial::fewer(count).into_iter().take(200) {
                let mut less = row.clone();
                less.held.count -= gone.len() as u64;
                less.held.list.drain(gone);
                less.held.list.resize(rules::MOST, [0.0; 3]);
                out.push(Coverage(less));
            }
        }
        let mut none = row.clone();
        none.held.counts = [0; 65];
        out.push(Coverage(none));
        out
    }
}

/// Every border coordinate of some sizes against every other, added to an empty
/// list, and as the one corner replaced and dropped.
pub fn short(tally: &mut Tally) -> bool {
    let before = tally.cases;
    let sizes = [[1, 1], [3, 2], [8, 7], [9, 17], [640, 480], [4095, 4096]];
    let went = sizes.into_iter().all(|size| {
        let [xs, ys] = size.map(known::telling);
        xs.iter().all(|x| {
            let corner = |y: f32| [*x, y, 1.0];
            let calls = |y: f32| {
                let other = [y, *x, -1.0];
                [
                    Asked::Add(corner(y)),
                    Asked::Replace(0, other),
                    Asked::Replace(0, corner(y)),
                    Asked::Afresh,
                    Asked::Drop(0),
                    Asked::Drop(0),
                ]
            };
            ys.iter()
                .all(|y| tally.tried(&Coverage(Row::of(size, &[], &calls(*y)))))
        })
    });
    tally.exhaustive = tally.cases - before;
    went
}

/// Every kind of call at sizes, counts and numbers of which one or more refuse
/// it, with counts that are the summary, none, and full.
pub fn refused(tally: &mut Tally) -> bool {
    let corner = [3.0, 3.0, f32::NAN];
    let sizes = [[640, 480], [0, 480], [640, 4097], [1 << 32, 1]];
    let counts = [0, 1, 2, 4095, 4096, 4097, (1 << 32) + 1, u64::MAX];
    let numbers = [0, 1, 2, 4095, 4096, 4097, 1 << 32, u64::MAX];
    sizes.into_iter().all(|size| {
        counts.into_iter().all(|count| {
            numbers.into_iter().all(|number| {
                let calls = [
                    Asked::Replace(number, corner),
                    Asked::Drop(number),
                    Asked::Add(corner),
                    Asked::Afresh,
                ];
                let row = Row::on(true, size, &[corner], count, &calls);
                let with = |counts: [u16; 65]| {
                    let mut other = row.clone();
                    other.held.counts = counts;
                    Coverage(other)
                };
                tally.tried(&with([0; 65]))
                    && tally.tried(&with([u16::MAX; 65]))
                    && tally.tried(&Coverage(row.clone()))
            })
        })
    })
}

/// Full lists of corners: filled to the last place, refused, emptied from the
/// front, from the end and between.
pub fn longest(tally: &mut Tally, random: &mut Random) -> bool {
    let size = [640, 480];
    [4094, 4095, 4096].into_iter().all(|count| {
        let given: Vec<Triple> = (0..count)
            .map(|_| known::any_corner(random, size))
            .collect();
        let last = count as u64 - 1;
        let corner = known::any_corner(random, size);
        let calls = [
            vec![Asked::Add(corner); 3],
            vec![Asked::Drop(0); 3],
            vec![Asked::Drop(last); 3],
            vec![Asked::Drop(7), Asked::Add(corner), Asked::Add(corner)],
            vec![Asked::Replace(last, corner), Asked::Afresh],
            (0..40)
                .map(|_| known::any_call(random, size, 4096))
                .collect(),
        ];
        calls
            .into_iter()
            .all(|calls| tally.tried(&Coverage(Row::of(size, &given, &calls))))
    })
}

/// A number of a record as any bits, most often a NaN with a payload of its own: what is
/// copied must keep it.
fn any_bits(random: &mut Random, record: &mut Triple) {
    let high = random.pick(&[0, 0x7F80_0000, 0xFF80_0000]);
    record[random.below(3)] = f32::from_bits(random.word() >> 9 | high);
}

/// A row of calls about the borders of the rules.
pub fn any(random: &mut Random) -> Coverage {
    let (corners, calls) = match random.below(40) {
        0 => (4096, 8),
        1..=4 => (300, 20),
        _ => (9, 1 + random.below(8)),
    };
    let row = known::any(random, corners, calls);
    with_any_bits(random, row)
}

/// A row of a few calls, each kind as often as another.
pub fn brief(random: &mut Random) -> Coverage {
    let row = known::any_of(random, 9, 8, known::even_call);
    with_any_bits(random, row)
}

/// Now and then some numbers as any bits.
fn with_any_bits(random: &mut Random, mut row: Row) -> Coverage {
    if random.once_in(4) {
        for _ in 0..4 {
            let record = random.below(12);
            any_bits(random, &mut row.held.list[record]);
        }
        for asked in &mut row.calls {
            if let Asked::Add(corner) | Asked::Replace(_, corner) = asked {
                any_bits(random, corner);
            }
        }
    }
    Coverage(row)
}

/// The driver notices each fault of an answer.
pub fn faults_noticed() -> Result<(), String> {
    let given = [[5.0, 7.0, 1.0], [f32::NAN, 1.0, 1.0], [630.0, 470.0, 1.0]];
    let new = [300.0, 200.0, 1.0];
    let row = |size, calls: &[Asked]| Coverage(Row::of(size, &given, calls));
    let size = [640, 480];
    let calls = [Asked::Add(new), Asked::Replace(1, new), Asked::Drop(0)];
    let refused = [Asked::Drop(3), Asked::Replace(u64::MAX, new)];
    trial::faults_noticed(
        &[
            row(size, &calls),
            row(size, &[Asked::Afresh, Asked::Add(new)]),
            row(size, &refused),
            row([0, 480], &calls),
        ],
        &[
            ("number", |l| l[0].number ^= 1),
            ("the second number", |l| l[1].number ^= 1),
            ("count", |l| l[0].count ^= 1),
            ("the second count", |l| l[1].count ^= 1),
            ("a count of a tile", |l| l[0].counts.part()[0] ^= 1),
            ("the count of none", |l| l[1].counts.part()[64] ^= 1),
            ("behind the counts", |l| l[1].counts.spoil()[69] ^= 1),
            ("the list's first float", |l| flip(&mut l[0].list.part()[0])),
            ("a strength", |l| flip(&mut l[1].list.part()[8])),
            ("a float past the list", |l| flip(&mut l[1].list.part()[15])),
            ("the list's last float", |l| {
                flip(&mut l[0].list.part()[ROOM - 1])
            }),
            ("before the list", |l| flip(&mut l[1].list.spoil()[3])),
        ],
    )?;
    trial::other_noticed(
        "width and height exchanged",
        &row(size, &calls),
        &row([480, 640], &calls),
    )?;
    trial::other_noticed(
        "the first dropped in place of the last",
        &row(size, &[Asked::Drop(2)]),
        &row(size, &[Asked::Drop(0)]),
    )
}
