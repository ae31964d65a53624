//! `chess_corners_tie` against document 01; the Rust has no such call.

use crate::port;
use crate::trial::{
    self, bits, flip, oddness, parts, Lent, Met, Tally, Trial, PAINT, PAINT_F, PAINT_U16, PLAIN,
};
use oracle::lists::board as known;
use oracle::random::Random;
use oracle::types::{self, Triple};
use oracle::{calls, rules};
use std::fmt::{self, Display, Formatter};

#[derive(Clone)]
pub struct Board {
    rows: u64,
    columns: u64,
    places: Vec<f32>,
    limit: f32,
    floats: Vec<f32>,
    answers: usize,
}

/// All that the call leaves.
#[derive(Clone)]
pub struct Left {
    number: u32,
    place: usize,
    answers: Lent<u16>,
    places: Lent<f32>,
    corners: Lent<f32>,
}

fn class_of(number: u32) -> &'static str {
    match number {
        0 => "0",
        rules::BAD_BOARD => "30",
        rules::BAD_PLACE => "31",
        rules::BAD_LIST => "32",
        rules::NO_CORNER => "33",
        _ => "34",
    }
}

impl Board {
    fn view(&self) -> types::Board<'_> {
        types::Board {
            rows: self.rows,
            columns: self.columns,
            places: &self.places,
            limit: self.limit,
        }
    }

    fn pairs(&self) -> Vec<[f32; 2]> {
        let pairs = self.places.chunks_exact(2);
        pairs.map(|p| [p[0], p[1]]).collect()
    }

    /// Which part of its rule refuses a board as a whole.
    fn refused_by(&self, number: u32) -> &'static str {
        let sides = [self.rows, self.columns];
        let limit = self.limit;
        match number {
            rules::BAD_BOARD if sides.iter().any(|s| !(2..=32).contains(s)) => "30, a side",
            rules::BAD_BOARD if self.answers as u64 == (sides[0] - 1) * (sides[1] - 1) => {
                "30, places"
            }
            rules::BAD_BOARD => "30, answers",
            rules::BAD_PLACE if !limit.is_finite() || limit < 0.0 => "31, limit",
            rules::BAD_PLACE => "31, place",
            _ if self.floats.len() % 3 != 0 => "32, length",
            _ if self.floats.len() / 3 == rules::MOST + 1 => "4,097 corners",
            _ => "32, many corners",
        }
    }

    /// What is met on a board whose places are looked at.
    fn looked_at(&self, met: Met) -> Met {
        let sized = match (self.rows, self.columns) {
            (2, 2) => Some("2 by 2"),
            (32, 32) => Some("32 by 32"),
            _ => None,
        };
        let counted = match self.floats.len() / 3 {
            0 => Some("no corner"),
            1 => Some("1 corner"),
            rules::MOST => Some("4,096 corners"),
            _ => None,
        };
        let zero = (self.limit.to_bits() == (-0.0f32).to_bits()).then_some("limit -0.0");
        let seen = known::met(&self.view(), &calls::triples(&self.floats));
        let more = [sized, counted, zero].into_iter().flatten();
        more.chain(seen).fold(met, Met::and)
    }

    /// Parts of the board, and boards with sides of the plainest kind.
    fn smaller(&self) -> Vec<Self> {
        let pairs = self.pairs();
        let inner = [self.columns, self.rows].map(|s| s.saturating_sub(1) as usize);
        let mut out = Vec::new();
        for part in trial::crops(&pairs, inner[0], inner[1]) {
            let gone = pairs.len() - part.values.len();
            out.push(Board {
                rows: part.height as u64 + 1,
                columns: part.width as u64 + 1,
                places: part.values.concat(),
                answers: self.answers.saturating_sub(gone),
                ..self.clone()
            });
        }
        out.push(Board {
            rows: self.rows.min(33),
            ..self.clone()
        });
        out.push(Board {
            columns: self.columns.min(33),
            ..self.clone()
        });
        out
    }
}

impl Display for Board {
    fn fmt(&self, f: &mut Formatter<'_>) -> fmt::Result {
        writeln!(
            f,
            "  {} rows, {} columns, {} floats of places, limit {}, {} floats of corners, {} answers",
            self.rows,
            self.columns,
            self.places.len(),
            bits(self.limit),
            self.floats.len(),
            self.answers
        )?;
        f.write_str(&trial::record_lines(&self.places, 2))?;
        f.write_str(&trial::record_lines(&self.floats, 3))
    }
}

impl Trial for Board {
    const NAME: &'static str = "board";
    const CLASSES: &'static [&'static str] = &[
        "0",
        "30",
        "31",
        "32",
        "33",
        "34",
        "30, a side",
        "30, places",
        "30, answers",
        "31, limit",
        "31, place",
        "32, length",
        "33, no distance is a number",
        "33, infinite",
        "33 before 34",
        "34 before 33",
        "tie",
        "NaN distance",
        "infinite distance",
        "at the limit",
        "a last bit beyond",
        "limit -0.0",
        "no corner",
        "1 corner",
        "4,096 corners",
        "4,097 corners",
        "2 by 2",
        "32 by 32",
    ];
    type Left = Left;

    fn exported(&self, name: &mut dyn FnMut(&'static str)) {
        name("chess_corners_tie");
    }

    fn by_port(&self) -> Left {
        let mut left = Left {
            number: 0,
            place: PAINT,
            answers: Lent::painted(self.answers, PAINT_U16),
            places: Lent::holding(&self.places, PAINT_F),
            corners: Lent::holding(&self.floats, PAINT_F),
        };
        let board = types::Board {
            places: left.places.inside(),
            ..self.view()
        };
        let corners = left.corners.inside();
        left.number = port::tie(board, corners, left.answers.part(), &mut left.place);
        left
    }

    fn judged(&self, left: &Left) -> Result<Met, String> {
        let (decision, place, tied) = calls::tie(&self.view(), &self.floats, self.answers);
        let number = decision.number;
        trial::held("number", left.number, number)?;
        trial::held("place", left.place, place.unwrap_or(PAINT))?;
        let want = match number {
            0 => tied,
            _ => vec![PAINT_U16; self.answers],
        };
        let got = left.answers.inside();
        if let Some(k) = parts(got, &want, |a, b| a == b) {
            return Err(format!("answer {k} is {}, expected {}", got[k], want[k]));
        }
        left.answers.outside_kept("the answers")?;
        left.places.kept("the lent places", &self.places)?;
        left.corners.kept("the lent corners", &self.floats)?;
        let met = Met::of(class_of(number));
        Ok(match number {
            0 | rules::NO_CORNER | rules::USED_TWICE => self.looked_at(met),
            _ => met.and(self.refused_by(number)),
        })
    }

    fn size(&self) -> u64 {
        let floats = self.floats.iter().chain(&self.places);
        let odd: u64 = floats.map(|f| oddness(*f)).sum();
        1_000 * (self.floats.len() + self.places.len() + self.answers) as u64
            + odd
            + oddness(self.limit)
            + self.rows.min(10_000)
            + self.columns.min(10_000)
    }

    fn simpler(&self) -> Vec<Self> {
        let mut out = self.smaller();
        let corners = self.floats.len() / 3;
        for left_out in trial::fewer(corners) {
            let mut fewer = self.clone();
            fewer.floats.drain(3 * left_out.start..3 * left_out.end);
            out.push(fewer);
        }
        for value in PLAIN {
            out.push(Board {
                limit: value,
                ..self.clone()
            });
            for k in 0..self.floats.len().min(300) {
                let mut plainer = self.clone();
                plainer.floats[k] = value;
                out.push(plainer);
            }
            for k in 0..self.places.len().min(300) {
                let mut plainer = self.clone();
                plainer.places[k] = value;
                out.push(plainer);
            }
        }
        out
    }
}

/// A board that has as many answers as places.
fn board(rows: u64, columns: u64, places: &[[f32; 2]], list: &[Triple], limit: f32) -> Board {
    Board {
        rows,
        columns,
        places: places.concat(),
        limit,
        floats: list.concat(),
        answers: places.len(),
    }
}

fn pairs_of(xs: &[f32], ys: &[f32]) -> Vec<[f32; 2]> {
    let with = |x: &f32| ys.iter().map(|y| [*x, *y]).collect::<Vec<_>>();
    xs.iter().flat_map(with).collect()
}

/// Every list of up to so many corners at these places.
fn lists_of(at: &[[f32; 2]], most: usize) -> Vec<Vec<Triple>> {
    let mut all = vec![Vec::new()];
    let mut from = 0;
    for _ in 0..most {
        let till = all.len();
        for k in from..till {
            for [x, y] in at {
                let mut longer: Vec<Triple> = all[k].clone();
                longer.push([*x, *y, 1.0]);
                all.push(longer);
            }
        }
        from = till;
    }
    all
}

/// The greatest number whose square is finite, and one whose square brings
/// that to `f32::MAX`.
const ROOT: f32 = 1.844_674_3e19;
const REST: f32 = 4.503_599_6e15;

const FINITE: [f32; 5] = [1e-45, -0.0, 0.0, 2.0, ROOT];
const ODD: [f32; 8] = [f32::NAN, f32::INFINITY, 1e-45, -0.0, 0.0, 2.0, ROOT, REST];

/// Every board of one place with up to two corners over odd numbers, and of
/// two places with up to three over small ones.
pub fn short(tally: &mut Tally) -> bool {
    let before = tally.cases;
    let lists = lists_of(&pairs_of(&ODD, &ODD), 2);
    let went = pairs_of(&FINITE, &[0.0, 2.0]).iter().all(|place| {
        [0.0, -0.0, 4.0, f32::MAX, f32::NAN].iter().all(|limit| {
            let mut lists = lists.iter();
            lists.all(|list| tally.tried(&board(2, 2, &[*place], list, *limit)))
        })
    });
    let lists = lists_of(&pairs_of(&[0.0, 1.0, 2.0, f32::NAN], &[0.0, 1.0]), 3);
    let places = pairs_of(&[0.0, 1.0, 2.0], &[0.0, 1.0, 2.0]);
    let went = went
        && places.iter().all(|[a, b]| {
            [0.0, 1.0, 4.0].iter().all(|limit| {
                let two = [[*a, 0.0], [*b, 0.0]];
                let mut lists = lists.iter();
                lists.all(|list| {
                    tally.tried(&board(2, 3, &two, list, *limit))
                        && tally.tried(&board(3, 2, &two, list, *limit))
                })
            })
        });
    tally.exhaustive = tally.cases - before;
    went
}

fn any_sides(random: &mut Random) -> [u64; 2] {
    let most = match random.below(400) {
        0 => return [32, 32],
        1..=9 => 32,
        10..=80 => 9,
        _ => 4,
    };
    [0, 1].map(|_| random.between(2, most) as u64)
}

/// Moves each number by up to half the reach, by whole numbers where ties and
/// shared corners are wanted.
fn shaken(random: &mut Random, pair: [f32; 2], reach: f32, whole: bool) -> [f32; 2] {
    pair.map(|v| {
        let moved = v + (random.unit() - 0.5) * reach;
        match whole {
            true => moved.round(),
            false => moved,
        }
    })
}

/// A board of squares, a corner about most of its places, in any order, and
/// others anywhere. At some scales the squares of distances leave binary32.
fn any_board(random: &mut Random) -> Board {
    let [rows, columns] = any_sides(random);
    let step = random.pick(&[1.0, 3.0, 8.0, 20.0]);
    let reach = step * random.pick(&[0.1, 0.5, 1.0, 2.0]);
    let whole = random.once_in(2);
    let scale = match random.below(6) {
        0 => random.pick(&[1e-30, 1e-23, 1e-20, 1e18, 1e19, 1e37]),
        _ => 1.0,
    };
    let scaled = |pair: [f32; 2]| pair.map(|v| v * scale);
    let mut places = Vec::new();
    let mut list: Vec<Triple> = Vec::new();
    for k in 0..(rows - 1) * (columns - 1) {
        let (x, y) = (k % (columns - 1), k / (columns - 1));
        let at = [step * x as f32, step * y as f32];
        places.push(scaled(shaken(random, at, reach, whole)));
        if !random.once_in(50) {
            let [x, y] = scaled(shaken(random, at, reach, whole));
            list.insert(random.below(list.len() + 1), [x, y, random.unit()]);
        }
    }
    for _ in list.len()..any_count(random, list.len()) {
        let [width, height] = [columns, rows].map(|side| step * side as f32);
        let at = [width * random.unit(), height * random.unit()];
        let [x, y] = scaled(shaken(random, at, reach, whole));
        list.insert(random.below(list.len() + 1), [x, y, random.unit()]);
    }
    board(rows, columns, &places, &list, 0.0)
}

/// How many corners in all, of which some are there.
fn any_count(random: &mut Random, there: usize) -> usize {
    match random.below(2000) {
        0 => random.pick(&[4095, 4096]),
        1..=20 => random.pick(&[4097, 4097, 4098, 5000]),
        21..=60 => random.below(600),
        _ => there + random.below(12),
    }
}

/// Beside the farthest of the nearest corners or another one, or anywhere.
fn any_limit(random: &mut Random, b: &Board) -> f32 {
    let list = calls::triples(&b.floats);
    let pairs = b.pairs();
    match random.below(8) {
        0 => random.pick(&[0.0, -0.0, 1e-45, f32::MAX, 1e-30]),
        1..=4 => {
            let near = |pair: &[f32; 2]| rules::nearest(pair, &list).map_or(0.0, |(_, d)| d);
            let few = match random.once_in(3) {
                true => &pairs[random.below(pairs.len())..][..1],
                false => &pairs[..],
            };
            let farthest = few.iter().map(near).fold(0.0, f32::max);
            random.pick(&[farthest, farthest, farthest.next_down()])
        }
        _ => random.pick(&[1.0, 4.0, 30.0, 1e9]),
    }
}

const NOT_FINITE: [f32; 3] = [f32::NAN, f32::INFINITY, f32::NEG_INFINITY];

/// Makes some of it refused: a side, a length, a number that is not finite.
fn spoil(random: &mut Random, b: &mut Board) {
    match random.below(120) {
        0 => b.rows = any_bad_side(random),
        1 => b.columns = any_bad_side(random),
        2..=4 => {
            let length = b.places.len() as i64 + random.pick(&[-2, -1, 1, 2]);
            b.places.resize(length as usize, 0.0);
        }
        5..=7 => b.answers = b.answers - 1 + random.pick(&[0, 2, 3]),
        8..=9 => {
            let at = random.below(b.places.len());
            b.places[at] = random.pick(&NOT_FINITE);
        }
        10..=12 => {
            let length = b.floats.len().saturating_sub(1 + random.below(2));
            b.floats.truncate(length);
        }
        13..=14 => b.limit = random.pick(&[-1.0, -1e-45, f32::MIN]),
        15..=16 => b.limit = random.pick(&NOT_FINITE),
        17 => b.floats.clear(),
        _ => {}
    }
}

/// Too small, too large, or cut to a good one in 32 bits.
fn any_bad_side(random: &mut Random) -> u64 {
    random.pick(&[0, 1, 33, 34, 1 << 32, (1 << 32) + 2, 1 << 63, u64::MAX])
}

/// A board about the borders of the rules.
pub fn any(random: &mut Random) -> Board {
    let mut b = any_board(random);
    let odd = random.once_in(3);
    let far = [f32::MAX, f32::MIN, 1e20, -3e19, -0.0];
    for c in b.floats.chunks_exact_mut(3) {
        if odd && random.once_in(6) {
            c[random.below(3)] = match random.once_in(2) {
                true => random.pick(&NOT_FINITE),
                false => random.pick(&far),
            };
        }
        if odd && random.once_in(40) {
            c[random.below(2)] = f32::from_bits(random.word());
        }
    }
    if random.once_in(40) {
        let at = random.below(b.places.len());
        b.places[at] = random.pick(&far);
    }
    if random.once_in(40) {
        // No distance is a number.
        b.floats.fill(f32::NAN);
    }
    b.limit = any_limit(random, &b);
    spoil(random, &mut b);
    b
}

/// The largest board among as many corners as a list holds, their own behind
/// the others; the same with a corner more, and without any.
pub fn longest(tally: &mut Tally, random: &mut Random) -> bool {
    let at = |k: usize| [20.0 * (k % 31) as f32, 15.0 * (k / 31) as f32];
    let places: Vec<[f32; 2]> = (0..961).map(at).collect();
    [rules::MOST, rules::MOST + 1, 961, 0]
        .into_iter()
        .all(|count| {
            let mut list: Vec<Triple> = (961..count)
                .map(|_| [640.0 * random.unit(), 480.0 * random.unit(), 1.0])
                .collect();
            let own = places.iter().map(|[x, y]| [x + 0.25, *y, 1.0]);
            list.extend(own.take(count));
            tally.tried(&board(32, 32, &places, &list, 4.0))
        })
}

/// The driver notices each fault of an answer.
pub fn faults_noticed() -> Result<(), String> {
    let places = [[0.0, 0.0], [8.0, 0.0]];
    let list = [[9.0, 0.0, 1.0], [0.0, 1.0, 1.0], [4.0, 9.0, 1.0]];
    let tied = board(2, 3, &places, &list, 1.0);
    let alone = board(2, 3, &places, &list[..1], 1.0);
    let shared = board(2, 3, &places, &list[1..], 1e9);
    let mut refused = tied.clone();
    refused.answers = 3;
    trial::faults_noticed(
        &[tied, alone, shared, refused],
        &[
            ("number", |l| l.number ^= 1),
            ("place", |l| l.place ^= 1),
            ("an answer", |l| l.answers.part()[0] ^= 1),
            ("another answer", |l| l.answers.part()[1] = 7),
            ("before the answers", |l| l.answers.spoil()[3] = 0),
            ("behind the answers", |l| {
                let last = l.answers.part().len() + 4;
                l.answers.spoil()[last] = 0;
            }),
            ("the lent places", |l| flip(&mut l.places.part()[3])),
            ("the lent corners", |l| flip(&mut l.corners.part()[0])),
        ],
    )
}
