//! `chess_corners_merge` against `merge_corners_simple` and document 01.

use crate::port;
use crate::trial::{
    self, alike, bits, oddness, parts, Lent, Met, Tally, Trial, PAINT, PAINT_F, PAINT_U16, PLAIN,
};
use oracle::calls;
use oracle::random::Random;
use oracle::rules::{self, Way};
use oracle::types::Triple;
use std::fmt::{self, Display, Formatter};

#[derive(Clone)]
pub struct Merge {
    pub floats: Vec<f32>,
    pub radius: f32,
    pub heads: usize,
    pub links: usize,
}

/// All that the call leaves.
#[derive(Clone)]
pub struct Left {
    number: u32,
    count: usize,
    corners: Lent<f32>,
    heads: Lent<u16>,
    links: Lent<u16>,
    /// What is said of the heads before.
    wanted: (u32, usize),
}

fn class_of(way: Way) -> &'static str {
    match way {
        Way::Refused(rules::TOO_MANY) => "16",
        Way::Refused(rules::GRID_TOO_BIG) => "17",
        Way::Refused(rules::BAD_SCRATCH) => "18",
        Way::Refused(_) => "19",
        Way::Empty => "empty list",
        Way::Unchanged => "unchanged",
        Way::Plain => "plain scan",
        Way::Grid => "grid",
    }
}

impl Display for Merge {
    fn fmt(&self, f: &mut Formatter<'_>) -> fmt::Result {
        writeln!(
            f,
            "  {} floats, radius {}, {} heads, {} links",
            self.floats.len(),
            bits(self.radius),
            self.heads,
            self.links
        )?;
        f.write_str(&trial::record_lines(&self.floats, 3))
    }
}

impl Trial for Merge {
    const NAME: &'static str = "merge";
    const CLASSES: &'static [&'static str] = &[
        "empty list",
        "unchanged",
        "plain scan",
        "grid",
        "16",
        "17",
        "18",
        "19",
    ];

    type Left = Left;

    fn exported(&self, name: &mut dyn FnMut(&'static str)) {
        name("chess_corners_merge_heads");
        name("chess_corners_merge");
    }

    fn by_port(&self) -> Left {
        let mut left = Left {
            number: 0,
            count: PAINT,
            corners: Lent::holding(&self.floats, PAINT_F),
            heads: Lent::painted(self.heads, PAINT_U16),
            links: Lent::painted(self.links, PAINT_U16),
            wanted: (0, PAINT),
        };
        let heads = &mut left.wanted.1;
        left.wanted.0 = port::merge_heads(&self.floats, self.radius, heads);
        left.number = port::merge(
            left.corners.part(),
            self.radius,
            left.heads.part(),
            left.links.part(),
            &mut left.count,
        );
        left
    }

    fn judged(&self, left: &Left) -> Result<Met, String> {
        let list = calls::triples(&self.floats);
        let way = rules::merge_way(
            self.floats.len(),
            &list,
            self.radius,
            self.heads,
            self.links,
        );
        let mut want = self.floats.clone();
        let (number, count) = match way {
            // Nothing more is expected of a refusal, and the Rust is not run.
            Way::Refused(number) => (number, PAINT),
            _ => {
                let (_, _, kept) = calls::merge(&self.floats, self.radius, self.heads, self.links);
                want[..3 * kept.len()].copy_from_slice(&kept.concat());
                want[3 * kept.len()..].fill(0.0);
                (0, kept.len())
            }
        };
        let wanted = match rules::heads_wanted(self.floats.len(), &list, self.radius) {
            Ok(heads) => (0, heads),
            Err(number) => (number, PAINT),
        };
        trial::held("heads wanted", left.wanted, wanted)?;
        trial::held("number", left.number, number)?;
        trial::held("count", left.count, count)?;
        let written = matches!(way, Way::Plain | Way::Grid);
        let same = |a: &f32, b: &f32| match written {
            true => alike(*a, *b),
            false => a.to_bits() == b.to_bits(),
        };
        if let Some(k) = parts(left.corners.inside(), &want, same) {
            return Err(format!(
                "element {k} of the list is {}, expected {}",
                bits(left.corners.inside()[k]),
                bits(want[k])
            ));
        }
        let mark = if way == Way::Grid { 0 } else { PAINT_U16 };
        for (name, lent) in [("heads", &left.heads), ("links", &left.links)] {
            if let Some(k) = lent.inside().iter().position(|&u| u != mark) {
                return Err(format!("element {k} of {name} is {:04X}", lent.inside()[k]));
            }
            lent.outside_kept(name)?;
        }
        left.corners.outside_kept("the list")?;
        Ok(Met::of(class_of(way)))
    }

    fn size(&self) -> u64 {
        let odd: u64 = self.floats.iter().map(|f| oddness(*f)).sum();
        1_000 * self.floats.len() as u64
            + odd
            + oddness(self.radius)
            + (self.heads + self.links) as u64
    }

    fn simpler(&self) -> Vec<Self> {
        let mut out = Vec::new();
        let corners = self.floats.len() / 3;
        for left_out in trial::fewer(corners) {
            let mut fewer = self.clone();
            fewer.floats.drain(3 * left_out.start..3 * left_out.end);
            fewer.links = fewer.links.saturating_sub(left_out.len());
            out.push(fewer);
        }
        for heads in [0, self.heads / 2, self.heads.saturating_sub(1)] {
            out.push(Merge {
                heads,
                ..self.clone()
            });
        }
        out.push(Merge {
            links: corners,
            ..self.clone()
        });
        for value in PLAIN {
            out.push(Merge {
                radius: value,
                ..self.clone()
            });
            for k in 0..self.floats.len().min(300) {
                let mut plainer = self.clone();
                plainer.floats[k] = value;
                out.push(plainer);
            }
        }
        out
    }
}

const RADII: [f32; 5] = [2.0, 1e-30, 3e38, 0.0, f32::NAN];
const PLACES: [f32; 8] = [
    f32::NAN,
    f32::INFINITY,
    f32::NEG_INFINITY,
    1e-45,
    -0.0,
    0.0,
    2.0,
    3.4e38,
];

/// Every corner of some places and strengths.
fn corners_of(xs: &[f32], ys: &[f32], strengths: &[f32]) -> Vec<Triple> {
    let mut all = Vec::new();
    for &x in xs {
        for &y in ys {
            for &s in strengths {
                all.push([x, y, s]);
            }
        }
    }
    all
}

/// All lists of up to three corners over odd values: up to two over every
/// pair of places, three with fewer ys and strengths.
pub fn short(tally: &mut Tally) -> bool {
    let pairs = corners_of(&PLACES, &PLACES, &[1.0, 2.0, -0.0, f32::NAN]);
    let threes = corners_of(&PLACES, &[0.0, 2.0, f32::NAN], &[1.0, 2.0]);
    let before = tally.cases;
    for radius in RADII {
        let mut tried = |list: &[Triple]| {
            tally.tried(&Merge {
                floats: list.concat(),
                radius,
                heads: 16,
                links: list.len(),
            })
        };
        let went = tried(&[])
            && pairs.iter().all(|a| tried(&[*a]))
            && pairs.iter().all(|a| pairs.iter().all(|b| tried(&[*a, *b])))
            && threes.iter().all(|a| {
                threes
                    .iter()
                    .all(|b| threes.iter().all(|c| tried(&[*a, *b, *c])))
            });
        if !went {
            return false;
        }
    }
    tally.exhaustive = tally.cases - before;
    true
}

fn any_radius(random: &mut Random) -> f32 {
    match random.below(12) {
        0 => random.pick(&[0.0, -0.0, -1.0, f32::NAN, f32::INFINITY, f32::NEG_INFINITY]),
        1 => random.pick(&[1e-45, 1e-38, 1e-30, 1e-19, 1e19, 3e38, f32::MAX]),
        2 => f32::from_bits(random.word()),
        3..=6 => 0.25 + 8.0 * random.unit(),
        _ => random.pick(&[0.5, 1.0, 2.0, 3.0, 5.0]),
    }
}

/// A coordinate at or beside a border of a cell, or anywhere near.
fn any_place(random: &mut Random, radius: f32, across: usize) -> f32 {
    let near = match random.below(3) {
        0 => radius * across as f32 * random.unit(),
        1 => radius * random.below(across + 1) as f32,
        _ => 0.5 * radius * random.below(2 * across + 1) as f32,
    };
    match random.below(4) {
        0 => f32::from_bits(near.to_bits().wrapping_add(1)),
        1 => f32::from_bits(near.to_bits().saturating_sub(1)),
        _ => near,
    }
}

fn any_strength(random: &mut Random) -> f32 {
    match random.below(12) {
        0 => random.pick(&[0.0, -0.0, f32::NAN, f32::INFINITY, f32::NEG_INFINITY]),
        1..=6 => random.below(4) as f32,
        _ => random.unit(),
    }
}

fn any_count(random: &mut Random) -> usize {
    match random.below(4000) {
        0 => random.pick(&[4095, 4096]),
        1..=31 => random.pick(&[4097, 4098, 5000]),
        32..=79 => random.below(600),
        80..=1199 => random.below(64),
        _ => random.below(9),
    }
}

/// A list about the borders of the rules.
pub fn any(random: &mut Random) -> Merge {
    let radius = any_radius(random);
    let count = any_count(random);
    let across = 1 + random.below(if count > 100 { 80 } else { 6 });
    let odd = random.once_in(4);
    let far = random.once_in(12);
    let mut list: Vec<Triple> = (0..count)
        .map(|_| {
            let x = any_place(random, radius, across);
            let y = any_place(random, radius, across);
            [x, y, any_strength(random)]
        })
        .collect();
    for c in &mut list {
        let k = random.below(2);
        if odd && random.once_in(6) {
            c[k] = f32::NAN;
        }
        if far && random.once_in(1 + count) {
            c[k] = random.pick(&[f32::INFINITY, f32::NEG_INFINITY, f32::MAX, f32::MIN, 1e30]);
        }
    }
    let [w, h] = rules::cells(&list, radius);
    let cells = w.saturating_mul(h);
    let heads = if cells <= 20_000 {
        (cells as usize + random.pick(&[0, 0, 1, 2, 30])) - usize::from(random.once_in(6))
    } else {
        random.pick(&[0, 1, 2, 100, 16_384])
    };
    let mut links = count + random.pick(&[0, 0, 0, 1, 7]);
    if random.once_in(25) {
        links = links.saturating_sub(1);
    }
    let mut floats = list.concat();
    if random.once_in(30) {
        floats.truncate(floats.len().saturating_sub(1 + random.below(2)));
    }
    Merge {
        floats,
        radius,
        heads,
        links,
    }
}

/// The driver notices each fault of an answer.
pub fn faults_noticed() -> Result<(), String> {
    let grid = Merge {
        floats: vec![0.0, 0.0, 1.0, 1.0, 0.0, 2.0, 9.0, 0.0, 1.0],
        radius: 2.0,
        heads: 20,
        links: 5,
    };
    let refused = Merge {
        links: 1,
        ..grid.clone()
    };
    trial::faults_noticed(
        &[grid, refused],
        &[
            ("number", |l| l.number ^= 1),
            ("heads wanted", |l| l.wanted.1 ^= 1),
            ("count", |l| l.count ^= 1),
            ("a value", |l| l.corners.part()[0] = 7.0),
            ("the sign of a zero", |l| l.corners.part()[8] = -0.0),
            ("a head", |l| l.heads.part()[19] = 1),
            ("a link", |l| l.links.part()[0] = 1),
            ("outside the list", |l| l.corners.spoil()[0] = 0.0),
            ("outside the heads", |l| l.heads.spoil()[0] = 0),
        ],
    )
}
