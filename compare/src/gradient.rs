//! `chess_corners_gradient` against the Rust's `add_gradient` where it has an
//! answer, and against the rules; and what is claimed of its coefficients, by
//! raising cells.

use crate::port;
use crate::trial::{self, bits, flip, parts, Lent, Met, Tally, Trial, PAINT_F};
use oracle::calls::{self, Decision};
use oracle::pictures;
use oracle::random::Random;
use oracle::rust_or_rule::Decided;
use oracle::types::{paper_ring, Ring};
use std::collections::BTreeSet;
use std::fmt::{self, Display, Formatter};

#[derive(Clone)]
pub struct Gradient {
    side: u32,
    tile: Vec<u8>,
    ring: Ring,
    at: [u32; 2],
    scale: [f32; 2],
    grid: Vec<f32>,
}

/// All that the call leaves.
#[derive(Clone)]
pub struct Left {
    number: u32,
    grid: Lent<f32>,
}

const CROSS: [(i32, i32); 5] = [(0, 0), (0, -1), (0, 1), (1, 0), (-1, 0)];

/// The thirteen differences under a magnitude, and N, five times the response.
struct Seen {
    differences: Vec<i32>,
    n: i32,
}

impl Gradient {
    /// On a tile that just holds a ring of radius `r`.
    fn tight(tile: Vec<u8>, side: u32, ring: Ring, r: u32) -> Self {
        Gradient {
            side,
            grid: vec![0.0; 2 * tile.len()],
            tile,
            ring,
            at: [r, r],
            scale: [1.0, -0.5],
        }
    }

    fn cell(&self, (dx, dy): (i32, i32)) -> usize {
        let [x, y] = [
            i64::from(self.at[0]) + i64::from(dx),
            i64::from(self.at[1]) + i64::from(dy),
        ];
        (y * i64::from(self.side) + x) as usize
    }

    /// The differences and N of a tile in which every place lies.
    fn seen(&self, tile: &[u8]) -> Seen {
        let s = self.ring.map(|d| i32::from(tile[self.cell(d)]));
        let c = CROSS.map(|d| i32::from(tile[self.cell(d)]));
        let square = |q: usize| (s[q] + s[q + 8]) - (s[q + 4] + s[q + 12]);
        let mean = 5 * s.iter().sum::<i32>() - 16 * c.iter().sum::<i32>();
        let squares: Vec<i32> = (0..4).map(square).collect();
        let edges: Vec<i32> = (0..8).map(|e| s[e] - s[e + 8]).collect();
        let sum = |all: &[i32]| all.iter().map(|d| d.abs()).sum::<i32>();
        let n = 5 * sum(&squares) - 5 * sum(&edges) - mean.abs();
        Seen {
            differences: [squares, edges, vec![mean]].concat(),
            n,
        }
    }

    /// What the theorem adds to N where a cell is raised: for each ring place
    /// five times its coefficient less five times the sign of the means, for a
    /// cross place 16 times that sign.
    fn by_places(&self, p: usize) -> i32 {
        let d = self.seen(&self.tile).differences;
        let mean = d[12].signum();
        let mut sum = 0;
        for (k, &pair) in self.ring.iter().enumerate() {
            if self.cell(pair) == p {
                let square = d[k % 4].signum();
                let edge = d[4 + k % 8].signum();
                let turned = if k % 8 < 4 { square } else { -square };
                sum += 5 * (turned + if k < 8 { -edge } else { edge }) - 5 * mean;
            }
        }
        let crosses = CROSS.iter().filter(|d| self.cell(**d) == p).count();
        sum + 16 * mean * crosses as i32
    }

    /// The theorem: N of the tile with a cell raised, where no difference is
    /// zero or passes zero.
    fn raised(&self, p: usize) -> Result<bool, String> {
        let before = self.seen(&self.tile);
        if self.tile[p] == u8::MAX || before.differences.contains(&0) {
            return Ok(false);
        }
        let mut tile = self.tile.clone();
        tile[p] += 1;
        let after = self.seen(&tile);
        let passes = |(a, b): (&i32, &i32)| a.signum() * b.signum() < 0;
        if before
            .differences
            .iter()
            .zip(&after.differences)
            .any(passes)
        {
            return Ok(false);
        }
        let moved = before.n + self.by_places(p);
        match after.n == moved {
            true => Ok(true),
            false => Err(format!(
                "N {} with cell {p} raised, expected {moved}",
                after.n
            )),
        }
    }

    /// At scale 1 a cell that is none of the cross is given a fifth of that.
    fn coefficients_held(&self) -> Result<(), String> {
        let mut grid = vec![0.0; 2 * self.tile.len()];
        let number = port::gradient(
            self.side, &self.tile, &self.ring, self.at, [1.0; 2], &mut grid,
        );
        trial::held("number at scale 1", number, 0)?;
        for p in 0..self.tile.len() {
            if CROSS.iter().all(|d| self.cell(*d) != p) {
                trial::held(
                    "five times a whole coefficient",
                    5.0 * grid[2 * p],
                    self.by_places(p) as f32,
                )?;
            }
        }
        Ok(())
    }
}

fn class_of(number: u32) -> &'static str {
    match number {
        0 => "0",
        10 => "10",
        13 => "13",
        _ => "15",
    }
}

impl Display for Gradient {
    fn fmt(&self, f: &mut Formatter<'_>) -> fmt::Result {
        let [x, y] = self.at;
        let [a, b] = self.scale.map(bits);
        writeln!(
            f,
            "  side {}, {} bytes, at {x} {y}, scales {a} {b}, {} floats",
            self.side,
            self.tile.len(),
            self.grid.len()
        )?;
        writeln!(f, "  ring {:?}", self.ring)?;
        for row in self.tile.chunks(self.side.clamp(1, 40) as usize).take(40) {
            writeln!(f, "  {row:?}")?;
        }
        let held = self.grid.iter().filter(|g| g.to_bits() != 0).count();
        writeln!(f, "  {held} numbers of the grid are not +0.0")
    }
}

impl Trial for Gradient {
    const NAME: &'static str = "gradient";
    const CLASSES: &'static [&'static str] = &[
        "0",
        "10",
        "13",
        "15",
        "the Rust has an answer",
        "a NaN afterwards",
        "the means tie",
        "a square ties",
        "an edge ties",
        "two ring places are one cell",
        "a ring place is of the cross",
        "a cell raised",
        "a cell raised that has several places",
        "a cell of the cross raised",
    ];
    type Left = Left;

    fn exported(&self, name: &mut dyn FnMut(&'static str)) {
        name("chess_corners_gradient");
    }

    fn by_port(&self) -> Left {
        let mut grid = Lent::holding(&self.grid, PAINT_F);
        let number = port::gradient(
            self.side,
            &self.tile,
            &self.ring,
            self.at,
            self.scale,
            grid.part(),
        );
        Left { number, grid }
    }

    fn judged(&self, left: &Left) -> Result<Met, String> {
        let [x, y] = self.at;
        let (decision, after) = calls::gradient(
            self.side, &self.tile, &self.ring, x, y, self.scale, &self.grid,
        );
        trial::held("number", left.number, decision.number)?;
        let want = match decision.number {
            0 => &after,
            _ => &self.grid,
        };
        if let Some(k) = parts(left.grid.inside(), want, |a, b| trial::alike(*a, *b)) {
            let [got, want] = [left.grid.inside()[k], want[k]].map(bits);
            return Err(format!("number {k} of the grid {got}, expected {want}"));
        }
        left.grid.outside_kept("the grid")?;
        let mut met = BTreeSet::from([class_of(decision.number)]);
        if decision.number == 0 {
            self.met_of(&decision, &after, &mut met)?;
        }
        let mut met = met.into_iter();
        let first = met.next().unwrap_or("0");
        Ok(met.fold(Met::of(first), Met::and))
    }

    fn size(&self) -> u64 {
        let odd =
            |n: u64, d: &(i32, i32)| n + d.0.unsigned_abs() as u64 + d.1.unsigned_abs() as u64;
        let ring = self.ring.iter().fold(0, odd).min(1 << 40);
        let bytes: u64 = self.tile.iter().map(|b| u64::from(*b)).sum();
        let grid = self.grid.iter().map(|g| trial::oddness(*g)).sum::<u64>();
        let scale: u64 = self.scale.iter().map(|s| trial::oddness(*s)).sum();
        1000 * u64::from(self.side.min(1000)) + 100 * ring + bytes + grid + scale
    }

    fn simpler(&self) -> Vec<Self> {
        let mut out = Vec::new();
        let mut push = |change: &dyn Fn(&mut Gradient)| {
            let mut other = self.clone();
            change(&mut other);
            out.push(other);
        };
        push(&|g| g.grid.fill(0.0));
        push(&|g| g.scale = [1.0, 1.0]);
        push(&|g| g.tile.fill(0));
        for k in 0..16 {
            push(&|g| g.ring[k] = (0, 0));
        }
        for k in 0..self.tile.len().min(400) {
            push(&|g| g.tile[k] = 0);
            push(&|g| g.tile[k] /= 2);
        }
        out
    }
}

impl Gradient {
    /// Which classes an accepted call meets, and whether the theorem holds.
    fn met_of(
        &self,
        decision: &Decision,
        after: &[f32],
        met: &mut BTreeSet<&'static str>,
    ) -> Result<(), String> {
        if decision.decided == Decided::ByRust {
            met.insert("the Rust has an answer");
        }
        if after.iter().any(|g| g.is_nan()) {
            met.insert("a NaN afterwards");
        }
        let d = self.seen(&self.tile).differences;
        let ties = [
            (0..4, "a square ties"),
            (4..12, "an edge ties"),
            (12..13, "the means tie"),
        ];
        for (range, class) in ties {
            if d[range].contains(&0) {
                met.insert(class);
            }
        }
        let cells = self.ring.map(|pair| self.cell(pair));
        let cross = CROSS.map(|pair| self.cell(pair));
        let many = |p: usize| cells.iter().filter(|c| **c == p).count();
        if cells.iter().any(|c| many(*c) > 1) {
            met.insert("two ring places are one cell");
        }
        if cells.iter().any(|c| cross.contains(c)) {
            met.insert("a ring place is of the cross");
        }
        self.coefficients_held()?;
        for p in cells.iter().chain(&cross).copied().collect::<BTreeSet<_>>() {
            if self.raised(p)? {
                met.insert("a cell raised");
                if many(p) > 1 {
                    met.insert("a cell raised that has several places");
                }
                if cross.contains(&p) {
                    met.insert("a cell of the cross raised");
                }
            }
        }
        Ok(())
    }
}

/// Every tile of 3 by 3 of two values with the eight cells about the middle
/// twice, at every cell; and every side from 0 to 4 with every length of tile
/// and grid about it.
pub fn short(tally: &mut Tally) -> bool {
    let before = tally.cases;
    let eight = [
        (-1, -1),
        (0, -1),
        (1, -1),
        (1, 0),
        (1, 1),
        (0, 1),
        (-1, 1),
        (-1, 0),
    ];
    let ring: Ring = std::array::from_fn(|k| eight[k % 8]);
    let went = (0..512u32).all(|light| {
        let tile: Vec<u8> = (0..9).map(|k| 10 + (light >> k & 1) as u8).collect();
        let middle = Gradient::tight(tile, 3, ring, 1);
        (0..3).all(|y| {
            (0..3).all(|x| {
                let mut other = middle.clone();
                other.at = [x, y];
                tally.tried(&other)
            })
        })
    }) && (0..5u32).all(|side| {
        (0..=side * side + 2).all(|cells| {
            (0..=2 * side * side + 3).all(|room| {
                (0..=side).all(|at| {
                    let mut g = Gradient::tight(vec![7; cells as usize], side, [(0, 0); 16], at);
                    g.grid = vec![1.0; room as usize];
                    tally.tried(&g)
                })
            })
        })
    });
    tally.exhaustive = tally.cases - before;
    went
}

/// A tile about the borders of the rules.
pub fn any(random: &mut Random) -> Gradient {
    let r = random.between(1, 5);
    let side = (2 * r + 1 + random.between(0, 3)) as usize;
    let near = |random: &mut Random| random.between(-r, r) as i32;
    let mut ring = [(0, 0); 16];
    for pair in &mut ring {
        *pair = (near(random), near(random));
    }
    if r == 5 && random.once_in(2) {
        ring = paper_ring(1);
    }
    let tile = pictures::any(random, side, side).bytes;
    let mut g = Gradient::tight(tile, side as u32, ring, r as u32);
    let within = |random: &mut Random| random.between(r, side as i64 - 1 - r) as u32;
    g.at = [within(random), within(random)];
    g.scale = [0, 1].map(|_| match random.below(8) {
        0 => random.pick(&[
            0.0,
            -0.0,
            f32::INFINITY,
            f32::NEG_INFINITY,
            f32::NAN,
            f32::MAX,
            1e-45,
        ]),
        _ => (random.unit() - 0.5) * 4.0,
    });
    if random.once_in(3) {
        for held in &mut g.grid {
            *held = match random.below(30) {
                0 => random.pick(&[f32::INFINITY, f32::NAN, f32::MAX, -1e-45]),
                _ => (random.unit() - 0.5) * 10.0,
            };
        }
    }
    spoilt(random, &mut g);
    g
}

/// One in four is refused, or just not.
fn spoilt(random: &mut Random, g: &mut Gradient) {
    match random.below(20) {
        0 => drop(g.tile.pop()),
        1 => drop(g.grid.pop()),
        2 => g.side = random.pick(&[0, 1, g.side + 1, u32::MAX]),
        3 => g.at[random.below(2)] = random.pick(&[0, g.side, u32::MAX]),
        4 => {
            let far = random.pick(&[6, -6, i32::MIN, i32::MAX, g.side as i32]);
            let place = random.below(16);
            match random.once_in(2) {
                true => g.ring[place].0 = far,
                false => g.ring[place].1 = far,
            }
        }
        _ => {}
    }
}

/// The driver notices each fault of an answer.
pub fn faults_noticed() -> Result<(), String> {
    let mut random = Random::of(1, "faults");
    let tile = pictures::any(&mut random, 11, 11).bytes;
    let added = Gradient::tight(tile, 11, paper_ring(1), 5);
    let mut refused = added.clone();
    refused.at = [4, 5];
    let mut short = added.clone();
    short.grid.pop();
    trial::faults_noticed(
        &[added.clone(), refused, short],
        &[
            ("number", |l| l.number ^= 1),
            ("a number of the grid", |l| flip(&mut l.grid.part()[120])),
            ("the first of the grid", |l| flip(&mut l.grid.part()[0])),
            ("the last of the grid", |l| {
                let last = l.grid.part().len() - 1;
                flip(&mut l.grid.part()[last]);
            }),
            ("before the grid", |l| flip(&mut l.grid.spoil()[3])),
            ("behind the grid", |l| {
                let behind = l.grid.part().len() + 4;
                flip(&mut l.grid.spoil()[behind]);
            }),
        ],
    )?;
    let mut turned = added.clone();
    turned.scale = [-0.5, 1.0];
    trial::other_noticed("the scales exchanged", &added, &turned)
}
