//! `chess_corners_refine_list` against `refine_corners_on_image` and
//! document 01.

use crate::picture::{self, OfImage, Twice};
use crate::port;
use crate::scene::{self, Scene};
use crate::trial::{self, alike, bits, flip, Lent, Met, Tally, Trial, PAINT, PAINT_F};
use oracle::lists::refine_list as known;
use oracle::random::Random;
use oracle::types::{Image, Settings, Triple};
use oracle::{calls, padding, rules};
use std::fmt::{self, Display, Formatter};
use std::rc::Rc;

#[derive(Clone)]
pub struct List {
    pub scene: Scene,
    /// The padding of each call.
    pub paint: u64,
    pub floats: Vec<f32>,
    pub out: usize,
}

/// All that a call leaves.
#[derive(Clone)]
pub struct Answer {
    number: u32,
    count: usize,
    corners: Lent<f32>,
    out: Lent<f32>,
}

impl Answer {
    fn same_as(&self, other: &Answer) -> bool {
        let bits = |f: &f32| f.to_bits();
        let [ours, others] = [self, other].map(|a| a.out.inside().iter().map(bits));
        self.number == other.number && self.count == other.count && ours.eq(others)
    }

    /// How it parts from what is expected.
    fn held(&self, list: &List, number: u32, kept: &[Triple]) -> Result<(), String> {
        let count = if number == 0 { kept.len() } else { PAINT };
        trial::held("number", self.number, number)?;
        trial::held("count", self.count, count)?;
        let written = kept.concat();
        for (k, got) in self.out.inside().iter().enumerate() {
            let want = written.get(k).copied().unwrap_or(PAINT_F);
            // A strength is copied, and what lies past the records is kept.
            let worked_out = k < written.len() && k % 3 < 2;
            if !(got.to_bits() == want.to_bits() || (worked_out && alike(*got, want))) {
                let (got, want) = (bits(*got), bits(want));
                return Err(format!("element {k} is {got}, expected {want}"));
            }
        }
        self.out.outside_kept("the output")?;
        self.corners.kept("the lent corners", &list.floats)
    }
}

pub fn class_of(number: u32, seeds: usize, kept: usize) -> &'static str {
    match number {
        0 if seeds == 0 => "empty list",
        0 if kept == 0 => "none kept",
        0 if kept == seeds => "all kept",
        0 => "some kept",
        rules::BAD_IMAGE => "10",
        rules::BAD_SAMPLE => "26",
        rules::BAD_RADIUS => "11",
        rules::BAD_LIMIT => "12",
        rules::BAD_OUT => "15",
        rules::TOO_MANY => "16",
        _ => "19",
    }
}

impl Display for List {
    fn fmt(&self, f: &mut Formatter<'_>) -> fmt::Result {
        writeln!(f, "  {} floats, {} lent", self.floats.len(), self.out)?;
        f.write_str(&trial::record_lines(&self.floats, 3))?;
        self.scene.fmt(f)
    }
}

impl Trial for List {
    const NAME: &'static str = "list";
    const CLASSES: &'static [&'static str] = &[
        "empty list",
        "none kept",
        "some kept",
        "all kept",
        "10",
        "26",
        "11",
        "12",
        "15",
        "16",
        "19",
        "4,096 seeds",
        "longer output",
        "a seed that is no number",
    ];
    const SHARED: &'static [&'static str] = &picture::KINDS;
    type Left = Twice<Answer>;

    fn exported(&self, name: &mut dyn FnMut(&'static str)) {
        name(match self.scene.image.deep {
            None => "chess_corners_refine_list",
            Some(_) => "chess_corners_refine_list_u16",
        });
    }

    fn by_port(&self) -> Self::Left {
        Twice::of(&self.scene.image, self.paint, |image| {
            let mut answer = Answer {
                number: 0,
                count: PAINT,
                corners: Lent::holding(&self.floats, PAINT_F),
                out: Lent::painted(self.out, PAINT_F),
            };
            answer.number = port::refine_list(
                image,
                self.scene.settings,
                answer.corners.inside(),
                answer.out.part(),
                &mut answer.count,
            );
            answer
        })
    }

    fn judged(&self, left: &Self::Left) -> Result<Met, String> {
        let s = self.scene.for_oracle();
        let (number, kept) = calls::refine_list_kept(self.scene.view(), &s, &self.floats, self.out);
        left.held(|answer| answer.held(self, number, &kept), Answer::same_as)?;
        let seeds = self.floats.len() / 3;
        let mut met = Met::of(class_of(number, seeds, kept.len())).with_parts(match number {
            0 => seeds as u64,
            _ => 0,
        });
        met = picture::met(met, self.scene.view());
        if number == 0 && seeds == rules::MOST {
            met = met.and("4,096 seeds");
        }
        if number == 0 && self.out > self.floats.len() {
            met = met.and("longer output");
        }
        let mut corners = self.floats.chunks_exact(3);
        if number == 0 && corners.any(|c| rules::bad_seed([c[0], c[1]])) {
            met = met.and("a seed that is no number");
        }
        Ok(met)
    }

    fn size(&self) -> u64 {
        let odd = self.floats.iter().filter(|f| f.fract() != 0.0).count() as u64;
        1_000_000 * self.floats.len() as u64 + self.scene.size() + odd + self.out as u64
    }

    fn simpler(&self) -> Vec<Self> {
        let mut out = Vec::new();
        for left_out in trial::fewer(self.floats.len() / 3) {
            let mut fewer = self.clone();
            fewer.floats.drain(3 * left_out.start..3 * left_out.end);
            fewer.out = fewer.out.saturating_sub(3 * left_out.len());
            out.push(fewer);
        }
        out.push(List {
            out: self.floats.len(),
            ..self.clone()
        });
        for (scene, moved) in self.scene.simpler() {
            let mut less = List {
                scene,
                ..self.clone()
            };
            for corner in less.floats.chunks_exact_mut(3) {
                corner[0] -= moved[0];
                corner[1] -= moved[1];
            }
            out.push(less);
        }
        for k in 0..self.floats.len().min(300) {
            let mut plainer = self.clone();
            plainer.floats[k] = plainer.floats[k].round();
            out.push(plainer);
        }
        out
    }
}

impl OfImage for List {
    fn image(&self) -> &Image {
        &self.scene.image
    }

    fn with_image(&self, image: Image) -> Self {
        let mut other = self.clone();
        other.scene.image = Rc::new(image);
        other
    }
}

fn any_count(random: &mut Random) -> usize {
    match random.below(2000) {
        0..=3 => random.pick(&[4095, 4096]),
        4..=23 => random.pick(&[4097, 4098, 5000]),
        24..=399 => random.below(600),
        400..=600 => random.below(3),
        _ => random.below(60),
    }
}

/// Seeds on a scene, or on a board about its corners.
fn any_seeds(random: &mut Random, count: usize) -> (Scene, Vec<Triple>) {
    let mut scene = scene::any(random);
    if random.once_in(2) {
        let seeds = (0..count).map(|_| {
            let [x, y] = scene::any_seed(random, &scene);
            [x, y, scene::any_strength(random)]
        });
        let seeds = seeds.collect();
        return (scene, seeds);
    }
    let (board, corners) = known::board(random);
    scene.image = Rc::new(picture::any(random, board));
    let near = |random: &mut Random, at: f32| at + random.unit() - 0.5;
    let seeds = (0..count).map(|k| match corners.get(k % corners.len().max(1)) {
        Some(c) => [near(random, c[0]), near(random, c[1]), c[2]],
        None => [0.0; 3],
    });
    let seeds = seeds.collect();
    (scene, seeds)
}

/// No seed on an image, with the Rust's own settings.
pub fn usual(image: Image) -> List {
    let s = Settings::default();
    List {
        scene: Scene {
            image: Rc::new(image),
            settings: port::Settings {
                radius: s.radius as usize,
                det_margin: s.det_margin,
                max_offset: s.max_offset,
                min_abs_det: s.min_abs_det,
            },
        },
        paint: 0,
        floats: Vec::new(),
        out: 0,
    }
}

/// A pitch of every class, with the seeds of a board.
pub fn pitches(tally: &mut Tally, random: &mut Random) -> bool {
    let (board, corners) = known::board(random);
    let mut list = usual(board);
    list.floats = corners.concat();
    list.out = list.floats.len();
    picture::pitches(tally, random, &list)
}

/// As many seeds as a list may hold, and one more, on boards.
pub fn longest(tally: &mut Tally, random: &mut Random) -> bool {
    [0, rules::MOST, rules::MOST + 1].into_iter().all(|count| {
        let (board, corners) = known::board(random);
        let mut list = usual(board);
        let seeds = corners.iter().cycle().take(count);
        list.floats = seeds.copied().collect::<Vec<_>>().concat();
        list.out = list.floats.len();
        tally.tried(&list)
    })
}

/// A list about the borders of the rules.
pub fn any(random: &mut Random) -> List {
    let count = any_count(random);
    of(random, count)
}

/// The same of a few seeds.
pub fn brief(random: &mut Random) -> List {
    let count = random.below(8);
    of(random, count)
}

/// The same of so many seeds.
fn of(random: &mut Random, count: usize) -> List {
    let (scene, seeds) = any_seeds(random, count);
    let mut floats = seeds.concat();
    if random.once_in(40) {
        floats.truncate(floats.len().saturating_sub(1 + random.below(2)));
    }
    let mut out = floats.len() + random.pick(&[0, 0, 0, 1, 2, 3, 40]);
    if random.once_in(40) {
        out = floats.len().saturating_sub(1 + random.below(4));
    }
    List {
        scene,
        paint: random.word64(),
        floats,
        out,
    }
}

/// The driver notices each fault of an answer.
pub fn faults_noticed() -> Result<(), String> {
    let mut random = Random::of(1, "faults");
    let (board, corners) = known::board(&mut random);
    let mut written = usual(board);
    written.floats = corners.concat();
    written.floats.extend([-5.0, -5.0, 1.0]);
    written.floats.extend([5.0, f32::INFINITY, 1.0]);
    written.out = written.floats.len() + 1;
    let mut refused = written.clone();
    refused.floats.push(1.0);
    let padded = picture::faults_noticed(&written, |l| {
        flip(&mut l.again.as_mut().expect("padding").out.part()[0]);
    })?;
    trial::faults_noticed(
        &[written, refused, padded],
        &[
            ("number", |l| l.first.number ^= 1),
            ("count", |l| l.first.count ^= 1),
            ("x", |l| flip(&mut l.first.out.part()[0])),
            ("a strength", |l| flip(&mut l.first.out.part()[2])),
            ("past the records", |l| {
                let last = l.first.out.part().len() - 1;
                l.first.out.part()[last] = 0.0;
            }),
            ("past the last record", |l| {
                let last = l.first.out.part().len() - 4;
                l.first.out.part()[last] = 0.0;
            }),
            ("outside the output", |l| l.first.out.spoil()[0] = 0.0),
            ("the lent corners", |l| flip(&mut l.first.corners.part()[0])),
        ],
    )
}
