//! `chess_corners_refine_list_fallback`, with its own operators and with lent
//! ones, against `refine_corners_on_image_with_fallback` and document 01.

use crate::list::{self, List};
use crate::picture::{self, OfImage, Twice};
use crate::port::{self, Retried};
use crate::scene;
use crate::trial::{self, alike, bits, flip, Lent, Met, Tally, Trial, PAINT, PAINT_F};
use oracle::lists::refine_list as known;
use oracle::random::Random;
use oracle::types::{Image, Settings, Triple};
use oracle::{calls, padding, rules};
use std::fmt::{self, Display, Formatter};

/// A byte that is no pass.
const PAINT_U8: u8 = 0xA5;

/// A list with the first settings, the second ones, and how many pass bytes are
/// lent.
#[derive(Clone)]
pub struct Fallback {
    list: List,
    second: port::Settings,
    passes: usize,
}

/// All that a call leaves.
#[derive(Clone)]
pub struct Answer {
    number: u32,
    count: usize,
    corners: Lent<f32>,
    out: Lent<f32>,
    passes: Lent<u8>,
}

/// With its own operators, and with lent ones.
#[derive(Clone)]
pub struct Both {
    own: Answer,
    lent: Answer,
}

/// What is expected: the number, the records and their passes.
struct Expected {
    number: u32,
    kept: Vec<Triple>,
    passes: Vec<u8>,
}

impl Answer {
    fn same_as(&self, other: &Answer) -> bool {
        let bits = |f: &f32| f.to_bits();
        let [ours, others] = [self, other].map(|a| a.out.inside().iter().map(bits));
        let counts = [self, other].map(|a| (a.number, a.count));
        counts[0] == counts[1] && ours.eq(others) && self.passes.inside() == other.passes.inside()
    }

    /// How it parts from what is expected.
    fn held(&self, call: &Fallback, want: &Expected) -> Result<(), String> {
        let count = if want.number == 0 {
            want.kept.len()
        } else {
            PAINT
        };
        trial::held("number", self.number, want.number)?;
        trial::held("count", self.count, count)?;
        let written = want.kept.concat();
        for (k, got) in self.out.inside().iter().enumerate() {
            let want = written.get(k).copied().unwrap_or(PAINT_F);
            // A strength is copied, and what lies past the records is kept.
            let worked_out = k < written.len() && k % 3 < 2;
            if !(got.to_bits() == want.to_bits() || (worked_out && alike(*got, want))) {
                let (got, want) = (bits(*got), bits(want));
                return Err(format!("element {k} is {got}, expected {want}"));
            }
        }
        for (k, got) in self.passes.inside().iter().enumerate() {
            let want = want.passes.get(k).copied().unwrap_or(PAINT_U8);
            trial::held(&format!("pass {k}"), *got, want)?;
        }
        self.out.outside_kept("the output")?;
        if self.passes.outside().any(|byte| *byte != PAINT_U8) {
            return Err("something is written outside the pass bytes".into());
        }
        self.corners.kept("the lent corners", &call.list.floats)
    }
}

impl Fallback {
    fn settings(&self) -> [port::Settings; 2] {
        [self.list.scene.settings, self.second]
    }

    fn for_oracle(&self) -> [Settings; 2] {
        self.settings().map(scene::for_oracle)
    }

    /// One of the two calls, on painted outputs.
    fn by(&self, call: impl Fn(&[f32], Retried<'_>) -> u32) -> Answer {
        let mut answer = Answer {
            number: 0,
            count: PAINT,
            corners: Lent::holding(&self.list.floats, PAINT_F),
            out: Lent::painted(self.list.out, PAINT_F),
            passes: Lent::painted(self.passes, PAINT_U8),
        };
        let to = Retried {
            out: answer.out.part(),
            passes: answer.passes.part(),
            count: &mut answer.count,
        };
        answer.number = call(answer.corners.inside(), to);
        answer
    }

    fn expected(&self) -> Expected {
        let [one, two] = self.for_oracle();
        let (view, floats) = (self.list.scene.view(), &self.list.floats);
        let (number, kept, passes) =
            calls::fallback_kept(view, [&one, &two], floats, self.list.out, self.passes);
        Expected {
            number,
            kept,
            passes,
        }
    }

    /// Further classes of a call that is done, and of one that is refused.
    fn classes(&self, want: &Expected) -> Vec<&'static str> {
        let [one, two] = self.for_oracle();
        let seeds = self.list.floats.len() / 3;
        let given = |pass: u8| want.passes.contains(&pass);
        let done = want.number == 0;
        let first_alone = rules::refine_list_refusal(self.list.scene.view(), &one, 0, 0).is_none();
        let mut corners = self.list.floats.chunks_exact(3);
        [
            (done && given(1) && given(2), "both passes"),
            (done && !given(1) && given(2), "the second alone"),
            (done && given(1) && one == two, "equal settings"),
            (done && seeds > 0 && one.radius == 0, "first radius 0"),
            (done && seeds > 0 && two.radius == 0, "second radius 0"),
            (done && seeds == rules::MOST, "4,096 seeds"),
            (
                done && self.list.out > self.list.floats.len(),
                "longer output",
            ),
            (done && self.passes > seeds, "more bytes"),
            (
                done && corners.any(|c| rules::bad_seed([c[0], c[1]])),
                "a seed that is no number",
            ),
            (
                want.number == rules::BAD_RADIUS && (0..=7).contains(&one.radius),
                "11 of the second",
            ),
            (
                want.number == rules::BAD_LIMIT && first_alone,
                "12 of the second",
            ),
            (
                want.number == rules::BAD_OUT && self.list.out >= self.list.floats.len(),
                "fewer bytes than seeds",
            ),
        ]
        .into_iter()
        .filter_map(|(met, class)| met.then_some(class))
        .collect()
    }
}

/// The columns of a radius, painted where it has none.
fn columns_of(radius: usize) -> [f32; port::COLUMNS] {
    let mut columns = [PAINT_F; port::COLUMNS];
    port::fit_operator(radius, &mut columns, &mut [0.0; port::OVERLAP]);
    columns
}

impl Display for Fallback {
    fn fmt(&self, f: &mut Formatter<'_>) -> fmt::Result {
        let s = self.second;
        writeln!(
            f,
            "  {} pass bytes; second radius {}, det_margin {}, max_offset {}, min_abs_det {}",
            self.passes,
            s.radius,
            bits(s.det_margin),
            bits(s.max_offset),
            bits(s.min_abs_det)
        )?;
        self.list.fmt(f)
    }
}

impl Trial for Fallback {
    const NAME: &'static str = "fallback";
    const CLASSES: &'static [&'static str] = &[
        "empty list",
        "none kept",
        "some kept",
        "all kept",
        "10",
        "26",
        "11",
        "12",
        "15",
        "16",
        "19",
        "both passes",
        "the second alone",
        "equal settings",
        "first radius 0",
        "second radius 0",
        "4,096 seeds",
        "longer output",
        "more bytes",
        "a seed that is no number",
        "11 of the second",
        "12 of the second",
        "fewer bytes than seeds",
    ];
    const SHARED: &'static [&'static str] = &picture::KINDS;
    type Left = Twice<Both>;

    fn exported(&self, name: &mut dyn FnMut(&'static str)) {
        let [own, lent] = match self.list.scene.image.deep {
            None => [
                "chess_corners_refine_list_fallback",
                "chess_corners_refine_list_fallback_with",
            ],
            Some(_) => [
                "chess_corners_refine_list_fallback_u16",
                "chess_corners_refine_list_fallback_with_u16",
            ],
        };
        name(own);
        name(lent);
    }

    fn by_port(&self) -> Self::Left {
        let both = self.settings();
        let [one, two] = both.map(|s| columns_of(s.radius));
        Twice::of(&self.list.scene.image, self.list.paint, |image| Both {
            own: self.by(|corners, to| port::fallback(image, both, corners, to)),
            lent: self
                .by(|corners, to| port::fallback_with(image, both, [&one, &two], corners, to)),
        })
    }

    fn judged(&self, left: &Self::Left) -> Result<Met, String> {
        let want = self.expected();
        let held = |both: &Both| {
            both.own.held(self, &want)?;
            let lent = both.lent.held(self, &want);
            lent.map_err(|how| format!("with lent operators: {how}"))
        };
        let same = |a: &Both, b: &Both| a.own.same_as(&b.own) && a.lent.same_as(&b.lent);
        left.held(held, same)?;
        let seeds = self.list.floats.len() / 3;
        let parts = if want.number == 0 { seeds as u64 } else { 0 };
        let met = Met::of(list::class_of(want.number, seeds, want.kept.len())).with_parts(parts);
        let met = picture::met(met, self.list.scene.view());
        Ok(self.classes(&want).into_iter().fold(met, Met::and))
    }

    fn size(&self) -> u64 {
        self.list.size() + self.passes as u64 + self.second.radius.min(1 << 20) as u64
    }

    fn simpler(&self) -> Vec<Self> {
        let with = |list: List| {
            let short = self.list.floats.len() / 3 > self.passes;
            Fallback {
                passes: list.floats.len() / 3 - usize::from(short && list.floats.len() > 2),
                list,
                ..self.clone()
            }
        };
        let mut out: Vec<Self> = self.list.simpler().into_iter().map(with).collect();
        let mut smaller = self.clone();
        smaller.second.radius = smaller.second.radius.saturating_sub(1);
        out.push(smaller);
        out
    }
}

impl OfImage for Fallback {
    fn image(&self) -> &Image {
        self.list.image()
    }

    fn with_image(&self, image: Image) -> Self {
        Fallback {
            list: self.list.with_image(image),
            ..self.clone()
        }
    }
}

/// The seeds of a board, far from and near its rim, with a wide patch first and
/// a small one then.
fn usual(random: &mut Random, count: Option<usize>) -> Fallback {
    let (board, corners) = known::board(random);
    let mut list = list::usual(board);
    let count = count.unwrap_or(corners.len());
    let seeds = corners.iter().cycle().take(count);
    list.floats = seeds.copied().collect::<Vec<_>>().concat();
    list.out = list.floats.len();
    let second = list.scene.settings;
    list.scene.settings.radius = 6;
    Fallback {
        passes: count,
        second: port::Settings {
            radius: 1,
            ..second
        },
        list,
    }
}

/// A pitch of every class, with the seeds of a board.
pub fn pitches(tally: &mut Tally, random: &mut Random) -> bool {
    let call = usual(random, None);
    picture::pitches(tally, random, &call)
}

/// As many seeds as a list may hold, and one more, on boards; then each test of
/// the second settings alone, and too few bytes.
pub fn longest(tally: &mut Tally, random: &mut Random) -> bool {
    let long = [0, rules::MOST, rules::MOST + 1].map(|count| usual(random, Some(count)));
    let mut odd = [(); 5].map(|()| usual(random, None));
    odd[0].second.radius = 8;
    odd[1].second.max_offset = f32::NAN;
    odd[2].passes -= 1;
    odd[3].second.radius = 0;
    odd[4].list.scene.settings.radius = 0;
    long.iter().chain(&odd).all(|call| tally.tried(call))
}

/// A list about the borders of the rules, and second settings beside its own.
pub fn any(random: &mut Random) -> Fallback {
    let list = list::any(random);
    of(random, list)
}

/// The same of a few seeds.
pub fn brief(random: &mut Random) -> Fallback {
    let list = list::brief(random);
    of(random, list)
}

/// The same of a list.
fn of(random: &mut Random, list: List) -> Fallback {
    let seeds = list.floats.len() / 3;
    let second = match random.below(8) {
        0 => list.scene.settings,
        1..=4 => port::Settings {
            radius: random.pick(&[0, 1, 1, 2, 2, 3, 5, 7]),
            ..list.scene.settings
        },
        _ => scene::any(random).settings,
    };
    let mut passes = seeds + random.pick(&[0, 0, 0, 1, 2, 40]);
    if random.once_in(40) {
        passes = seeds.saturating_sub(1 + random.below(3));
    }
    Fallback {
        list,
        second,
        passes,
    }
}

/// The driver notices each fault of an answer.
pub fn faults_noticed() -> Result<(), String> {
    let mut written = usual(&mut Random::of(1, "faults"), None);
    written.list.floats.extend([-5.0, -5.0, 1.0]);
    written.list.floats.extend([5.0, f32::INFINITY, 1.0]);
    written.list.out = written.list.floats.len() + 1;
    written.passes += 3;
    let mut refused = written.clone();
    refused.list.floats.push(1.0);
    let padded = picture::faults_noticed(&written, |l| {
        flip(&mut l.again.as_mut().expect("padding").own.out.part()[0]);
    })?;
    trial::faults_noticed(
        &[written, refused, padded],
        &[
            ("number", |l| l.first.own.number ^= 1),
            ("count", |l| l.first.own.count ^= 1),
            ("x", |l| flip(&mut l.first.own.out.part()[0])),
            ("a strength", |l| flip(&mut l.first.own.out.part()[2])),
            ("a pass", |l| l.first.own.passes.part()[0] ^= 3),
            ("past the passes", |l| {
                *l.first.own.passes.part().last_mut().expect("some") = 1;
            }),
            ("past the records", |l| {
                *l.first.own.out.part().last_mut().expect("some") = 0.0;
            }),
            ("outside the output", |l| l.first.own.out.spoil()[0] = 0.0),
            ("outside the passes", |l| l.first.own.passes.spoil()[0] = 1),
            ("the lent corners", |l| {
                flip(&mut l.first.own.corners.part()[0])
            }),
            ("number, operators lent", |l| l.first.lent.number ^= 1),
            ("x, operators lent", |l| {
                flip(&mut l.first.lent.out.part()[0])
            }),
            ("a pass, operators lent", |l| {
                l.first.lent.passes.part()[0] ^= 3;
            }),
        ],
    )
}
