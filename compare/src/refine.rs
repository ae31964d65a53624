//! `chess_corners_refine` and `chess_corners_refine_with` against
//! `SaddlePointRefiner::refine`, its counted mirror and document 01.

use crate::picture::{self, OfImage, Twice};
use crate::port;
use crate::scene::{self, Scene};
use crate::trial::{self, alike, bits, flip, Lent, Met, Tally, Trial, PAINT_F};
use oracle::lists::{lent, refine as known};
use oracle::random::Random;
use oracle::types::{Image, LentOperator, Refined, Run};
use oracle::{calls, padding, pictures, rules};
use std::fmt::{self, Display, Formatter};
use std::rc::Rc;

const PAINT_U: u32 = 0xA5A5_5A5A;

/// Seeds of one scene.
const SEEDS: u32 = 48;

#[derive(Clone)]
pub struct Refine {
    scene: Scene,
    /// The padding of each call.
    paint: u64,
    seed: [f32; 2],
    wanted: u32,
    /// Also by the call that builds its own operator.
    both: bool,
    /// What the lent operator holds, where that is not the one of the radius.
    lent: Option<Rc<LentOperator>>,
}

/// All that a call leaves.
#[derive(Clone)]
pub struct Answer {
    number: u32,
    place: Lent<f32>,
    state: Lent<u32>,
    covariance: Lent<f32>,
}

impl Answer {
    fn same_as(&self, other: &Answer) -> bool {
        let same = |a: &Lent<f32>, b: &Lent<f32>| {
            let bits = |f: &f32| f.to_bits();
            a.inside().iter().map(bits).eq(b.inside().iter().map(bits))
        };
        self.number == other.number
            && same(&self.place, &other.place)
            && self.state.inside() == other.state.inside()
            && same(&self.covariance, &other.covariance)
    }
}

/// What the call with a lent operator leaves, whether that operator is as before, and
/// what the call that builds its own leaves.
#[derive(Clone)]
pub struct Left {
    with: Twice<Answer>,
    operator_kept: bool,
    built: Option<Answer>,
}

/// The operator of a radius, lent to many calls. What the radius does not use
/// is NaN, all of it where there is no operator.
struct Operator {
    columns: [f32; port::COLUMNS],
    overlap: [f32; port::OVERLAP],
}

impl Operator {
    fn of(radius: usize) -> Self {
        let mut op = Operator {
            columns: [f32::NAN; port::COLUMNS],
            overlap: [f32::NAN; port::OVERLAP],
        };
        port::fit_operator(radius, &mut op.columns, &mut op.overlap);
        op
    }
}

impl Operator {
    /// What is lent: the one of the radius, or of these contents.
    fn lent(contents: Option<&LentOperator>, radius: usize) -> Rc<Self> {
        match contents {
            None => OPERATORS.with(|all| all[radius.min(8)].clone()),
            Some(op) => Rc::new(Operator {
                columns: op.columns,
                overlap: op.overlap,
            }),
        }
    }

    /// Whether these are its contents still, bit for bit.
    fn holds(&self, op: &LentOperator) -> bool {
        let same = |a: &[f32], b: &[f32]| a.iter().zip(b).all(|(a, b)| a.to_bits() == b.to_bits());
        same(&self.columns, &op.columns) && same(&self.overlap, &op.overlap)
    }
}

thread_local! {
    /// The operators of the radii 0 to 8; there is none of 0 and 8.
    static OPERATORS: Vec<Rc<Operator>> = (0..=8).map(|r| Rc::new(Operator::of(r))).collect();
}

/// Whether the lent operators are still as they were built.
pub fn operators_kept() -> bool {
    OPERATORS.with(|all| {
        all.iter().enumerate().all(|(radius, op)| {
            let fresh = Operator::of(radius);
            let same = |a: &[f32], b: &[f32]| a.iter().zip(b).all(|(a, b)| alike(*a, *b));
            same(&op.columns, &fresh.columns) && same(&op.overlap, &fresh.overlap)
        })
    })
}

impl Refine {
    fn asked(&self, call: impl FnOnce(port::Answer<'_>) -> u32) -> Answer {
        let mut answer = Answer {
            number: 0,
            place: Lent::painted(3, PAINT_F),
            state: Lent::painted(3, PAINT_U),
            covariance: Lent::painted(3, PAINT_F),
        };
        answer.number = call(port::Answer {
            place: answer.place.array(),
            state: answer.state.array(),
            covariance: answer.covariance.array(),
        });
        answer
    }

    /// How an answer parts from what is expected.
    fn held(&self, got: &Answer, want: &Refined, run: &Run) -> Result<(), String> {
        trial::held("number", got.number, want.status)?;
        let mut place = [PAINT_F; 3];
        let mut state = [PAINT_U; 3];
        let mut covariance = [PAINT_F; 3];
        if want.status == 0 {
            let given = want.covariance.is_some();
            place = [want.x, want.y, want.score];
            state = [u32::from(want.converged), run.tries, u32::from(given)];
            covariance = want.covariance.unwrap_or(covariance);
        } else if want.status < 10 {
            place = [self.seed[0], self.seed[1], want.score];
        }
        for k in 0..3 {
            // Only a value that is worked out may be another NaN.
            let copied = want.status >= 10 || (want.status > 0 && k < 2);
            let (a, b) = (got.place.inside()[k], place[k]);
            if !(a.to_bits() == b.to_bits() || (!copied && alike(a, b))) {
                let name = ["x", "y", "score"][k];
                return Err(format!("{name} is {}, expected {}", bits(a), bits(b)));
            }
            let name = ["converged", "tries", "covariance given"][k];
            trial::held(name, got.state.inside()[k], state[k])?;
            let (a, b) = (got.covariance.inside()[k], covariance[k]);
            if !alike(a, b) {
                let name = ["xx", "xy", "yy"][k];
                return Err(format!("{name} is {}, expected {}", bits(a), bits(b)));
            }
        }
        got.place.outside_kept("the place")?;
        got.covariance.outside_kept("the covariance")?;
        let kept = got.state.outside().all(|u| *u == PAINT_U);
        trial::held("the state's surroundings kept:", kept, true)
    }

    fn classes(&self, want: &Refined, run: &Run) -> Met {
        let met = Met::of(match (want.status, want.converged) {
            (0, true) => "0, converged",
            (0, false) if run.steps == 16 => "0, not converged in 16 steps",
            (0, false) if run.stuck => "0, not converged, no window taken",
            (0, false) => "0, not converged, singular",
            (1, _) => "1",
            (2, _) => "2",
            (3, _) => "3",
            (rules::BAD_SEED, _) => self.bad_seed_class(),
            (rules::ABOVE_MARGIN, _) if self.small(want.score) => "5 before 6",
            (rules::ABOVE_MARGIN, _) => "5",
            (rules::TOO_SMALL, _) => "6",
            (rules::NOT_FINITE, _) => "7",
            (10, _) => "10",
            (26, _) => "26",
            (11, _) => "11",
            _ => "12",
        });
        let met = picture::met(met, self.scene.view());
        let met = match self.seed_class() {
            Some(class) => met.and(class),
            None => met,
        };
        let met = match (self.both, &self.lent) {
            (true, _) => met.and("both calls"),
            (_, Some(_)) => met.and("an operator of any content"),
            _ => met,
        };
        if want.status >= 10 {
            return match rules::bad_seed(self.seed) {
                true => met.and("10 to 12 before 4"),
                false => met,
            };
        }
        let met = met.and(RADII[self.scene.settings.radius]);
        if want.status > 0 {
            return met;
        }
        let met = met.and(match (self.wanted, want.covariance) {
            (0, _) => "covariance not asked for",
            (_, Some(_)) => "covariance",
            (_, None) if want.converged => "covariance not finite",
            (_, None) => "covariance asked for, not converged",
        });
        let met = met.and(match run.tries {
            0 => "no window: settled at the start",
            1 => "1 window",
            2..=4 => "2 to 4 windows",
            5..=16 => "5 to 16 windows",
            17..=40 => "17 to 40 windows",
            41..=63 => "41 to 63 windows",
            _ => "64 windows",
        });
        if run.far > 0 {
            met.and("a window beyond 32 bits")
        } else if run.reach >= 8192.0 {
            met.and("a window beyond 8,192 pixels")
        } else if run.fresh_slope {
            met.and("slope by fresh fits")
        } else if run.fits > 9 {
            met.and("more than nine fits")
        } else {
            met
        }
    }

    /// A determinant that the test of 6 refuses too.
    fn small(&self, det: f32) -> bool {
        det.abs() < self.scene.settings.min_abs_det
    }

    fn bad_seed_class(&self) -> &'static str {
        let nan = self.seed.iter().any(|v| v.is_nan());
        match (nan, self.scene.settings.radius) {
            (true, 0) => "4, NaN at radius 0",
            (true, _) => "4, NaN",
            (false, 0) => "4, infinite at radius 0",
            (false, _) => "4, infinite",
        }
    }

    fn seed_class(&self) -> Option<&'static str> {
        let any = |test: fn(f32) -> bool| self.seed.iter().any(|v| test(*v));
        if any(f32::is_nan) {
            Some("seed NaN")
        } else if any(f32::is_infinite) {
            Some("seed infinite")
        } else if any(|v| v.abs() >= 2_147_483_648.0) {
            Some("seed beyond 32 bits")
        } else if any(|v| v.abs() > 4096.0) {
            Some("seed far")
        } else if any(|v| v.fract().abs() == 0.5) {
            Some("seed half-way")
        } else {
            None
        }
    }
}

const RADII: [&str; 8] = [
    "radius 0", "radius 1", "radius 2", "radius 3", "radius 4", "radius 5", "radius 6", "radius 7",
];

impl Display for Refine {
    fn fmt(&self, f: &mut Formatter<'_>) -> fmt::Result {
        writeln!(
            f,
            "  seed {}, {}, wanted {}",
            bits(self.seed[0]),
            bits(self.seed[1]),
            self.wanted
        )?;
        if let Some(op) = &self.lent {
            writeln!(f, "  a lent operator, columns and overlaps:")?;
            f.write_str(&trial::record_lines(&op.columns, 5))?;
            f.write_str(&trial::record_lines(&op.overlap, 5))?;
        }
        self.scene.fmt(f)
    }
}

impl Trial for Refine {
    const NAME: &'static str = "refine";
    const CLASSES: &'static [&'static str] = &[
        "0, converged",
        "0, not converged in 16 steps",
        "0, not converged, no window taken",
        "0, not converged, singular",
        "1",
        "2",
        "3",
        "4, NaN",
        "4, NaN at radius 0",
        "4, infinite",
        "4, infinite at radius 0",
        "10 to 12 before 4",
        "5",
        "5 before 6",
        "6",
        "7",
        "10",
        "26",
        "11",
        "12",
        "seed NaN",
        "seed infinite",
        "seed beyond 32 bits",
        "seed far",
        "seed half-way",
        "both calls",
        "an operator of any content",
        "radius 0",
        "radius 1",
        "radius 2",
        "radius 3",
        "radius 4",
        "radius 5",
        "radius 6",
        "radius 7",
        "covariance not asked for",
        "covariance",
        "covariance asked for, not converged",
        "covariance not finite",
        "no window: settled at the start",
        "1 window",
        "2 to 4 windows",
        "5 to 16 windows",
        "17 to 40 windows",
        "41 to 63 windows",
        "64 windows",
        "a window beyond 8,192 pixels",
        "a window beyond 32 bits",
        "slope by fresh fits",
        "more than nine fits",
    ];
    const SHARED: &'static [&'static str] = &picture::KINDS;
    type Left = Left;

    fn exported(&self, name: &mut dyn FnMut(&'static str)) {
        let [with, built] = match self.scene.image.deep {
            None => ["chess_corners_refine_with", "chess_corners_refine"],
            Some(_) => ["chess_corners_refine_with_u16", "chess_corners_refine_u16"],
        };
        name(with);
        if self.both {
            name(built);
        }
    }

    fn by_port(&self) -> Left {
        let (image, s) = (&self.scene.image, self.scene.settings);
        let operator = Operator::lent(self.lent.as_deref(), s.radius);
        let Operator { columns, overlap } = &*operator;
        let with = Twice::of(image, self.paint, |image| {
            self.asked(|answer| {
                port::refine_with(image, s, self.seed, self.wanted, columns, overlap, answer)
            })
        });
        let operator_kept = match self.lent.as_deref() {
            Some(before) => operator.holds(before),
            None => true,
        };
        let alone = |image: port::Image<'_>| {
            self.asked(|answer| port::refine(image, s, self.seed, self.wanted, answer))
        };
        let other = self.paint.rotate_left(32);
        let built = self.both.then(|| picture::painted(image, other, alone));
        Left {
            with,
            operator_kept,
            built,
        }
    }

    fn judged(&self, left: &Left) -> Result<Met, String> {
        let s = self.scene.for_oracle();
        let asked = self.wanted != 0;
        let (want, run) = match &self.lent {
            None => calls::refine_kept(self.scene.view(), &s, self.seed, asked),
            Some(op) => calls::refine_lent_kept(self.scene.view(), &s, op, self.seed, asked),
        };
        trial::held("the lent operator kept:", left.operator_kept, true)?;
        let held = |answer: &Answer| self.held(answer, &want, &run);
        left.with.held(held, Answer::same_as)?;
        if let Some(built) = &left.built {
            held(built).map_err(|how| format!("with its own operator: {how}"))?;
            if !left.with.first.same_as(built) {
                return Err("the two calls part".into());
            }
        }
        Ok(self.classes(&want, &run))
    }

    fn size(&self) -> u64 {
        let odd = self.seed.iter().filter(|v| v.fract() != 0.0).count() as u64;
        self.scene.size() + odd + u64::from(self.both) + u64::from(self.wanted.min(2))
    }

    fn simpler(&self) -> Vec<Self> {
        let mut out = vec![
            Refine {
                both: false,
                ..self.clone()
            },
            Refine {
                wanted: 0,
                ..self.clone()
            },
            Refine {
                wanted: 1,
                ..self.clone()
            },
            Refine {
                seed: self.seed.map(f32::round),
                ..self.clone()
            },
        ];
        for (scene, moved) in self.scene.simpler() {
            out.push(Refine {
                scene,
                seed: [self.seed[0] - moved[0], self.seed[1] - moved[1]],
                ..self.clone()
            });
        }
        out
    }
}

impl OfImage for Refine {
    fn image(&self) -> &Image {
        &self.scene.image
    }

    fn with_image(&self, image: Image) -> Self {
        let mut other = self.clone();
        other.scene.image = Rc::new(image);
        other
    }
}

/// A seed on an image, with settings that let everything through.
fn through(image: Image, radius: usize, seed: [f32; 2]) -> Refine {
    Refine {
        scene: Scene {
            image: Rc::new(image),
            settings: port::Settings {
                radius,
                det_margin: 0.0,
                max_offset: 1e30,
                min_abs_det: 0.0,
            },
        },
        paint: 0,
        seed,
        wanted: 1,
        both: true,
        lent: None,
    }
}

/// A pitch of every class.
pub fn pitches(tally: &mut Tally, random: &mut Random) -> bool {
    let seed = through(known::plain_corner(), 2, [6.0, 6.0]);
    picture::pitches(tally, random, &seed)
}

/// Rare runs that a search of the oracle met: 64 windows, windows hundreds of
/// millions of pixels away, steps that stop; and with lent operators a window beyond
/// 32 bits and a covariance that is not finite.
pub fn rare(tally: &mut Tally) -> bool {
    let mut met = known::met();
    let (stuck, at) = known::stuck_corner();
    met.push((stuck, 2, at));
    let own = met
        .into_iter()
        .map(|(image, radius, seed)| through(image, radius as usize, seed));
    own.chain(rare_lent()).all(|run| tally.tried(&run))
}

/// Those with lent operators.
fn rare_lent() -> impl Iterator<Item = Refine> {
    lent::met().into_iter().map(|run| Refine {
        both: false,
        lent: Some(Rc::new(run.operator)),
        ..through(run.image, run.settings.radius as usize, run.seed)
    })
}

/// A scene for some seeds: the operator of its radius and the image are made
/// once.
pub struct Scenes {
    scene: Scene,
    lent: Option<Rc<LentOperator>>,
    left: u32,
}

impl Scenes {
    /// In one of four an operator of any content is lent; now and then one of the
    /// rare runs', with the image of that run.
    pub fn new(random: &mut Random) -> Self {
        let mut scene = scene::any(random);
        let lent = match random.below(64) {
            0 => {
                let rare = random.pick(&[0, 1]);
                let run = rare_lent().nth(rare).expect("two of them");
                scene.image = run.scene.image;
                scene.settings.radius = run.scene.settings.radius;
                run.lent
            }
            1..=15 => {
                let radius = scene.settings.radius.min(8) as i32;
                Some(Rc::new(lent::any_operator(random, radius)))
            }
            _ => None,
        };
        Scenes {
            scene,
            lent,
            left: SEEDS,
        }
    }

    /// A seed on the present scene, or the first on the next one.
    pub fn any(&mut self, random: &mut Random) -> Refine {
        if self.left == 0 {
            *self = Scenes::new(random);
        }
        self.left -= 1;
        Refine {
            seed: scene::any_seed(random, &self.scene),
            paint: random.word64(),
            wanted: random.pick(&[0, 1, 1, 1, 2, 1 << 31, u32::MAX]),
            both: self.left == 0 && self.lent.is_none(),
            lent: self.lent.clone(),
            scene: self.scene.clone(),
        }
    }

    /// The same also by the call that builds its own operator.
    pub fn both(&mut self, random: &mut Random) -> Refine {
        Refine {
            both: true,
            lent: None,
            ..self.any(random)
        }
    }
}

/// The driver notices each fault of an answer.
pub fn faults_noticed() -> Result<(), String> {
    let accepted = through(known::plain_corner(), 2, [6.0, 6.0]);
    let no_number = Refine {
        seed: [f32::from_bits(0xFFC0_1234), 6.0],
        ..accepted.clone()
    };
    let outside = Refine {
        seed: [-9.0, 6.0],
        ..accepted.clone()
    };
    let flat = through(pictures::flat(9, 9, 7), 2, [4.0, 4.0]);
    let no_operator = through(pictures::flat(9, 9, 7), 0, [4.0, 4.0]);
    let mut small = accepted.clone();
    small.scene.settings.min_abs_det = f32::MAX;
    let mut above = small.clone();
    above.scene.settings.det_margin = f32::MAX;
    let mut refused = accepted.clone();
    refused.scene.settings.max_offset = -1.0;
    let mut rejected = accepted.clone();
    rejected.scene.settings.max_offset = 0.0;
    let padded = picture::faults_noticed(&accepted, |l| {
        let again = l.with.again.as_mut().expect("padding");
        flip(&mut again.place.part()[0]);
    })?;
    trial::faults_noticed(
        &[
            padded,
            accepted,
            no_number,
            outside,
            flat,
            no_operator,
            small,
            above,
            refused,
            rejected,
        ],
        &[
            ("number", |l| l.with.first.number ^= 1),
            ("x", |l| flip(&mut l.with.first.place.part()[0])),
            ("y", |l| flip(&mut l.with.first.place.part()[1])),
            ("score", |l| flip(&mut l.with.first.place.part()[2])),
            ("converged", |l| l.with.first.state.part()[0] ^= 1),
            ("tries", |l| l.with.first.state.part()[1] ^= 1),
            ("covariance given", |l| l.with.first.state.part()[2] ^= 1),
            ("xx", |l| flip(&mut l.with.first.covariance.part()[0])),
            ("xy", |l| flip(&mut l.with.first.covariance.part()[1])),
            ("yy", |l| flip(&mut l.with.first.covariance.part()[2])),
            ("a lent operator", |l| l.operator_kept = false),
            ("outside the place", |l| l.with.first.place.spoil()[3] = 0.0),
            ("outside the state", |l| l.with.first.state.spoil()[3] = 0),
            ("outside the covariance", |l| {
                l.with.first.covariance.spoil()[3] = 0.0
            }),
            ("the other call", |l| {
                l.built.as_mut().expect("both are called").number ^= 1;
            }),
        ],
    )
}
