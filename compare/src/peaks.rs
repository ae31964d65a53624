//! `chess_corners_peaks` against document 01's window rule, and against
//! `detect_peaks_from_response_with_refine_radius` where that has no other one.

use crate::port;
use crate::trial::{self, bits, flip, oddness, Lent, Met, Tally, Trial, PAINT, PAINT_F, PLAIN};
use oracle::calls;
use oracle::random::Random;
use oracle::rules;
use oracle::rust_or_rule::Decided;
use oracle::types::{PeakSettings, Triple};
use std::fmt::{self, Display, Formatter};

#[derive(Clone)]
pub struct Peaks {
    width: usize,
    height: usize,
    response: Vec<f32>,
    settings: port::PeakSettings,
    out: usize,
}

/// All that the call leaves.
#[derive(Clone)]
pub struct Left {
    number: u32,
    count: usize,
    response: Lent<f32>,
    out: Lent<f32>,
}

/// What a response has inside its border.
#[derive(Default)]
struct Seen {
    nan: bool,
    nan_in_window: bool,
    /// Values that no other of their window exceeds, with equal ones in it: the
    /// first is a peak, a later one is none, also where the earlier lies outside
    /// the border, and a NaN leaves none.
    first_of_equal: bool,
    later_of_equal: bool,
    later_of_outside: bool,
    equal_with_nan: bool,
    /// The Rust's window rule may give another answer.
    apart: bool,
    infinite: bool,
    minus_zero: bool,
    /// A value at the threshold, or above it and not above 0, that beats its
    /// window.
    at_threshold: bool,
    held_by_zero: bool,
    few: bool,
    just_enough: bool,
}

impl Peaks {
    /// All radii above the limits are refused.
    fn for_oracle(&self) -> PeakSettings {
        let s = self.settings;
        let cut = |radius| i32::try_from(radius).unwrap_or(i32::MAX);
        PeakSettings {
            threshold: s.threshold,
            ring_radius: cut(s.ring_radius),
            window_radius: cut(s.window_radius),
            refiner_radius: cut(s.refine_radius),
            min_cluster_size: s.min_cluster_size,
        }
    }

    fn border(&self) -> usize {
        let s = self.settings;
        s.ring_radius + s.window_radius + s.refine_radius
    }

    fn narrow(&self) -> bool {
        self.width.min(self.height) <= 2 * self.border()
    }

    /// The other values of the window of a pixel inside the border, each with
    /// its place by row.
    fn others(&self, x: usize, y: usize) -> impl Iterator<Item = ((usize, usize), f32)> + '_ {
        let n = self.settings.window_radius;
        let rows = y - n..=y + n;
        rows.flat_map(move |yy| (x - n..=x + n).map(move |xx| (yy, xx)))
            .filter(move |place| *place != (y, x))
            .map(|place| (place, self.response[place.0 * self.width + place.1]))
    }

    fn inside(&self, (y, x): (usize, usize)) -> bool {
        let b = self.border();
        (b..self.height - b).contains(&y) && (b..self.width - b).contains(&x)
    }

    /// Looks at every pixel inside the border of a call that is not refused.
    fn seen(&self) -> Seen {
        let mut seen = Seen::default();
        if self.narrow() {
            return seen;
        }
        let s = self.settings;
        let b = self.border();
        for y in b..self.height - b {
            for x in b..self.width - b {
                let v = self.response[y * self.width + x];
                seen.nan |= v.is_nan();
                seen.apart |= v.is_nan();
                seen.minus_zero |= v.to_bits() == 0x8000_0000;
                if v >= s.threshold.min(0.0) {
                    self.seen_at(x, y, v, &mut seen);
                }
            }
        }
        seen
    }

    fn seen_at(&self, x: usize, y: usize, v: f32, seen: &mut Seen) {
        let s = self.settings;
        let (mut nans, mut earlier, mut outside, mut later, mut positive) = (0, 0, 0, 0, 0);
        for (place, w) in self.others(x, y) {
            if w > v {
                return;
            }
            nans += u32::from(w.is_nan());
            let before = w == v && place < (y, x);
            earlier += u32::from(before);
            outside += u32::from(before && !self.inside(place));
            later += u32::from(w == v && place > (y, x));
            positive += u32::from(w > 0.0);
        }
        let above = v > s.threshold.max(0.0);
        seen.apart |= above && nans + earlier > 0;
        seen.nan_in_window |= above && nans > 0 && earlier + later == 0;
        seen.equal_with_nan |= above && nans > 0 && earlier + later > 0;
        seen.later_of_equal |= above && earlier > 0 && nans == 0;
        seen.later_of_outside |= above && earlier > 0 && earlier == outside && nans == 0;
        if nans + earlier > 0 {
            return;
        }
        seen.first_of_equal |= above && later > 0 && positive >= s.min_cluster_size;
        seen.at_threshold |= v == s.threshold && v > 0.0;
        seen.held_by_zero |= v > s.threshold && v <= 0.0;
        seen.infinite |= above && v.is_infinite();
        seen.few |= above && positive < s.min_cluster_size;
        seen.just_enough |= above && positive > 0 && positive == s.min_cluster_size;
    }

    /// The number and the peaks that are expected.
    fn expected(&self) -> (u32, Vec<Triple>, Decided) {
        let s = self.for_oracle();
        let (w, h) = (self.width as u64, self.height as u64);
        // Nothing more is expected of a refusal, and the Rust is not run.
        if let Some(number) = rules::peaks_refusal(w, h, &self.response, &s, self.out) {
            return (number, Vec::new(), Decided::NotRun);
        }
        let (decision, peaks) = calls::peaks(w, h, &self.response, &s, self.out);
        (decision.number, peaks, decision.decided)
    }

    fn classes(&self, number: u32, found: usize, decided: Decided, seen: &Seen) -> Met {
        let s = self.settings;
        let mut met = Met::of(match number {
            0 if self.narrow() => "narrower than the border",
            0 if found == 0 => "no peak",
            0 if 3 * found == self.out => "full output",
            0 => "some peaks",
            rules::BAD_IMAGE => "10",
            rules::BAD_RADIUS => "11",
            rules::BAD_LIMIT => "12",
            rules::BAD_LENGTH => "19",
            _ => "16",
        });
        if number != 0 && number != rules::TOO_MANY {
            return met;
        }
        if number == rules::TOO_MANY && self.held_by(self.out + 3) {
            met = met.and("16, one too few");
        }
        if decided == Decided::ByRust && found > 0 {
            met = met.and("the Rust's answer, with peaks");
        }
        for (class, is_so) in [
            ("not the Rust's answer", decided == Decided::OtherRule),
            ("threshold below zero", s.threshold < 0.0),
            ("threshold -0.0", s.threshold.to_bits() == 0x8000_0000),
            ("4,096 wide", self.width == 4096),
            ("NaN inside", seen.nan),
            ("NaN in a window", seen.nan_in_window),
            ("tie, the first a peak", seen.first_of_equal),
            ("tie, not the first", seen.later_of_equal),
            ("tie, the first outside the border", seen.later_of_outside),
            ("tie and NaN in a window", seen.equal_with_nan),
            ("infinite peak", seen.infinite),
            ("-0.0 inside", seen.minus_zero),
            ("at the threshold", seen.at_threshold),
            ("above the threshold, not above 0", seen.held_by_zero),
            ("cluster too small", seen.few),
            ("cluster just enough", seen.just_enough),
        ] {
            if is_so {
                met = met.and(class);
            }
        }
        met.and(WINDOWS[s.window_radius - 1])
    }

    /// Whether so many floats would hold the peaks.
    fn held_by(&self, out: usize) -> bool {
        3 * self.count() <= out
    }

    /// The peaks of a call that is not refused.
    fn count(&self) -> usize {
        let s = self.for_oracle();
        rules::peaks(self.width, self.height, &self.response, &s).len()
    }
}

const WINDOWS: [&str; 8] = [
    "window 1", "window 2", "window 3", "window 4", "window 5", "window 6", "window 7", "window 8",
];

impl Display for Peaks {
    fn fmt(&self, f: &mut Formatter<'_>) -> fmt::Result {
        let s = self.settings;
        writeln!(
            f,
            "  width {}, height {}, {} values, radii {} (ring), {} (window), {} (refiner), threshold {}, cluster {}, {} floats lent",
            self.width,
            self.height,
            self.response.len(),
            s.ring_radius,
            s.window_radius,
            s.refine_radius,
            bits(s.threshold),
            s.min_cluster_size,
            self.out
        )?;
        for row in self.response.chunks(self.width.clamp(1, 64)) {
            let words: Vec<String> = row.iter().map(|v| bits(*v)).collect();
            writeln!(f, "  {}", words.join(" "))?;
        }
        Ok(())
    }
}

impl Trial for Peaks {
    const NAME: &'static str = "peaks";
    const CLASSES: &'static [&'static str] = &[
        "10",
        "11",
        "12",
        "19",
        "16",
        "16, one too few",
        "narrower than the border",
        "no peak",
        "some peaks",
        "full output",
        "the Rust's answer, with peaks",
        "not the Rust's answer",
        "threshold below zero",
        "threshold -0.0",
        "4,096 wide",
        "NaN inside",
        "NaN in a window",
        "tie, the first a peak",
        "tie, not the first",
        "tie, the first outside the border",
        "tie and NaN in a window",
        "infinite peak",
        "-0.0 inside",
        "at the threshold",
        "above the threshold, not above 0",
        "cluster too small",
        "cluster just enough",
        "window 1",
        "window 2",
        "window 3",
        "window 4",
        "window 5",
        "window 6",
        "window 7",
        "window 8",
    ];
    type Left = Left;

    fn exported(&self, name: &mut dyn FnMut(&'static str)) {
        name("chess_corners_peaks");
    }

    fn by_port(&self) -> Left {
        let mut left = Left {
            number: 0,
            count: PAINT,
            response: Lent::holding(&self.response, PAINT_F),
            out: Lent::painted(self.out, PAINT_F),
        };
        left.number = port::peaks(
            left.response.inside(),
            [self.width, self.height],
            self.settings,
            left.out.part(),
            &mut left.count,
        );
        left
    }

    fn judged(&self, left: &Left) -> Result<Met, String> {
        let (number, peaks, decided) = self.expected();
        let count = if number == 0 { peaks.len() } else { PAINT };
        trial::held("number", left.number, number)?;
        trial::held("count", left.count, count)?;
        let written = peaks.concat();
        for (k, got) in left.out.inside().iter().enumerate() {
            // A value is copied, and what lies past the records is kept.
            let want = written.get(k).copied().unwrap_or(PAINT_F);
            if got.to_bits() != want.to_bits() {
                let (got, want) = (bits(*got), bits(want));
                return Err(format!("element {k} is {got}, expected {want}"));
            }
        }
        left.out.outside_kept("the output")?;
        left.response.kept("the lent response", &self.response)?;
        let seen = match number {
            0 | rules::TOO_MANY => self.seen(),
            _ => Seen::default(),
        };
        if number == 0 && !seen.apart && decided != Decided::ByRust {
            return Err("the Rust answers otherwise without an earlier equal or a NaN".into());
        }
        Ok(self.classes(number, peaks.len(), decided, &seen))
    }

    fn size(&self) -> u64 {
        let s = self.settings;
        let odd: u64 = self.response.iter().map(|v| oddness(*v)).sum();
        let settings = [s.ring_radius, s.window_radius, s.refine_radius, self.out];
        let settings: u64 = settings.iter().map(|n| (*n).min(1 << 20) as u64).sum();
        100_000 * self.response.len() as u64
            + 100 * odd
            + settings
            + oddness(s.threshold)
            + u64::from(s.min_cluster_size.min(1000))
    }

    fn simpler(&self) -> Vec<Self> {
        let mut out = Vec::new();
        for part in trial::crops(&self.response, self.width, self.height) {
            out.push(Peaks {
                width: part.width,
                height: part.height,
                response: part.values,
                ..self.clone()
            });
        }
        let mut other = |change: &dyn Fn(&mut Peaks)| {
            let mut less = self.clone();
            change(&mut less);
            out.push(less);
        };
        other(&|p| p.settings.ring_radius = p.settings.ring_radius.saturating_sub(1));
        other(&|p| p.settings.window_radius = p.settings.window_radius.saturating_sub(1));
        other(&|p| p.settings.refine_radius = p.settings.refine_radius.saturating_sub(1));
        other(&|p| p.settings.threshold = 0.0);
        other(&|p| p.settings.min_cluster_size = 0);
        other(&|p| p.settings.min_cluster_size = p.settings.min_cluster_size.saturating_sub(1));
        other(&|p| p.out = p.out.saturating_sub(3));
        for value in PLAIN {
            for k in 0..self.response.len().min(1000) {
                other(&|p| p.response[k] = value);
            }
        }
        out
    }
}

const LEAST: port::PeakSettings = port::PeakSettings {
    ring_radius: 1,
    window_radius: 1,
    refine_radius: 0,
    threshold: 0.0,
    min_cluster_size: 0,
};

/// All ways to fill a block in the middle of a response with some values, at
/// the least radii; what lies around is NaN and outside every window.
fn every(tally: &mut Tally, block: [usize; 2], values: &[f32], cluster: u32) -> bool {
    let [across, down] = block;
    let mut case = Peaks {
        width: across + 2,
        height: down + 2,
        response: vec![f32::NAN; (across + 2) * (down + 2)],
        settings: port::PeakSettings {
            min_cluster_size: cluster,
            ..LEAST
        },
        out: 6,
    };
    let mut chosen = vec![0; across * down];
    loop {
        for (k, which) in chosen.iter().enumerate() {
            case.response[(1 + k / across) * (across + 2) + 1 + k % across] = values[*which];
        }
        if !tally.tried(&case) {
            return false;
        }
        // The next one, counted in digits.
        let Some(k) = chosen.iter().position(|which| which + 1 < values.len()) else {
            return true;
        };
        chosen[..k].fill(0);
        chosen[k] += 1;
    }
}

/// All windows of two neighbours over three values, and of one pixel over four
/// with a NaN and with an infinity.
pub fn short(tally: &mut Tally) -> bool {
    let before = tally.cases;
    let went = every(tally, [4, 3], &[1.0, 2.0, 3.0], 0)
        && every(tally, [3, 3], &[f32::NAN, -0.0, 1.0, 2.0], 3)
        && every(tally, [3, 3], &[-0.0, 1.0, 2.0, f32::INFINITY], 3);
    tally.exhaustive = tally.cases - before;
    went
}

/// The widest and the highest responses.
pub fn longest(tally: &mut Tally, random: &mut Random) -> bool {
    let sizes = [[4096, 1], [4096, 5], [5, 4096], [4096, 9]];
    sizes.into_iter().all(|[width, height]| {
        let mut case = Peaks {
            width,
            height,
            response: (0..width * height).map(|_| random.unit()).collect(),
            settings: LEAST,
            out: 0,
        };
        case.out = 3 * case.count();
        tally.tried(&case)
    })
}

fn any_settings(random: &mut Random) -> port::PeakSettings {
    let window = match random.below(3) {
        0 => 1 + random.below(8),
        _ => random.pick(&[1, 1, 1, 2, 2, 3, 5]),
    };
    port::PeakSettings {
        ring_radius: random.pick(&[1, 1, 1, 1, 2, 3, 5, 10]),
        window_radius: window,
        refine_radius: random.pick(&[0, 0, 0, 0, 1, 2, 7]),
        threshold: 0.0,
        min_cluster_size: match random.below(8) {
            0 => random.pick(&[u32::MAX, 289, 288, 80]),
            1 => random.below((2 * window + 1).pow(2)) as u32,
            2..=4 => 0,
            _ => 1 + random.below(4) as u32,
        },
    }
}

fn any_size(random: &mut Random, border: usize) -> usize {
    match random.below(24) {
        0 => 1 + random.below(2 * border),
        1 => 2 * border + 1 + random.below(40),
        _ => 2 * border + 1 + random.below(11),
    }
}

const ODD: [f32; 9] = [
    f32::NAN,
    f32::INFINITY,
    f32::NEG_INFINITY,
    -0.0,
    0.0,
    1e-45,
    -1e-45,
    f32::MAX,
    f32::MIN,
];

fn any_values(random: &mut Random, width: usize, height: usize) -> Vec<f32> {
    let kind = random.below(10);
    let slope = [random.between(-2, 2), random.between(-2, 2)];
    let turn = random.between(3, 40);
    let from_middle = |at: usize| ((at as i64 + slope[0]).rem_euclid(turn) - turn / 2).abs();
    let mut value = |k: usize| match kind {
        0 => random.between(-3, 3) as f32,
        1 => random.below(2) as f32,
        2 => (random.unit() - 0.6) * 100.0,
        3 if random.once_in(9) => random.pick(&ODD),
        3 => random.between(-2, 4) as f32,
        4 if random.once_in(12) => random.between(1, 9) as f32,
        4 => random.pick(&[0.0, 0.0, -0.0]),
        // Slopes, whose values beat all that come before or after them; hills
        // below.
        5 => {
            let (x, y) = ((k % width) as i64, (k / width) as i64);
            (slope[0] * x + slope[1] * y).rem_euclid(turn) as f32 - 2.0
        }
        6 => f32::from_bits(random.word()),
        7 if random.once_in(40) => random.pick(&[f32::NAN, f32::INFINITY]),
        7 => random.unit(),
        8 => (6 - from_middle(k % width) - from_middle(k / width)) as f32 + random.unit(),
        _ => -random.unit(),
    };
    (0..width * height).map(&mut value).collect()
}

fn any_threshold(random: &mut Random, response: &[f32]) -> f32 {
    match random.below(10) {
        0..=3 => 0.0,
        4 => -0.0,
        5 => random.pick(&[-3.0, -0.5, f32::MIN, -1e-45]),
        6 => random.pick(&[1.0, 2.5, 1e-45, f32::MAX]),
        // A value of the response, which is then not above it.
        _ => {
            let value = random.pick(response);
            if value.is_finite() {
                value
            } else {
                0.0
            }
        }
    }
}

/// A call spoilt so that a number refuses it, now and then.
fn spoil(case: &mut Peaks, random: &mut Random) {
    let far = [1 << 31, 1 << 32, (1 << 32) + 1, usize::MAX];
    let s = &mut case.settings;
    match random.below(60) {
        0 => case.response.push(1.0),
        1 => drop(case.response.pop()),
        // A product that wraps to the number of values there are.
        2 => {
            [case.width, case.height] = random.pick(&[[1 << 32, 1 << 32], [1 << 63, 2], [0, 0]]);
            case.response.clear();
        }
        3 => {
            [case.width, case.height] = random.pick(&[[4097, 1], [1, 4097], [0, 4097]]);
            case.response = vec![1.0; case.width * case.height];
        }
        4 => s.ring_radius = random.pick(&[0, 11]),
        5 => s.window_radius = random.pick(&[0, 9]),
        6 => s.refine_radius = random.pick(&[8, 9]),
        7 => s.ring_radius = random.pick(&far),
        8 => s.window_radius = random.pick(&far),
        9 => s.refine_radius = random.pick(&far),
        10 | 11 => s.threshold = random.pick(&[f32::NAN, f32::INFINITY, f32::NEG_INFINITY]),
        12 | 13 => case.out += 1 + random.below(2),
        _ => return,
    }
    // Two at once: the order of the numbers.
    if random.once_in(3) {
        spoil(case, random);
    }
}

/// A response about the borders of the rules.
pub fn any(random: &mut Random) -> Peaks {
    let mut settings = any_settings(random);
    let border = settings.ring_radius + settings.window_radius + settings.refine_radius;
    let (width, height) = (any_size(random, border), any_size(random, border));
    let response = any_values(random, width, height);
    settings.threshold = any_threshold(random, &response);
    let mut case = Peaks {
        width,
        height,
        response,
        settings,
        out: 0,
    };
    case.out = match random.below(6) {
        0..=2 => 3 * case.count(),
        3 => 3 * case.count().saturating_sub(1),
        4 => 3 * random.below(6),
        _ => 300,
    };
    spoil(&mut case, random);
    case
}

/// The driver notices each fault of an answer.
pub fn faults_noticed() -> Result<(), String> {
    let mut written = Peaks {
        width: 9,
        height: 9,
        response: vec![0.0; 81],
        settings: LEAST,
        out: 9,
    };
    written.response[2 * 9 + 3] = 2.0;
    written.response[5 * 9 + 5] = 3.0;
    let mut tied = written.clone();
    tied.response[2 * 9 + 4] = 2.0;
    let mut refused = written.clone();
    refused.settings.threshold = f32::NAN;
    let mut too_many = written.clone();
    too_many.response[2 * 9 + 6] = 1.0;
    too_many.response[6 * 9 + 2] = 1.0;
    trial::faults_noticed(
        &[written, tied, refused, too_many],
        &[
            ("number", |l| l.number ^= 1),
            ("count", |l| l.count ^= 1),
            ("x", |l| l.out.part()[0] += 1.0),
            ("y", |l| l.out.part()[4] += 1.0),
            ("a value", |l| flip(&mut l.out.part()[2])),
            ("past the last record", |l| l.out.part()[6] = 0.0),
            ("the last element", |l| flip(&mut l.out.part()[8])),
            ("outside the output", |l| l.out.spoil()[0] = 0.0),
            ("the lent response", |l| flip(&mut l.response.part()[7])),
            ("outside the response", |l| l.response.spoil()[3] = 0.0),
        ],
    )
}
