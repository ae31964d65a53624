//! What every compared call shares: painted buffers, the count of cases and
//! classes, and the way to a small failing input.

use std::collections::BTreeMap;
use std::fmt::{Debug, Display};
use std::ops::Range;
use std::time::Instant;

/// A count, a float and a number of 16 bits that no call writes by chance.
pub const PAINT: usize = 0xA5A5_5A5A;
pub const PAINT_F: f32 = -12345.678;
pub const PAINT_U16: u16 = 0xA5A5;

/// A buffer of painted elements, with more of them before and after, which no
/// call may touch.
#[derive(Clone)]
pub struct Lent<T> {
    all: Vec<T>,
}

const AROUND: usize = 4;

impl<T: Copy> Lent<T> {
    pub fn painted(length: usize, paint: T) -> Self {
        Lent {
            all: vec![paint; length + 2 * AROUND],
        }
    }

    pub fn holding(values: &[T], paint: T) -> Self {
        let mut lent = Lent::painted(values.len(), paint);
        lent.part().copy_from_slice(values);
        lent
    }

    /// What is lent to the call.
    pub fn part(&mut self) -> &mut [T] {
        let end = self.all.len() - AROUND;
        &mut self.all[AROUND..end]
    }

    /// The same as an array of its length.
    pub fn array<const N: usize>(&mut self) -> &mut [T; N] {
        self.part().try_into().expect("as many as were painted")
    }

    pub fn inside(&self) -> &[T] {
        &self.all[AROUND..self.all.len() - AROUND]
    }

    /// The painted elements before and after what was lent.
    pub fn outside(&self) -> impl Iterator<Item = &T> {
        let end = self.all.len() - AROUND;
        self.all[..AROUND].iter().chain(&self.all[end..])
    }

    /// Everything, for a test that spoils an answer.
    pub fn spoil(&mut self) -> &mut [T] {
        &mut self.all
    }
}

impl Lent<f32> {
    /// No element around is other than it was painted.
    pub fn outside_kept(&self, name: &str) -> Result<(), String> {
        kept_around(
            name,
            self.outside().all(|f| f.to_bits() == PAINT_F.to_bits()),
        )
    }

    /// Nor is one inside other than it was lent.
    pub fn kept(&self, name: &str, lent: &[f32]) -> Result<(), String> {
        match parts(self.inside(), lent, |a, b| a.to_bits() == b.to_bits()) {
            None => self.outside_kept(name),
            Some(k) => Err(format!("element {k} of {name} is written")),
        }
    }
}

impl Lent<u16> {
    /// No element around is other than it was painted.
    pub fn outside_kept(&self, name: &str) -> Result<(), String> {
        kept_around(name, self.outside().all(|u| *u == PAINT_U16))
    }
}

fn kept_around(name: &str, kept: bool) -> Result<(), String> {
    match kept {
        true => Ok(()),
        false => Err(format!("something is written outside {name}")),
    }
}

/// A number is the expected one.
pub fn held<T: PartialEq + Debug>(name: &str, got: T, want: T) -> Result<(), String> {
    match got == want {
        true => Ok(()),
        false => Err(format!("{name} {got:?}, expected {want:?}")),
    }
}

/// Floats that a small input is made of, the plainest first.
pub const PLAIN: [f32; 5] = [0.0, 1.0, 2.0, 4.0, 0.5];

/// How odd a float looks: whole small numbers least.
pub fn oddness(f: f32) -> u64 {
    PLAIN
        .iter()
        .position(|p| p.to_bits() == f.to_bits())
        .map_or(9, |k| k as u64)
}

/// The last bit of a float is another.
pub fn flip(f: &mut f32) {
    *f = f32::from_bits(f.to_bits() ^ 1);
}

/// The first place where two lists part.
pub fn parts<T>(got: &[T], want: &[T], same: impl Fn(&T, &T) -> bool) -> Option<usize> {
    if got.len() != want.len() {
        return Some(got.len().min(want.len()));
    }
    got.iter().zip(want).position(|(a, b)| !same(a, b))
}

/// A NaN is any NaN; else the bits.
pub fn alike(a: f32, b: f32) -> bool {
    a.to_bits() == b.to_bits() || (a.is_nan() && b.is_nan())
}

/// The bits of a float, and the number.
pub fn bits(f: f32) -> String {
    format!("{:08X} ({f:e})", f.to_bits())
}

/// A list of records of so many floats, one a line.
pub fn record_lines(floats: &[f32], each: usize) -> String {
    let line = |c: &[f32]| {
        c.iter()
            .map(|v| format!("  {}", bits(*v)))
            .collect::<String>()
            + "\n"
    };
    floats.chunks(each).map(line).collect()
}

/// The classes that a case belongs to, and how many seeds of a list or calls of
/// a row it compared.
#[derive(Clone, Copy)]
pub struct Met {
    classes: [Option<&'static str>; MOST],
    parts: u64,
}

/// The most classes of a case; a row of calls meets those of each.
const MOST: usize = 48;

impl Met {
    pub fn of(class: &'static str) -> Self {
        let none = Met {
            classes: [None; MOST],
            parts: 1,
        };
        none.and(class)
    }

    pub fn and(mut self, class: &'static str) -> Self {
        let free = self.classes.iter_mut().find(|place| place.is_none());
        *free.expect("so many classes a case") = Some(class);
        self
    }

    pub fn with_parts(self, parts: u64) -> Self {
        Met { parts, ..self }
    }
}

/// A call with its input.
pub trait Trial: Sized + Clone + Display {
    const NAME: &'static str;
    /// Every class that a run must reach.
    const CLASSES: &'static [&'static str];
    /// More of them, which several calls share.
    const SHARED: &'static [&'static str] = &[];
    /// What a case has several of.
    const PARTS: &'static str = "seeds";
    /// All that the call leaves.
    type Left: Clone;

    /// Names each exported call of the case, as often as it makes that call.
    fn exported(&self, name: &mut dyn FnMut(&'static str));

    /// What the proved code leaves.
    fn by_port(&self) -> Self::Left;

    /// How what is left parts from what is expected; else the classes.
    fn judged(&self, left: &Self::Left) -> Result<Met, String>;

    /// How large the input is; shrinking makes it less.
    fn size(&self) -> u64;

    /// Inputs a step simpler, the boldest first.
    fn simpler(&self) -> Vec<Self>;

    fn tried(&self) -> Result<Met, String> {
        self.judged(&self.by_port())
    }
}

/// Parts of a list to be left out, many elements at a time and then one.
pub fn fewer(count: usize) -> Vec<Range<usize>> {
    let mut out = Vec::new();
    let mut many = count;
    while many > 0 {
        let starts = (0..=count - many).step_by(many);
        out.extend(starts.map(|from| from..from + many));
        many /= 2;
    }
    out
}

/// A part of an image or a response, and where it begins.
pub struct Crop<T> {
    pub x: usize,
    pub y: usize,
    pub width: usize,
    pub height: usize,
    pub values: Vec<T>,
}

/// An image without half of it, or without a row or column at an edge; none
/// of an image that is no whole one.
pub fn crops<T: Copy>(values: &[T], w: usize, h: usize) -> Vec<Crop<T>> {
    if w == 0 || h == 0 || w.checked_mul(h) != Some(values.len()) {
        return Vec::new();
    }
    [
        (0..h / 2, 0..w),
        (h / 2..h, 0..w),
        (0..h, 0..w / 2),
        (0..h, w / 2..w),
        (0..h - 1, 0..w),
        (1..h, 0..w),
        (0..h, 0..w - 1),
        (0..h, 1..w),
    ]
    .into_iter()
    .filter(|(rows, cols)| {
        !rows.is_empty() && !cols.is_empty() && (rows.len() < h || cols.len() < w)
    })
    .map(|(rows, cols)| Crop {
        x: cols.start,
        y: rows.start,
        width: cols.len(),
        height: rows.len(),
        values: rows
            .flat_map(|y| values[y * w..][cols.clone()].to_vec())
            .collect(),
    })
    .collect()
}

/// A way to spoil what a call leaves, by its name.
pub type Fault<L> = (&'static str, fn(&mut L));

/// The driver notices each fault in what each case leaves.
pub fn faults_noticed<T: Trial>(cases: &[T], faults: &[Fault<T::Left>]) -> Result<(), String> {
    for case in cases {
        let left = case.by_port();
        case.judged(&left)
            .map_err(|how| format!("{}: {how}\n{case}", T::NAME))?;
        for (name, fault) in faults {
            let mut spoilt = left.clone();
            fault(&mut spoilt);
            if case.judged(&spoilt).is_ok() {
                return Err(format!("{}: a fault is not noticed: {name}", T::NAME));
            }
        }
    }
    Ok(())
}

/// The driver notices what another input leaves in the place of what this one
/// should.
pub fn other_noticed<T: Trial>(name: &str, case: &T, other: &T) -> Result<(), String> {
    match case.judged(&other.by_port()) {
        Err(_) => Ok(()),
        Ok(_) => Err(format!("{}: a fault is not noticed: {name}", T::NAME)),
    }
}

/// Cases of an exported call, how many of them are fixed, and how many differ.
#[derive(Clone, Copy, Default)]
pub struct Count {
    pub cases: u64,
    pub fixed: u64,
    pub differ: u64,
}

impl Count {
    pub fn random(self) -> u64 {
        self.cases - self.fixed
    }
}

/// What was seen of one call.
#[derive(Default)]
pub struct Tally {
    pub cases: u64,
    pub parts: u64,
    pub exhaustive: u64,
    pub classes: BTreeMap<&'static str, u64>,
    /// By the name of the exported call: a case may make several.
    pub exported: BTreeMap<&'static str, Count>,
    pub differ: bool,
}

impl Tally {
    /// Tries one input. `false`: it differs, and the smallest input met that
    /// still does has been printed.
    pub fn tried<T: Trial>(&mut self, trial: &T) -> bool {
        self.cases += 1;
        let tried = trial.tried();
        trial.exported(&mut |name| {
            let count = self.exported.entry(name).or_default();
            count.cases += 1;
            count.differ += u64::from(tried.is_err());
        });
        match tried {
            Ok(met) => {
                self.parts += met.parts;
                for class in met.classes.into_iter().flatten() {
                    *self.classes.entry(class).or_default() += 1;
                }
                true
            }
            Err(how) => {
                self.differ = true;
                let (small, how) = shrunk(trial.clone(), how);
                println!("{}: DIFFERS: {how}\n{small}", T::NAME);
                false
            }
        }
    }

    /// What was tried so far is fixed: the short and the rare inputs.
    pub fn fixed(&mut self) {
        for count in self.exported.values_mut() {
            count.fixed = count.cases;
        }
    }

    /// Prints what was tried. `false` if it differs, or if a run to its end
    /// leaves a class out.
    pub fn told<T: Trial>(&self, to_the_end: bool) -> bool {
        let classes: Vec<String> = self
            .classes
            .iter()
            .map(|(class, count)| format!("{class} {count}"))
            .collect();
        println!(
            "{}: {} cases{}, {} of them every short input; {} differ; {}",
            T::NAME,
            self.cases,
            if self.parts > self.cases {
                format!(" of {} {}", self.parts, T::PARTS)
            } else {
                String::new()
            },
            self.exhaustive,
            u32::from(self.differ),
            classes.join(", "),
        );
        let missed: Vec<&str> = T::CLASSES
            .iter()
            .chain(T::SHARED)
            .filter(|class| !self.classes.contains_key(*class))
            .copied()
            .collect();
        let left_out = to_the_end && !missed.is_empty();
        if left_out {
            println!("{}: NOT REACHED: {}", T::NAME, missed.join(", "));
        }
        !left_out && !self.differ
    }
}

/// The smallest failing input found within some seconds.
fn shrunk<T: Trial>(mut trial: T, mut how: String) -> (T, String) {
    let began = Instant::now();
    loop {
        let size = trial.size();
        let next = trial.simpler().into_iter().find_map(|t| {
            if t.size() >= size || began.elapsed().as_secs() > 20 {
                return None;
            }
            t.tried().err().map(|how| (t, how))
        });
        match next {
            Some((smaller, why)) => (trial, how) = (smaller, why),
            None => return (trial, how),
        }
    }
}
