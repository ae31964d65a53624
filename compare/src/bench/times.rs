//! The clock, the sides in turn, and how their times are told.

use std::hint::black_box;

extern "C" {
    fn clock_gettime(clock: i32, time: *mut [i64; 2]) -> i32;
}

/// Linux's CLOCK_THREAD_CPUTIME_ID.
const THREAD: i32 = 3;

/// Milliseconds that this thread has had.
fn now() -> f64 {
    let mut time = [0i64; 2];
    // SAFETY: on 64-bit Linux a timespec is two words of 64 bits.
    let status = unsafe { clock_gettime(THREAD, &mut time) };
    assert!(status == 0, "the thread has a clock");
    time[0] as f64 * 1e3 + time[1] as f64 / 1e6
}

/// Milliseconds of one call; what has to be made ready is not timed.
pub type Side<'a> = &'a mut dyn FnMut() -> f64;

pub fn timed<T>(call: impl FnOnce() -> T) -> (f64, T) {
    let began = now();
    let answer = black_box(call());
    (now() - began, answer)
}

/// Milliseconds of so many calls. What each answers is freed within.
pub fn timed_all<T>(at_once: usize, mut call: impl FnMut() -> T) -> f64 {
    timed(|| {
        for _ in 0..at_once {
            black_box(call());
        }
    })
    .0
}

/// The times of one side, in order.
pub struct Times(Vec<f64>);

impl Times {
    pub fn part(&self, of_100: usize) -> f64 {
        self.0[(self.0.len() - 1) * of_100 / 100]
    }

    /// Milliseconds: median (least, quartiles, greatest).
    pub fn told(&self) -> String {
        let [median, least, low, high, greatest] = [50, 0, 25, 75, 100].map(|k| self.part(k));
        format!("{median:.4} ({least:.4}, {low:.4} to {high:.4}, {greatest:.4})")
    }

    /// Nanoseconds of one of `count`.
    fn part_of_one(&self, of_100: usize, count: usize) -> String {
        let digits = match self.part(50) * 1e6 / count as f64 {
            n if n < 1.0 => 3,
            n if n < 100.0 => 2,
            _ => 0,
        };
        let n = self.part(of_100) * 1e6 / count as f64;
        format!("{n:.digits$}")
    }

    /// Nanoseconds of one of `count`, by the median.
    pub fn each(&self, count: usize) -> String {
        self.part_of_one(50, count)
    }

    /// Nanoseconds of one of `count`: median (least, greatest).
    pub fn told_each(&self, count: usize) -> String {
        let [median, least, greatest] = [50, 0, 100].map(|k| self.part_of_one(k, count));
        format!("{median} ({least}, {greatest})")
    }
}

/// The sides in turn, each time begun with another one; every side is called
/// twice before that.
pub fn in_turn(sides: &mut [Side<'_>], repetitions: usize) -> Vec<Times> {
    let mut all: Vec<Times> = sides.iter().map(|_| Times(Vec::new())).collect();
    for round in 0..repetitions + 2 {
        for k in 0..sides.len() {
            let side = (round + k) % sides.len();
            let time = sides[side]();
            if round >= 2 {
                all[side].0.push(time);
            }
        }
    }
    for times in &mut all {
        times.0.sort_by(f64::total_cmp);
    }
    all
}

pub fn ratio(ours: &Times, theirs: &Times) -> String {
    format!(
        "{:.2} ({:.2})",
        ours.part(50) / theirs.part(50),
        ours.part(0) / theirs.part(0)
    )
}
