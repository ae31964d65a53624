//! Who decided a case, and how the Rust is run where it may panic.

use std::cell::Cell;
use std::panic::{catch_unwind, AssertUnwindSafe};

/// Who gave the answer, and why, as the lists say it in two words.
#[derive(Clone, Copy, Debug, PartialEq, Eq)]
pub enum Decided {
    /// The Rust gave this answer.
    ByRust,
    /// Document 01 decided: the Rust panics here.
    RustPanics,
    /// Document 01 decided: the Rust wraps here. It panics with overflow
    /// checks on and answers something without them.
    RustWraps,
    /// Document 01 decided: the Rust has no such limit and goes on.
    NoSuchLimit,
    /// Document 01 decided: the Rust answers otherwise.
    OtherRule,
    /// Document 01 decided: the Rust was not run, as it would ask for more
    /// memory than a computer has, or cannot be asked at all.
    NotRun,
}

impl Decided {
    /// 0 the Rust, 1 document 01; and the reason.
    pub fn words(self) -> [u32; 2] {
        match self {
            Decided::ByRust => [0, 0],
            Decided::RustPanics => [1, 1],
            Decided::RustWraps => [1, 2],
            Decided::NoSuchLimit => [1, 3],
            Decided::OtherRule => [1, 4],
            Decided::NotRun => [1, 5],
        }
    }

    pub fn name(self) -> &'static str {
        match self {
            Decided::ByRust => "the Rust gave the answer",
            Decided::RustPanics => "document 01 decided: the Rust panics",
            Decided::RustWraps => "document 01 decided: the Rust wraps",
            Decided::NoSuchLimit => "document 01 decided: the Rust has no such limit",
            Decided::OtherRule => "document 01 decided: the Rust answers otherwise",
            Decided::NotRun => "document 01 decided: the Rust was not run",
        }
    }
}

thread_local! {
    static EXPECTED: Cell<bool> = const { Cell::new(false) };
}

/// Runs the Rust; `None` where it panics.
pub fn run<T>(f: impl FnOnce() -> T) -> Option<T> {
    EXPECTED.set(true);
    let answer = catch_unwind(AssertUnwindSafe(f)).ok();
    EXPECTED.set(false);
    answer
}

/// A check of the oracle itself failed: says so and ends, also where panics
/// are caught.
pub fn broken(what: &str) -> ! {
    eprintln!("oracle: {what}");
    std::process::exit(1)
}

/// Who decided a refusal that the Rust does not have: both builds are run,
/// and what they do is the reason.
pub fn refusal<T, U>(plain: impl FnOnce() -> T, checked: impl FnOnce() -> U) -> Decided {
    if run(plain).is_none() {
        Decided::RustPanics
    } else if run(checked).is_none() {
        Decided::RustWraps
    } else {
        Decided::NoSuchLimit
    }
}

/// Who decided an accepted call: `same` compares the plain build's answer
/// with document 01's.
pub fn accepted<T, U>(
    plain: impl FnOnce() -> T,
    checked: impl FnOnce() -> U,
    same: impl FnOnce(&T) -> bool,
) -> Decided {
    match run(plain) {
        None => Decided::RustPanics,
        Some(_) if run(checked).is_none() => Decided::RustWraps,
        Some(answer) if same(&answer) => Decided::ByRust,
        Some(_) => Decided::OtherRule,
    }
}

/// Nothing is printed for a panic that `run` catches.
pub fn quiet() {
    let before = std::panic::take_hook();
    std::panic::set_hook(Box::new(move |info| {
        if !EXPECTED.get() {
            before(info);
        }
    }));
}
