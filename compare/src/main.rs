//! The proved code beside the Rust, in one program.
//!   compare run SECONDS [SEED]   compares on fresh inputs; status 1 where they part
//!   compare long SECONDS SHARE [SEED]
//!                                the same, and then on until every exported call has had
//!                                SHARE random cases, and single seeds ten times as many
//!   compare bench [CALL]         times both and prints the tables, or a call's

mod bench;
mod board;
mod coverage;
mod deep_graymap;
mod fallback;
mod gradient;
mod graymap;
mod list;
mod long;
mod merge;
mod number;
mod operator;
mod peaks;
mod picture;
mod port;
mod refine;
mod response;
mod salvage;
mod scene;
mod trial;

use oracle::random::Random;
use std::process::ExitCode;
use std::time::{Duration, Instant, SystemTime};
use trial::{Count, Tally};

/// Random cases of each call, whatever the seconds.
const LEAST: u64 = 5_000;

/// From this many seconds on, every two-valued image is tried and not only
/// every choice of the samples that are read.
const LONG: u64 = 60;

/// Seeds for each merge and response, and how many of these go to a list: the
/// call builds its operator each time.
const SEEDS: usize = 32;
const PER_LIST: usize = 4;

/// A list with a second try is called with its own operators and with lent ones:
/// one for so many merges and responses.
const PER_FALLBACK: usize = 8;

/// A row of calls on a list of corners has all of the list compared after each:
/// one for so many merges and responses.
const PER_ROW: usize = 4;

/// Peak scans for each merge and response.
const SCANS: usize = 2;

/// Every call's own test of this driver.
fn faults_noticed() -> Result<(), String> {
    long::complete()?;
    merge::faults_noticed()?;
    response::faults_noticed()?;
    peaks::faults_noticed()?;
    operator::faults_noticed()?;
    refine::faults_noticed()?;
    list::faults_noticed()?;
    fallback::faults_noticed()?;
    number::faults_noticed()?;
    board::faults_noticed()?;
    graymap::faults_noticed()?;
    deep_graymap::faults_noticed()?;
    salvage::faults_noticed()?;
    coverage::faults_noticed()?;
    gradient::faults_noticed()
}

/// What was seen of each call.
#[derive(Default)]
struct Tallies {
    merges: Tally,
    responses: Tally,
    peaks: Tally,
    operators: Tally,
    seeds: Tally,
    lists: Tally,
    fallbacks: Tally,
    numbers: Tally,
    boards: Tally,
    graymaps: Tally,
    deep_graymaps: Tally,
    salvages: Tally,
    covers: Tally,
    gradients: Tally,
}

impl Tallies {
    /// The short and the rare inputs; `false` where one differs.
    fn short(&mut self, random: &mut Random, long: bool) -> bool {
        let low = random.byte() / 2;
        let high = low + 1 + random.byte() / 2;
        operator::short(&mut self.operators)
            && number::short(&mut self.numbers)
            && refine::rare(&mut self.seeds)
            && refine::pitches(&mut self.seeds, random)
            && list::longest(&mut self.lists, random)
            && list::pitches(&mut self.lists, random)
            && fallback::longest(&mut self.fallbacks, random)
            && fallback::pitches(&mut self.fallbacks, random)
            && board::longest(&mut self.boards, random)
            && board::short(&mut self.boards)
            && graymap::longest(&mut self.graymaps)
            && graymap::short(&mut self.graymaps)
            && deep_graymap::longest(&mut self.deep_graymaps)
            && deep_graymap::short(&mut self.deep_graymaps)
            && salvage::longest(&mut self.salvages, random)
            && salvage::short(&mut self.salvages)
            && coverage::longest(&mut self.covers, random)
            && coverage::refused(&mut self.covers)
            && coverage::short(&mut self.covers)
            && gradient::short(&mut self.gradients)
            && merge::short(&mut self.merges)
            && peaks::longest(&mut self.peaks, random)
            && peaks::short(&mut self.peaks)
            && response::pitches(&mut self.responses, random)
            && response::short(&mut self.responses, long, [0, 255], 5)
            && response::short(&mut self.responses, false, [low, high], 7)
    }

    /// Random inputs; `false` where one differs.
    fn fresh(&mut self, random: &mut Random, kept: &mut Kept) -> bool {
        self.merges.tried(&merge::any(random))
            && self.boards.tried(&board::any(random))
            && self.numbers.tried(&number::any(random))
            && self.graymaps.tried(&graymap::any(random))
            && self.deep_graymaps.tried(&deep_graymap::any(random))
            && self.salvages.tried(&salvage::any(random))
            && self.gradients.tried(&gradient::any(random))
            && (!random.once_in(PER_ROW) || self.covers.tried(&coverage::any(random)))
            && self
                .responses
                .tried(&response::any(random, &mut kept.rings))
            && (0..SCANS).all(|_| self.peaks.tried(&peaks::any(random)))
            && (!random.once_in(PER_LIST) || self.lists.tried(&list::any(random)))
            && (!random.once_in(PER_FALLBACK) || self.fallbacks.tried(&fallback::any(random)))
            && (0..SEEDS).all(|_| self.seeds.tried(&kept.scenes.any(random)))
    }

    /// All of them.
    fn each(&mut self) -> [&mut Tally; 14] {
        [
            &mut self.merges,
            &mut self.responses,
            &mut self.peaks,
            &mut self.operators,
            &mut self.seeds,
            &mut self.lists,
            &mut self.fallbacks,
            &mut self.numbers,
            &mut self.boards,
            &mut self.graymaps,
            &mut self.deep_graymaps,
            &mut self.salvages,
            &mut self.covers,
            &mut self.gradients,
        ]
    }

    /// What was tried of an exported call.
    fn count(&mut self, name: &str) -> Count {
        let all = self.each();
        let counts = all.iter().filter_map(|tally| tally.exported.get(name));
        counts.fold(Count::default(), |sum, count| Count {
            cases: sum.cases + count.cases,
            fixed: sum.fixed + count.fixed,
            differ: sum.differ + count.differ,
        })
    }

    fn told(&self, to_the_end: bool) -> bool {
        let merges = self.merges.told::<merge::Merge>(to_the_end);
        let responses = self.responses.told::<response::Response>(to_the_end);
        let peaks = self.peaks.told::<peaks::Peaks>(to_the_end);
        let operators = self.operators.told::<operator::Operator>(to_the_end);
        let seeds = self.seeds.told::<refine::Refine>(to_the_end);
        let lists = self.lists.told::<list::List>(to_the_end);
        let fallbacks = self.fallbacks.told::<fallback::Fallback>(to_the_end);
        let numbers = self.numbers.told::<number::Number>(to_the_end);
        let boards = self.boards.told::<board::Board>(to_the_end);
        let graymaps = self.graymaps.told::<graymap::Graymap>(to_the_end);
        let deep = self
            .deep_graymaps
            .told::<deep_graymap::DeepGraymap>(to_the_end);
        let salvages = self.salvages.told::<salvage::Salvage>(to_the_end);
        let covers = self.covers.told::<coverage::Coverage>(to_the_end);
        let gradients = self.gradients.told::<gradient::Gradient>(to_the_end);
        let images = responses && operators && seeds && lists && fallbacks && gradients;
        images && merges && peaks && numbers && boards && graymaps && deep && salvages && covers
    }
}

/// What serves several random inputs.
struct Kept {
    rings: response::Rings,
    scenes: refine::Scenes,
}

/// A run of some seconds, and then on until every exported call has its share.
struct Length {
    seconds: u64,
    share: Option<u64>,
}

fn run(length: Length, seed: u64) -> bool {
    let Length { seconds, share } = length;
    println!("compare: seed {seed}, {seconds} s");
    if let Err(what) = faults_noticed() {
        println!("compare: the driver itself fails: {what}");
        return false;
    }
    let began = Instant::now();
    let whole = Duration::from_secs(seconds);
    let mut tallies = Tallies::default();
    let mut random = Random::of(seed, "compare");
    let mut alike = tallies.short(&mut random, seconds >= LONG);
    tallies.each().map(Tally::fixed);
    let mut kept = Kept {
        rings: response::Rings::new(),
        scenes: refine::Scenes::new(&mut random),
    };
    let mut fresh = 0;
    while alike && (fresh < LEAST || began.elapsed() < whole) {
        fresh += 1;
        alike = tallies.fresh(&mut random, &mut kept);
    }
    if let Some(share) = share {
        alike = alike && long::filled(&mut tallies, &mut random, &mut kept, share);
    }
    let all = tallies.told(alike);
    if share.is_some() {
        long::told(&mut tallies);
    }
    let operators = refine::operators_kept();
    if !operators {
        println!("refine: DIFFERS: a lent operator is written");
    }
    all && operators
}

/// What the words of the command ask for, and whether it went well; `None`
/// where they ask for nothing.
fn asked(words: &[&str]) -> Option<bool> {
    let number = |k: usize| words.get(k).and_then(|w| w.parse::<u64>().ok());
    let clock = SystemTime::UNIX_EPOCH.elapsed().map_or(1, |t| t.as_secs());
    match *words.first()? {
        "run" => {
            let length = Length {
                seconds: number(1)?,
                share: None,
            };
            Some(run(length, number(2).unwrap_or(clock)))
        }
        "long" => {
            let length = Length {
                seconds: number(1)?,
                share: Some(number(2)?),
            };
            Some(run(length, number(3).unwrap_or(clock)))
        }
        "bench" => Some(bench::run(words.get(1).copied())),
        _ => None,
    }
}

fn main() -> ExitCode {
    oracle::rust_or_rule::quiet();
    let args: Vec<String> = std::env::args().skip(1).collect();
    let words: Vec<&str> = args.iter().map(String::as_str).collect();
    match asked(&words) {
        Some(true) => ExitCode::SUCCESS,
        Some(false) => ExitCode::FAILURE,
        None => {
            eprintln!(
                "usage: compare run SECONDS [SEED] | long SECONDS SHARE [SEED] | bench [CALL]"
            );
            ExitCode::from(2)
        }
    }
}
