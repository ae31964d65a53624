//! How corners cover an image (W-211): rows of calls on one list, their numbers,
//! and what they leave.

use super::*;
use crate::rules;

/// A row of calls on one list. Records that are nothing else are painted, or +0.0.
#[derive(Clone)]
pub struct Row {
    pub size: [u64; 2],
    pub painted: bool,
    pub held: Covered,
    pub calls: Vec<Asked>,
}

/// What a record is where it is nothing else.
fn ground(painted: bool, record: usize) -> Triple {
    [0, 1, 2].map(|j| match painted {
        true => f32::from_bits(0x3FC0_0000 + ((3 * record + j) % 999) as u32),
        false => 0.0,
    })
}

impl Row {
    /// The given corners are all there are, and the counts are their summary.
    pub fn of(size: [u64; 2], given: &[Triple], calls: &[Asked]) -> Self {
        Row::on(true, size, given, given.len() as u64, calls)
    }

    /// The list has the given corners and more that are paint or zeros.
    pub fn on(
        painted: bool,
        size: [u64; 2],
        given: &[Triple],
        count: u64,
        calls: &[Asked],
    ) -> Self {
        let mut list: Vec<Triple> = (0..rules::MOST).map(|k| ground(painted, k)).collect();
        list[..given.len()].copy_from_slice(given);
        let mut held = Covered {
            list,
            count,
            counts: [0; 65],
        };
        // Where there is no summary the counts stay 0.
        rules::covered(size, &mut held, Asked::Afresh);
        Row {
            size,
            painted,
            held,
            calls: calls.to_vec(),
        }
    }

    fn with_counts(mut self, counts: [u16; 65]) -> Self {
        self.held.counts = counts;
        self
    }

    /// Another record, and the summary with it.
    fn with_record(mut self, place: usize, corner: Triple) -> Self {
        self.held.list[place] = corner;
        rules::covered(self.size, &mut self.held, Asked::Afresh);
        self
    }
}

/// All that `met` can give.
pub const MET: [&str; 35] = [
    "10, a side of 0",
    "10, a side of 4097",
    "10 before 16",
    "10 before 35",
    "16, adding to 4,096",
    "16, a count of 4,097",
    "16, a count good in 32 bits",
    "16 before 35",
    "35, the list's length",
    "35, a number good in 32 bits",
    "35, an empty list",
    "afresh",
    "afresh, 4,096 corners",
    "afresh, counts that were not the summary",
    "added, the 4,096th",
    "added in no tile",
    "added at -0.0",
    "added at -0.5",
    "added in the last half pixel",
    "added at the size",
    "added, not finite",
    "added, only the strength not finite",
    "added on a tile's border",
    "added below a tile's border",
    "65,535 stays",
    "replaced in its own tile",
    "replaced in another tile",
    "replaced in no tile",
    "replaced out of none",
    "dropped the first",
    "dropped the last",
    "dropped one between",
    "dropped out of no tile",
    "dropped of 4,096",
    "0 stays 0",
];

/// Which border of the rules a call is at.
pub fn met(size: [u64; 2], held: &Covered, asked: Asked) -> Vec<&'static str> {
    let met = match rules::coverage_refusal(size, held.count, asked) {
        Some(number) => met_refused(size, held, asked, number),
        None => met_accepted(size, held, asked),
    };
    met.into_iter().flatten().collect()
}

fn met_refused(
    size: [u64; 2],
    held: &Covered,
    asked: Asked,
    number: u32,
) -> Vec<Option<&'static str>> {
    let count = held.count;
    let many = count > rules::MOST as u64;
    let missing = match asked {
        Asked::Replace(k, _) | Asked::Drop(k) => (k >= count).then_some(k),
        _ => None,
    };
    let cut = |n: u64| n >> 32 > 0 && n as u32 <= 16;
    match number {
        rules::BAD_IMAGE => vec![
            size.contains(&0).then_some("10, a side of 0"),
            size.contains(&4097).then_some("10, a side of 4097"),
            many.then_some("10 before 16"),
            missing.map(|_| "10 before 35"),
        ],
        rules::TOO_MANY => vec![
            (count == 4096).then_some("16, adding to 4,096"),
            (count == 4097).then_some("16, a count of 4,097"),
            cut(count).then_some("16, a count good in 32 bits"),
            missing.map(|_| "16 before 35"),
        ],
        _ => vec![
            (missing == Some(count)).then_some("35, the list's length"),
            missing
                .is_some_and(cut)
                .then_some("35, a number good in 32 bits"),
            (count == 0).then_some("35, an empty list"),
        ],
    }
}

fn met_accepted(size: [u64; 2], held: &Covered, asked: Asked) -> Vec<Option<&'static str>> {
    let count = held.count as usize;
    let tile = |place: Triple| rules::tile(size, place);
    let none = |place: Triple| tile(place) == rules::NO_TILE;
    let old = |k: u64| held.list[k as usize];
    match asked {
        Asked::Afresh => vec![
            Some("afresh"),
            (count == rules::MOST).then_some("afresh, 4,096 corners"),
            (rules::summary(size, &held.list[..count]) != held.counts)
                .then_some("afresh, counts that were not the summary"),
        ],
        Asked::Add(place) => {
            let mut met = met_added(size, place);
            met.push((count + 1 == rules::MOST).then_some("added, the 4,096th"));
            met.push((held.counts[tile(place)] == u16::MAX).then_some("65,535 stays"));
            met
        }
        Asked::Replace(k, place) => vec![
            (tile(place) == tile(old(k))).then_some("replaced in its own tile"),
            (tile(place) != tile(old(k))).then_some("replaced in another tile"),
            none(place).then_some("replaced in no tile"),
            none(old(k)).then_some("replaced out of none"),
            (held.counts[tile(old(k))] == 0).then_some("0 stays 0"),
        ],
        Asked::Drop(k) => vec![
            (k == 0).then_some("dropped the first"),
            (k as usize + 1 == count).then_some("dropped the last"),
            (k > 0 && k as usize + 1 < count).then_some("dropped one between"),
            none(old(k)).then_some("dropped out of no tile"),
            (count == rules::MOST).then_some("dropped of 4,096"),
            (held.counts[tile(old(k))] == 0).then_some("0 stays 0"),
        ],
    }
}

/// What an added corner's place is.
fn met_added(size: [u64; 2], place: Triple) -> Vec<Option<&'static str>> {
    let [x, y, strength] = place;
    let axes = [(x, size[0]), (y, size[1])];
    let any = |what: &dyn Fn(f32, u64) -> bool| axes.iter().any(|(v, side)| what(*v, *side));
    let inside = rules::tile(size, place) != rules::NO_TILE;
    let starts = |v: f32, side: u64| {
        let pixel = v.floor() as u64;
        pixel > 0 && pixel * 8 / side > (pixel - 1) * 8 / side
    };
    let minus = |v: f32| v.to_bits() == (-0.0f32).to_bits();
    vec![
        (!inside).then_some("added in no tile"),
        (inside && any(&|v, _| minus(v))).then_some("added at -0.0"),
        any(&|v, _| v == -0.5).then_some("added at -0.5"),
        (inside && any(&|v, side| v >= side as f32 - 0.5))
            .then_some("added in the last half pixel"),
        any(&|v, side| v == side as f32).then_some("added at the size"),
        any(&|v, _| !v.is_finite()).then_some("added, not finite"),
        (inside && !strength.is_finite()).then_some("added, only the strength not finite"),
        (inside && any(&|v, side| v == v.floor() && starts(v, side)))
            .then_some("added on a tile's border"),
        (inside && any(&|v, side| v < v.next_up().floor() && starts(v.next_up(), side)))
            .then_some("added below a tile's border"),
    ]
}

/// The counts that are not 0: how many, and for each its tile above 16 bits of
/// count.
fn put_counts(case: &mut Case, counts: &[u16; 65]) {
    let some = || counts.iter().enumerate().filter(|(_, n)| **n != 0);
    case.count(some().count());
    for (tile, n) in some() {
        case.word((tile as u32) << 16 | u32::from(*n));
    }
}

/// The records that are not as the ground is: how many, and the number and the
/// floats of each.
fn put_list(case: &mut Case, painted: bool, list: &[Triple]) {
    let bits = |record: Triple| record.map(bits32);
    let other = |k: &usize| bits(list[*k]) != bits(ground(painted, *k));
    let others: Vec<usize> = (0..list.len()).filter(other).collect();
    case.count(others.len());
    for k in others {
        case.count(k).floats(&list[k]);
    }
}

fn put_call(case: &mut Case, asked: Asked) {
    let (kind, number, corner) = match asked {
        Asked::Afresh => (0, 0, [0.0; 3]),
        Asked::Add(corner) => (1, 0, corner),
        Asked::Replace(number, corner) => (2, number, corner),
        Asked::Drop(number) => (3, number, [0.0; 3]),
    };
    case.word(kind).long(number).floats(&corner);
}

fn write(list: &mut List, row: &Row) {
    let mut held = row.held.clone();
    let mut case = Case::new();
    case.long(row.size[0]).long(row.size[1]).long(held.count);
    case.flag(row.painted).count(row.calls.len());
    put_counts(&mut case, &held.counts);
    for asked in &row.calls {
        put_call(&mut case, *asked);
    }
    put_list(&mut case, row.painted, &held.list);
    for asked in &row.calls {
        for what in met(row.size, &held, *asked) {
            list.tally(what);
        }
        let decision = calls::cover(row.size, &mut held, *asked);
        case.word(decision.number);
        list.tally(number_name(decision.number));
    }
    case.long(held.count);
    put_counts(&mut case, &held.counts);
    put_list(&mut case, row.painted, &held.list);
    list.push(&case);
}

fn at(x: f32, y: f32) -> Triple {
    [x, y, 1.0]
}

/// Coordinates about the borders of an axis and of its eighths.
pub fn telling(side: u64) -> Vec<f32> {
    let end = side as f32;
    let mut out = vec![0.0, -0.0, -0.5, -f32::from_bits(1), f32::from_bits(1)];
    out.extend([end, end - 0.5, end.next_down(), end.next_up(), end + 0.5]);
    out.extend([f32::NAN, f32::INFINITY, f32::NEG_INFINITY]);
    out.extend([f32::MAX, f32::MIN, 4e9, 2e19, -1.0]);
    for k in 1..8 {
        let first = (k * side).div_ceil(8) as f32;
        out.extend([first, first.next_down(), first - 1.0, first + 0.5]);
    }
    out
}

const SIZES: [[u64; 2]; 7] = [
    [1, 1],
    [7, 5],
    [8, 8],
    [9, 17],
    [640, 480],
    [1023, 4095],
    [4096, 4096],
];

/// Places about the borders added, a few at a time.
fn places(list: &mut List) {
    for size in SIZES {
        let [xs, ys] = size.map(telling);
        let middle = size.map(|side| side as f32 / 2.0);
        let across = xs.iter().map(|x| at(*x, middle[1]));
        let down = ys.iter().map(|y| at(middle[0], *y));
        let both = xs.iter().zip(ys.iter().rev()).map(|(x, y)| at(*x, *y));
        let all: Vec<Asked> = across.chain(down).chain(both).map(Asked::Add).collect();
        for some in all.chunks(9) {
            write(list, &Row::of(size, &[], some));
        }
    }
}

/// A few corners in tiles of their own, two in one, and some in none.
fn few() -> Vec<Triple> {
    vec![
        at(5.0, 7.0),
        at(100.0, 7.5),
        at(-0.5, 3.0),
        at(630.0, 470.0),
        [101.0, 8.0, f32::NAN],
        [f32::NAN, f32::NAN, f32::NAN],
        [639.5, 479.5, f32::INFINITY],
    ]
}

const VGA: [u64; 2] = [640, 480];

/// Each corner of a short list dropped and replaced, and numbers that are none.
fn each(list: &mut List) {
    let all = few();
    let news = [at(5.5, 7.5), at(320.0, 240.0), at(640.0, 3.0)];
    for count in [0, 1, 2, 3, 7] {
        let some = &all[..count];
        let numbers = (0..=count as u64 + 1).chain([4095, 4096, 1 << 32, u64::MAX]);
        for k in numbers {
            write(list, &Row::of(VGA, some, &[Asked::Drop(k)]));
            write(list, &Row::of(VGA, some, &[Asked::Drop(k), Asked::Afresh]));
            for new in news {
                let row = Row::of(VGA, some, &[Asked::Replace(k, new)]);
                write(list, &row);
            }
        }
        let drops = vec![Asked::Drop(0); count + 1];
        write(list, &Row::of(VGA, some, &drops));
    }
    for k in 0..7 {
        let own = Asked::Replace(k, all[k as usize]);
        write(list, &Row::of(VGA, &all, &[own, own]));
    }
}

/// Counts that are not the summary: none, full, and anything.
fn counts(list: &mut List) {
    let all = few();
    let mut any = [0; 65];
    for (k, n) in any.iter_mut().enumerate() {
        *n = [0, 1, 2, 65_534, 65_535, 300][k % 6];
    }
    let calls = [
        Asked::Add(all[0]),
        Asked::Add(all[5]),
        Asked::Add(all[6]),
        Asked::Replace(0, all[1]),
        Asked::Replace(1, all[4]),
        Asked::Replace(2, all[3]),
        Asked::Drop(0),
        Asked::Drop(2),
        Asked::Drop(6),
        Asked::Afresh,
    ];
    for counts in [[0; 65], [u16::MAX; 65], [1; 65], [65_534; 65], any] {
        for call in calls {
            let row = Row::of(VGA, &all, &[call]).with_counts(counts);
            write(list, &row);
            let row = Row::of(VGA, &all, &[call, call]).with_counts(counts);
            write(list, &row);
        }
        write(list, &Row::of(VGA, &all, &calls).with_counts(counts));
    }
}

/// Every kind of call, with a number that may be in the list or not.
fn kinds(number: u64) -> [Asked; 4] {
    let corner = at(3.0, 3.0);
    [
        Asked::Afresh,
        Asked::Add(corner),
        Asked::Replace(number, corner),
        Asked::Drop(number),
    ]
}

/// The refusals and their order: sizes, counts and numbers.
fn order(list: &mut List) {
    let sides = super::salvage::SIDES;
    for width in sides {
        for height in [4096, 0, 4097] {
            let row = Row::of([width, height], &few(), &kinds(3));
            write(list, &row);
        }
        write(list, &Row::of([7, width], &few(), &kinds(7)));
    }
    for count in [4095, 4096, 4097, 1 << 32, (1 << 32) + 2, u64::MAX] {
        for number in [0, 2, 4095, 4096, 4097, u64::MAX - 1, u64::MAX] {
            for size in [VGA, [0, 480]] {
                let calls = kinds(number);
                write(list, &Row::on(false, size, &few(), count, &calls));
            }
        }
    }
}

/// Long lists, most of them paint or zeros. Paint is not moved: it would be
/// other records.
fn long(list: &mut List) {
    let corner = at(77.0, 99.0);
    let on = |painted, count, calls: &[Asked]| Row::on(painted, VGA, &few(), count, calls);
    for count in [4094, 4095, 4096] {
        write(list, &on(true, count, &[Asked::Add(corner); 3]));
        let replaced = [Asked::Afresh, Asked::Replace(5, corner), Asked::Afresh];
        write(list, &on(true, count, &replaced));
        write(list, &on(true, count, &replaced).with_counts([9; 65]));
        write(list, &on(true, count, &[Asked::Drop(count - 1)]));
        for number in [0, 6, 7, count - 2, count - 1, count] {
            let calls = [Asked::Drop(number), Asked::Add(corner), Asked::Drop(number)];
            for calls in [&calls[..1], &calls] {
                let row = on(false, count, calls).with_record(4093, at(200.0, 300.0));
                let row = row.with_record(4094, at(300.0, 200.0));
                write(list, &row.with_record(4095, at(-3.0, 9.0)));
            }
        }
    }
}

/// A long list of corners, of which some near its front are dropped.
fn moved(list: &mut List, random: &mut Random) {
    let given: Vec<Triple> = (0..600).map(|_| any_corner(random, VGA)).collect();
    let calls = [1, 0, 7, 500, 4].map(Asked::Drop);
    write(list, &Row::of(VGA, &given, &calls));
}

fn any_coordinate(random: &mut Random, side: u64) -> f32 {
    match random.below(8) {
        0 => odd_float(random),
        1..=3 => random.pick(&telling(side.clamp(1, 4096))),
        _ => (random.unit() * 1.1 - 0.05) * (side % 8192) as f32,
    }
}

pub fn any_corner(random: &mut Random, [width, height]: [u64; 2]) -> Triple {
    let strength = match random.below(8) {
        0 => odd_float(random),
        _ => random.unit(),
    };
    [
        any_coordinate(random, width),
        any_coordinate(random, height),
        strength,
    ]
}

/// A number about those of a list.
fn any_number(random: &mut Random, count: u64) -> u64 {
    match random.below(16) {
        0 => count,
        1 => random.pick(&[4095, 4096, 1 << 32, (1 << 32) + 1, u64::MAX]),
        2..=3 => 0,
        4..=5 => count.saturating_sub(1),
        _ => random.below(count.clamp(1, 4096) as usize) as u64,
    }
}

/// A call on a list of so many corners.
pub fn any_call(random: &mut Random, size: [u64; 2], count: u64) -> Asked {
    let number = any_number(random, count);
    match random.below(16) {
        0 => Asked::Afresh,
        1..=6 => Asked::Add(any_corner(random, size)),
        7..=10 => Asked::Replace(number, any_corner(random, size)),
        _ => Asked::Drop(number),
    }
}

fn any_size(random: &mut Random) -> [u64; 2] {
    [0, 1].map(|_| match random.below(40) {
        0 => random.pick(&super::salvage::SIDES),
        1..=4 => 1 + random.below(20) as u64,
        _ => 1 + random.below(4096) as u64,
    })
}

fn any_counts(random: &mut Random) -> [u16; 65] {
    let few = random.once_in(2);
    core::array::from_fn(|_| match random.below(4) {
        0 => 0,
        1 if !few => u16::MAX,
        _ if few => random.below(3) as u16,
        _ => random.word() as u16,
    })
}

/// A call of any kind, each as often as another.
pub fn even_call(random: &mut Random, size: [u64; 2], count: u64) -> Asked {
    let number = any_number(random, count);
    match random.below(4) {
        0 => Asked::Afresh,
        1 => Asked::Add(any_corner(random, size)),
        2 => Asked::Replace(number, any_corner(random, size)),
        _ => Asked::Drop(number),
    }
}

/// A call on a list of so many corners of an image of this size.
type AnyCall = fn(&mut Random, [u64; 2], u64) -> Asked;

/// So many calls on a list of up to so many corners, or now and then a longer one.
pub fn any(random: &mut Random, corners: usize, calls: usize) -> Row {
    any_of(random, corners, calls, any_call)
}

/// The same with calls of this kind.
pub fn any_of(random: &mut Random, corners: usize, calls: usize, call: AnyCall) -> Row {
    let size = any_size(random);
    let given: Vec<Triple> = (0..random.below(corners + 1))
        .map(|_| any_corner(random, size))
        .collect();
    let mut row = Row::of(size, &given, &[]);
    if random.once_in(12) {
        let count = random.pick(&[4090, 4095, 4096, 4097, (1 << 32) + 1, u64::MAX]);
        row = Row::on(false, size, &given, count, &[]);
    }
    let mut held = row.held.clone();
    for _ in 0..calls {
        let asked = call(random, size, held.count);
        row.calls.push(asked);
        rules::covered(size, &mut held, asked);
    }
    if random.once_in(3) {
        row = row.with_counts(any_counts(random));
    }
    row
}

pub fn list(seed: u64) -> List {
    let mut list = List::new("coverage");
    for borders in [places, each, counts, order, long] {
        borders(&mut list);
    }
    let mut random = Random::of(seed, "coverage");
    moved(&mut list, &mut random);
    while list.size() < 3 * ENOUGH / 4 {
        let calls = 1 + random.below(12);
        write(&mut list, &any(&mut random, 9, calls));
    }
    list
}
