//! Each corner tied to its square (W-206): the corner of each place, or the
//! place at fault.

use super::*;
use crate::rules;

#[derive(Clone)]
struct Call {
    rows: u64,
    columns: u64,
    places: Vec<f32>,
    limit: f32,
    floats: Vec<f32>,
    answers: usize,
}

impl Call {
    fn board(&self) -> Board<'_> {
        Board {
            rows: self.rows,
            columns: self.columns,
            places: &self.places,
            limit: self.limit,
        }
    }
}

/// All that `met` can give.
pub const MET: [&str; 9] = [
    "tie",
    "NaN distance",
    "infinite distance",
    "at the limit",
    "a last bit beyond",
    "33, no distance is a number",
    "33, infinite",
    "33 before 34",
    "34 before 33",
];

/// What is met on a board that no number up to 32 refuses, at the places that
/// are looked at.
pub fn met(b: &Board<'_>, list: &[Triple]) -> Vec<&'static str> {
    let fault = rules::tied(b, list).err();
    let looked_at = fault.map_or(b.places.len() / 2, |(_, place)| place + 1);
    let mut met = Vec::new();
    for place in b.places.chunks_exact(2).take(looked_at) {
        let all = || list.iter().map(|corner| rules::square(place, corner));
        let Some((_, least)) = rules::nearest(place, list) else {
            continue;
        };
        met.extend([
            (all().filter(|d| *d == least).count() > 1).then_some("tie"),
            all().any(f32::is_nan).then_some("NaN distance"),
            all().any(f32::is_infinite).then_some("infinite distance"),
            (least == b.limit).then_some("at the limit"),
            (least == b.limit.next_up()).then_some("a last bit beyond"),
        ]);
    }
    met.push(fault.and_then(|(number, place)| at_fault(b, list, number, place)));
    let mut met: Vec<_> = met.into_iter().flatten().collect();
    met.sort_unstable();
    met.dedup();
    met
}

/// How the place at fault stands to the other number.
fn at_fault(b: &Board<'_>, list: &[Triple], number: u32, at: usize) -> Option<&'static str> {
    let corner = |k: usize| rules::nearest(&b.places[2 * k..], list);
    let within = |k: usize| corner(k).is_some_and(|(_, d)| d <= b.limit);
    let count = b.places.len() / 2;
    match corner(at) {
        None => Some("33, no distance is a number"),
        Some((_, d)) if d.is_infinite() => Some("33, infinite"),
        Some((c, _)) if number == rules::NO_CORNER => (0..at)
            .any(|k| corner(k).is_some_and(|(other, _)| other == c))
            .then_some("33 before 34"),
        Some(_) => (at + 1..count)
            .any(|k| !within(k))
            .then_some("34 before 33"),
    }
}

fn write(list: &mut List, c: &Call) {
    let (decision, place, tied) = calls::tie(&c.board(), &c.floats, c.answers);
    let mut case = Case::new();
    case.long(c.rows).long(c.columns);
    put_padded(&mut case, &c.places);
    case.float(c.limit);
    put_padded(&mut case, &c.floats);
    case.count(c.answers);
    put_decision(&mut case, decision);
    case.count(place.unwrap_or(0)).count(tied.len());
    for corner in tied {
        case.word(u32::from(corner));
    }
    list.push(&case);
    list.tally(number_name(decision.number));
    if decision.number == 0 || place.is_some() {
        for what in met(&c.board(), &triples(&c.floats)) {
            list.tally(what);
        }
    }
}

fn call(rows: u64, columns: u64, places: &[[f32; 2]], list: &[Triple], limit: f32) -> Call {
    Call {
        rows,
        columns,
        places: places.concat(),
        limit,
        floats: list.concat(),
        answers: places.len(),
    }
}

/// One place at the origin.
fn one(list: &[Triple], limit: f32) -> Call {
    call(2, 2, &[[0.0; 2]], list, limit)
}

/// Places in one row at these x.
fn row(xs: &[f32], list: &[Triple], limit: f32) -> Call {
    let places: Vec<[f32; 2]> = xs.iter().map(|x| [*x, 0.0]).collect();
    call(2, xs.len() as u64 + 1, &places, list, limit)
}

fn corner(x: f32, y: f32) -> Triple {
    [x, y, 1.0]
}

/// A board of 8-pixel squares, all tied: the corner of a place stands half a
/// pixel right of it, and the last place's comes first.
fn whole(rows: u64, columns: u64) -> Call {
    let mut places = Vec::new();
    for y in 1..rows {
        for x in 1..columns {
            places.push([8.0 * x as f32, 8.0 * y as f32]);
        }
    }
    let beside = |p: &[f32; 2]| corner(p[0] + 0.5, p[1]);
    let list: Vec<Triple> = places.iter().rev().map(beside).collect();
    call(rows, columns, &places, &list, 1.0)
}

/// The size of the board, and numbers that wrap or are cut to a good one.
fn sizes(list: &mut List) {
    for (rows, columns) in [(2, 2), (2, 3), (3, 2), (2, 32), (32, 2), (8, 10), (32, 32)] {
        write(list, &whole(rows, columns));
    }
    for (rows, columns) in [(33, 2), (2, 33), (34, 2), (1, 2), (2, 1), (1, 1)] {
        write(list, &whole(rows, columns));
    }
    let wide = (1 << 32) + 1;
    for bad in [0, 1, 33, 1 << 31, 1 << 32, wide + 1, 1 << 63, u64::MAX] {
        for (rows, columns) in [(bad, 2), (2, bad), (bad, bad)] {
            for places in [0, 1] {
                let mut c = one(&[corner(0.0, 0.0)], 1.0);
                (c.rows, c.columns) = (rows, columns);
                c.places.truncate(2 * places);
                c.answers = places;
                write(list, &c);
            }
        }
    }
    let mut wrapped = call(wide, wide, &[], &[corner(0.0, 0.0)], 1.0);
    write(list, &wrapped);
    (wrapped.rows, wrapped.columns) = ((1 << 63) + 1, 2);
    write(list, &wrapped);
}

/// Places, answers and corners too few and too many.
fn lengths(list: &mut List) {
    let board = whole(3, 4);
    for places in [0, 1, 2, 6, 10, 11, 12, 13, 14, 24] {
        let mut c = board.clone();
        c.places.resize(places, 1.0);
        write(list, &c);
        c.answers = places / 2;
        write(list, &c);
    }
    for answers in [0, 1, 5, 6, 7, 12] {
        let mut c = board.clone();
        c.answers = answers;
        write(list, &c);
    }
    for floats in [0, 1, 2, 3, 4, 5, 15, 16, 17, 18, 19] {
        let mut c = board.clone();
        c.floats.resize(floats, 1.0);
        write(list, &c);
    }
    let most = 3 * rules::MOST;
    for floats in [most - 3, most, most + 1, most + 2, most + 3, most + 4] {
        let mut c = one(&[], 1.0);
        c.floats = vec![0.0; floats];
        write(list, &c);
        c.floats[5] = 0.5;
        c.places = vec![0.25, 0.0];
        write(list, &c);
    }
}

/// Limits about one distance and beside zero, and distances that a fused
/// product would round otherwise.
fn limits(list: &mut List) {
    let odd = [
        0.0,
        -0.0,
        1e-45,
        f32::MAX,
        f32::NAN,
        f32::INFINITY,
        f32::NEG_INFINITY,
        -1.0,
        -1e-45,
    ];
    let at = 25f32;
    for limit in [at, at.next_down(), at.next_up()].into_iter().chain(odd) {
        write(list, &one(&[corner(3.0, 4.0)], limit));
        write(list, &one(&[], limit));
        for x in [0.0, -0.0, 1e-30, 3.8e-23, 1e-45] {
            write(list, &one(&[corner(x, 0.0)], limit));
        }
    }
    // The square of x is a last bit below the greatest number, that of y the bit.
    let farthest = corner(1.844_674_3e19, 4.503_599_6e15);
    for limit in [f32::MAX, f32::MAX.next_down()] {
        write(list, &one(&[farthest], limit));
        write(list, &one(&[farthest, farthest], limit));
    }
    let mut random = Random::of(6, "limits");
    for _ in 0..40 {
        let [x, y] = [0, 1].map(|_| 20.0 * random.unit() - 10.0);
        let d = x * x + y * y;
        for limit in [d, d.next_down()] {
            write(list, &one(&[corner(x, y)], limit));
            write(list, &one(&[corner(50.0, 0.0), corner(x, y)], limit));
        }
    }
}

/// Odd numbers as a place, and as a corner before and behind a near one.
fn odd(list: &mut List) {
    let odd = [
        f32::NAN,
        f32::INFINITY,
        f32::NEG_INFINITY,
        -0.0,
        1e-45,
        1e20,
        -3e38,
        f32::MAX,
    ];
    let near = corner(1.0, 1.0);
    for x in odd {
        for k in 0..12 {
            let mut c = whole(3, 4);
            c.places[k] = x;
            write(list, &c);
        }
        for y in odd {
            for limit in [2.0, f32::MAX] {
                write(list, &one(&[corner(x, y)], limit));
                write(list, &one(&[corner(x, y), near], limit));
                write(list, &one(&[near, corner(x, y), near], limit));
            }
        }
        for place in [f32::MAX, f32::MIN, -0.0, 1e-45] {
            write(list, &row(&[place], &[corner(x, 0.0), near], f32::MAX));
        }
        write(list, &one(&[[1.0, 1.0, x], [1.0, 0.0, x]], 2.0));
    }
    write(list, &one(&[corner(f32::NAN, 0.0); 5], 2.0));
    write(list, &one(&[corner(0.0, f32::INFINITY); 5], 2.0));
}

/// Corners at one distance, in every order: the lowest number is taken, also
/// where an earlier place has it.
fn ties(list: &mut List) {
    let round = [
        corner(3.0, 4.0),
        corner(-5.0, 0.0),
        corner(4.0, -3.0),
        corner(0.0, 5.0),
    ];
    for first in 0..4 {
        let mut turned = round;
        turned.rotate_left(first);
        write(list, &one(&turned, 25.0));
        for at in 0..=4 {
            for beside in [corner(0.5, 0.0), corner(9.0, 0.0), corner(f32::NAN, 0.0)] {
                let mut more = turned.to_vec();
                more.insert(at, beside);
                write(list, &one(&more, 25.0));
            }
        }
    }
    let [left, middle, right] = [-1.0, 0.0, 1.0].map(|x| corner(x, 0.0));
    for corners in [[left, right], [right, left], [middle, middle]] {
        for xs in [[0.0, 1.0], [0.0, -1.0], [1.0, 0.0], [-1.0, 0.0]] {
            write(list, &row(&xs, &corners, 1.0));
        }
    }
}

/// Places without a corner and places that share one, at every place of a
/// board, and both at once.
fn faults(list: &mut List) {
    for k in 0..6 {
        for limit in [1.0, 64.0, 1000.0] {
            let mut c = whole(3, 4);
            let from = c.floats.len() - 3 * (k + 1);
            c.floats.drain(from..from + 3);
            c.limit = limit;
            write(list, &c);
        }
        for other in 0..6 {
            let mut c = whole(3, 4);
            c.places.copy_within(2 * other..2 * other + 2, 2 * k);
            write(list, &c);
            c.floats[..3].fill(f32::NAN);
            write(list, &c);
        }
    }
    let middle = [corner(0.0, 0.0)];
    for xs in [
        [0.0, 9.0, 0.5],
        [0.0, 0.5, 9.0],
        [9.0, 0.0, 0.5],
        [0.0, 0.0, 0.0],
        [0.5, 1.0, 1.5],
        [1.5, 1.0, 0.5],
    ] {
        write(list, &row(&xs, &middle, 1.0));
        write(list, &row(&xs, &[middle[0], corner(9.0, 0.0)], 1.0));
    }
}

/// Each pair of numbers at once: the lower one is given.
fn order(list: &mut List) {
    let spoil = |c: &mut Call, number: u32| match number {
        rules::BAD_BOARD => c.answers += 1,
        rules::BAD_PLACE => c.places[11] = f32::NAN,
        rules::BAD_LIST => c.floats.push(1.0),
        rules::NO_CORNER => c.places[2] = 1e9,
        _ => c.places.copy_within(0..2, 4),
    };
    let numbers = [30, 31, 32, 33, 34];
    for (i, &a) in numbers.iter().enumerate() {
        for &b in &numbers[i..] {
            let mut c = whole(3, 4);
            spoil(&mut c, a);
            if a != b {
                spoil(&mut c, b);
            }
            write(list, &c);
        }
    }
}

/// The largest board among as many corners as a list holds, the last of them
/// the last place's.
fn full(list: &mut List) {
    let mut random = Random::of(9, "full");
    let mut c = whole(32, 32);
    let own = c.floats.split_off(0);
    for _ in 0..rules::MOST - own.len() / 3 {
        let [x, y] = [0, 1].map(|_| 256.0 * random.unit());
        c.floats.extend(corner(x, y));
    }
    c.floats.extend(own.chunks_exact(3).rev().flatten());
    write(list, &c);
}

fn seeded(random: &mut Random) -> Call {
    let [rows, columns] = [0, 1].map(|_| random.between(2, 6) as u64);
    let mut c = whole(rows, columns);
    let coarse = random.once_in(2);
    let reach = random.pick(&[1.0, 4.0, 8.0, 16.0]);
    for v in c.places.iter_mut().chain(&mut c.floats) {
        let moved = (random.unit() - 0.5) * reach;
        *v += if coarse { moved.round() } else { moved };
    }
    for _ in 0..random.below(12) {
        let [x, y] = [0, 1].map(|_| (random.unit() * 50.0).round());
        c.floats.extend(corner(x, y));
    }
    if random.once_in(4) {
        let at = random.below(c.floats.len());
        c.floats[at] = odd_float(random);
    }
    if random.once_in(12) {
        let at = random.below(c.places.len());
        c.places[at] = odd_float(random);
    }
    let list = triples(&c.floats);
    let places = c.places.chunks_exact(2);
    let far = places.filter_map(|place| rules::nearest(place, &list));
    let limit = far.map(|(_, d)| d).fold(0.0, f32::max);
    c.limit = random.pick(&[limit, limit, limit.next_down(), 4.0, 1e9]);
    c
}

pub fn list(seed: u64) -> List {
    let mut list = List::new("board");
    for borders in [sizes, lengths, limits, odd, ties, faults, order, full] {
        borders(&mut list);
    }
    let mut random = Random::of(seed, "board");
    while list.size() < 3 * ENOUGH / 4 {
        let c = seeded(&mut random);
        write(&mut list, &c);
    }
    list
}
