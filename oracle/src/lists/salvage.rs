//! Damaged corner files (W-214): the records that are kept, and the number and
//! the fault of each other one.

use super::*;
use crate::rules;

/// A call: the outputs are lent with so many bytes and numbers.
#[derive(Clone)]
pub struct Call {
    pub file: Vec<u8>,
    pub size: [u64; 2],
    pub out: usize,
    pub faults: usize,
}

/// All that `met` can give.
pub const MET: [&str; 29] = [
    "10, a side of 0",
    "10, a side of 4097",
    "10, a side good in 32 bits",
    "10 before 16",
    "16, 4,097 records",
    "16 before 15",
    "15, out a byte short",
    "15, faults a number short",
    "15, no room at all",
    "0, an empty file",
    "0, nothing dropped",
    "0, nothing kept",
    "0, 4,096 records",
    "0, 4,096 records and a cut one",
    "0, both outputs just enough",
    "0, cut after 1 byte",
    "0, cut after 11 bytes",
    "0, cut behind a dropped record",
    "0, NaN",
    "0, infinite",
    "0, a strength that is not finite",
    "0, not finite and outside",
    "0, -0.0 kept",
    "0, at the last pixel",
    "0, a last bit beyond",
    "0, below 0",
    "0, outside in x alone",
    "0, outside in y alone",
    "0, a negative strength kept",
];

/// Which border of the rules a call is at.
pub fn met(call: &Call) -> Vec<&'static str> {
    let whole = call.file.len() / 12;
    let side = |n: u64| call.size.contains(&n);
    let roomy = rules::salvaged(&call.file, call.size, usize::MAX, usize::MAX);
    let met = match (
        &roomy,
        calls::salvage(&call.file, call.size, call.out, call.faults).1,
    ) {
        (Err(rules::BAD_IMAGE), _) => vec![
            side(0).then_some("10, a side of 0"),
            side(4097).then_some("10, a side of 4097"),
            side((1 << 32) + 4).then_some("10, a side good in 32 bits"),
            (whole > rules::MOST).then_some("10 before 16"),
        ],
        (Err(_), _) => vec![
            (whole == rules::MOST + 1).then_some("16, 4,097 records"),
            (call.out == 0).then_some("16 before 15"),
        ],
        (Ok(needed), None) => vec![
            (call.out + 1 == needed.kept.len()).then_some("15, out a byte short"),
            (call.faults + 1 == 2 * needed.dropped.len()).then_some("15, faults a number short"),
            (call.out + call.faults == 0).then_some("15, no room at all"),
        ],
        (Ok(_), Some(saved)) => [met_whole(call, &saved), met_records(call)].concat(),
    };
    met.into_iter().flatten().collect()
}

/// What a salvaged file is as a whole.
fn met_whole(call: &Call, saved: &Salvaged) -> Vec<Option<&'static str>> {
    let (whole, left) = (call.file.len() / 12, call.file.len() % 12);
    let enough = [saved.kept.len(), 2 * saved.dropped.len()] == [call.out, call.faults];
    let faults = saved.dropped.len();
    let behind = left > 0 && faults > 1 && usize::from(saved.dropped[faults - 2][0]) + 1 == whole;
    vec![
        call.file.is_empty().then_some("0, an empty file"),
        (whole > 0 && faults == 0).then_some("0, nothing dropped"),
        (whole > 0 && saved.kept.is_empty()).then_some("0, nothing kept"),
        (whole == rules::MOST && left == 0).then_some("0, 4,096 records"),
        (whole == rules::MOST && left > 0).then_some("0, 4,096 records and a cut one"),
        (whole > 0 && enough).then_some("0, both outputs just enough"),
        (left == 1).then_some("0, cut after 1 byte"),
        (left == 11).then_some("0, cut after 11 bytes"),
        behind.then_some("0, cut behind a dropped record"),
    ]
}

/// What its whole records are, each named once.
fn met_records(call: &Call) -> Vec<Option<&'static str>> {
    let last = call.size.map(|side| (side - 1) as f32);
    let ends = |v: f32, k: usize| v == last[k];
    let beyond = |v: f32, k: usize| v == last[k].next_up();
    let mut met = Vec::new();
    for bytes in call.file.chunks_exact(12) {
        let Some([x, y, strength]) = rules::record(bytes) else {
            continue;
        };
        let all = [x, y, strength];
        let fault = rules::fault(call.size, bytes);
        let kept = fault.is_none();
        let outside = fault == Some(rules::OUTSIDE);
        let far = |v: f32, k: usize| !(0.0..=last[k]).contains(&v) && v.is_finite();
        let minus = |v: f32| v.to_bits() == (-0.0f32).to_bits();
        met.extend([
            all.iter().any(|v| v.is_nan()).then_some("0, NaN"),
            all.iter().any(|v| v.is_infinite()).then_some("0, infinite"),
            (x.is_finite() && y.is_finite() && !strength.is_finite())
                .then_some("0, a strength that is not finite"),
            (fault == Some(rules::WITHOUT_A_NUMBER) && (far(x, 0) || far(y, 1)))
                .then_some("0, not finite and outside"),
            (kept && (minus(x) || minus(y))).then_some("0, -0.0 kept"),
            (kept && (ends(x, 0) || ends(y, 1))).then_some("0, at the last pixel"),
            (outside && (beyond(x, 0) || beyond(y, 1))).then_some("0, a last bit beyond"),
            (outside && (x < 0.0 || y < 0.0)).then_some("0, below 0"),
            (outside && far(x, 0) && !far(y, 1)).then_some("0, outside in x alone"),
            (outside && far(y, 1) && !far(x, 0)).then_some("0, outside in y alone"),
            (kept && strength < 0.0).then_some("0, a negative strength kept"),
        ]);
    }
    met.sort_unstable();
    met.dedup();
    met
}

/// Bytes of which the last ones are 0: all of their number, how many are
/// written, a whole number of records, and these.
fn put_records(case: &mut Case, bytes: &[u8]) {
    let last = bytes.iter().rposition(|b| *b != 0).map_or(0, |k| k + 1);
    let given = last.div_ceil(12) * 12;
    let given = given.min(bytes.len());
    case.count(bytes.len()).count(given).bytes(&bytes[..given]);
}

fn write(list: &mut List, call: &Call) {
    let (decision, saved) = calls::salvage(&call.file, call.size, call.out, call.faults);
    let saved = saved.unwrap_or_default();
    let mut case = Case::new();
    case.long(call.size[0]).long(call.size[1]);
    put_records(&mut case, &call.file);
    case.count(call.out).count(call.faults);
    put_decision(&mut case, decision);
    case.count(saved.kept.len() / 12).count(saved.dropped.len());
    put_records(&mut case, &saved.kept);
    for [number, why] in &saved.dropped {
        case.word(u32::from(*number)).word(u32::from(*why));
    }
    list.push(&case);
    list.tally(number_name(decision.number));
    for what in met(call) {
        list.tally(what);
    }
}

/// The bytes of records, by the bits of their numbers.
pub fn file_of(records: &[[u32; 3]]) -> Vec<u8> {
    let words = records.iter().flatten();
    words.flat_map(|bits| bits.to_le_bytes()).collect()
}

fn floats(records: &[Triple]) -> Vec<u8> {
    let bits: Vec<_> = records.iter().map(|r| r.map(f32::to_bits)).collect();
    file_of(&bits)
}

/// The room that a file needs; some where it is refused.
pub fn needed(file: &[u8], size: [u64; 2]) -> [usize; 2] {
    rules::salvaged(file, size, usize::MAX, usize::MAX)
        .map_or([12, 2], |s| [s.kept.len(), 2 * s.dropped.len()])
}

/// With just as much room as it needs.
pub fn just(file: &[u8], size: [u64; 2]) -> Call {
    let [out, faults] = needed(file, size);
    Call {
        file: file.to_vec(),
        size,
        out,
        faults,
    }
}

/// With room for all of it on both sides.
pub fn roomy(file: &[u8], size: [u64; 2]) -> Call {
    Call {
        file: file.to_vec(),
        size,
        out: file.len() + 7,
        faults: 2 * (file.len() / 12) + 5,
    }
}

/// Five records in an image of 40 by 30: two good ones, and one of each fault.
pub fn small() -> Vec<u8> {
    floats(&[
        [3.5, 4.25, 1.0],
        [f32::NAN, 1.0, 1.0],
        [39.0, 29.0, -2.5],
        [40.0, 1.0, 1.0],
        [-0.0, 0.0, 7.0],
    ])
}

const SIZE: [u64; 2] = [40, 30];

/// Every prefix of a small file.
fn prefixes(list: &mut List) {
    let file = small();
    for count in 0..=file.len() {
        write(list, &roomy(&file[..count], SIZE));
        write(list, &just(&file[..count], SIZE));
    }
}

/// Every prefix with one output a little too short.
fn rooms(list: &mut List) {
    let file = small();
    for count in (0..=file.len())
        .step_by(5)
        .chain([file.len(), file.len() - 1])
    {
        let exact = just(&file[..count], SIZE);
        for (out, faults) in [(1, 0), (12, 0), (0, 1), (0, 2), (1, 1), (99, 99)] {
            let mut call = exact.clone();
            call.out = call.out.saturating_sub(out);
            call.faults = call.faults.saturating_sub(faults);
            write(list, &call);
            call.out = exact.out + out;
            write(list, &call);
        }
    }
}

/// Numbers about the borders of an axis, and what is none, by their bits.
pub fn telling(side: u64) -> Vec<u32> {
    let last = (side - 1) as f32;
    let floats = [
        0.0,
        -0.0,
        f32::from_bits(1),
        -f32::from_bits(1),
        -0.5,
        last,
        last.next_up(),
        last.next_down(),
        last + 0.5,
        last + 1.0,
        -last,
        f32::MAX,
        f32::MIN,
        f32::INFINITY,
        f32::NEG_INFINITY,
        f32::NAN,
    ];
    let nans = [0x7F80_0001, 0xFF80_0001, 0xFFC0_0000, 0x7FFF_FFFF, u32::MAX];
    let bits = floats.into_iter().map(f32::to_bits);
    bits.chain(nans).collect()
}

/// Each of them in each place of a record between two good ones.
fn numbers(list: &mut List) {
    let good = [0, 0, 1.0f32.to_bits()];
    for size in [[1, 1], [2, 3], [640, 480], [4096, 4096]] {
        for at in 0..3 {
            for bits in telling(size[at % 2]) {
                let mut odd = good;
                odd[at] = bits;
                write(list, &just(&file_of(&[good, odd, good]), size));
            }
        }
    }
}

/// Two of them in one record.
fn pairs(list: &mut List) {
    let size = [640, 480];
    let some = |side: u64| telling(side).into_iter().step_by(3);
    for x in some(size[0]) {
        for y in some(size[1]) {
            for strength in [0x8000_0001, 0x7F80_0000] {
                write(list, &roomy(&file_of(&[[x, y, strength]]), size));
            }
        }
    }
}

/// Sides about their borders, and some that are good only where they are cut.
pub const SIDES: [u64; 10] = [
    0,
    1,
    2,
    4095,
    4096,
    4097,
    (1 << 32) + 4,
    1 << 32,
    1 << 63,
    u64::MAX,
];

fn sides(list: &mut List) {
    for width in SIDES {
        for height in SIDES {
            write(list, &just(&small(), [width, height]));
        }
    }
}

/// As many records as a file may have, and about as many.
fn many(list: &mut List) {
    for count in [4095, 4096, 4097, 4098] {
        for left in [0, 1, 11] {
            let file = vec![0; 12 * count + left];
            write(list, &just(&file, SIZE));
        }
        let file = vec![0; 12 * count];
        for size in [[0, 30], [40, 4097]] {
            write(list, &just(&file, size));
        }
        for (out, faults) in [(0, 0), (12 * count - 1, 9000), (12 * count, 0)] {
            write(
                list,
                &Call {
                    out,
                    faults,
                    ..roomy(&file, SIZE)
                },
            );
        }
    }
    // Good ones only in front of those that are 0, and only rubbish.
    let mut file = small();
    file.resize(12 * 4096 + 5, 0);
    write(list, &just(&file, SIZE));
    write(list, &just(&vec![0xFF; 12 * 700 + 3], SIZE));
}

/// A whole file of 4,096 records, and what is kept of it.
fn longest(list: &mut List, random: &mut Random) {
    let records: Vec<Triple> = (0..4096).map(|_| any_record(random, SIZE)).collect();
    let file = floats(&records);
    write(list, &just(&file, SIZE));
}

/// What is kept of a file, as the next file.
fn twice(list: &mut List, random: &mut Random) {
    for _ in 0..40 {
        let call = any(random);
        if let Ok(saved) = rules::salvaged(&call.file, call.size, usize::MAX, usize::MAX) {
            if call.file.len() < 400 {
                write(list, &roomy(&call.file, call.size));
                write(list, &just(&saved.kept, call.size));
            }
        }
    }
}

fn any_number(random: &mut Random, side: u64) -> f32 {
    match random.below(12) {
        0 => f32::from_bits(random.pick(&telling(side.clamp(1, 4096)))),
        1 => f32::from_bits(random.word()),
        2 => random.between(-2, side as i64 % 8192 + 2) as f32,
        _ => random.unit() * (side % 8192) as f32,
    }
}

fn any_record(random: &mut Random, [width, height]: [u64; 2]) -> Triple {
    let strength = match random.below(12) {
        0 => f32::from_bits(random.word()),
        1 => odd_float(random),
        _ => random.unit() * 100.0,
    };
    [
        any_number(random, width),
        any_number(random, height),
        strength,
    ]
}

fn any_side(random: &mut Random) -> u64 {
    match random.below(40) {
        0 => random.pick(&SIDES),
        1..=4 => 1 + random.below(4) as u64,
        _ => 1 + random.below(4096) as u64,
    }
}

/// A call about the borders of the rules.
pub fn any(random: &mut Random) -> Call {
    let size = [0, 1].map(|_| any_side(random));
    let count = random.below(12);
    let records: Vec<Triple> = (0..count).map(|_| any_record(random, size)).collect();
    let mut file = floats(&records);
    match random.below(6) {
        0 | 1 => file.extend((0..random.below(12)).map(|_| random.byte())),
        2 => file.truncate(random.below(file.len() + 1)),
        3 if random.once_in(2) => file.iter_mut().for_each(|b| *b = random.byte()),
        // A byte that is lost moves all that follow.
        4 if !file.is_empty() => drop(file.remove(random.below(file.len()))),
        _ => {}
    }
    let mut call = match random.once_in(3) {
        true => roomy(&file, size),
        false => just(&file, size),
    };
    match random.below(12) {
        0 => call.out = call.out.saturating_sub(1),
        1 => call.faults = call.faults.saturating_sub(1),
        2 => call.out = random.below(call.out + 1),
        3 => call.faults = random.below(call.faults + 1),
        _ => {}
    }
    call
}

pub fn list(seed: u64) -> List {
    let mut list = List::new("salvage");
    for borders in [prefixes, rooms, numbers, pairs, sides, many] {
        borders(&mut list);
    }
    let mut random = Random::of(seed, "salvage");
    longest(&mut list, &mut random);
    twice(&mut list, &mut random);
    while list.size() < 3 * ENOUGH / 4 {
        write(&mut list, &any(&mut random));
    }
    list
}
