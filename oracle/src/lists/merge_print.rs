//! The program merge-print: a file of records, and the text that it prints.

use super::*;
use crate::rules;

/// Document 01's radius, heads and links of the program.
const RADIUS: f32 = 2.0;
const HEADS: usize = 16_384;
const LINKS: usize = 4_096;

/// Bytes of a record.
const RECORD: usize = 12;

/// Three bit patterns to a record, as they are: a NaN keeps its payload here.
fn file(records: &[[u32; 3]]) -> Vec<u8> {
    records
        .concat()
        .iter()
        .flat_map(|bits| bits.to_le_bytes())
        .collect()
}

fn corners(list: &[Triple]) -> Vec<u8> {
    let bits: Vec<[u32; 3]> = list.iter().map(|c| c.map(f32::to_bits)).collect();
    file(&bits)
}

/// The number of a file, and what is printed of it. A file that is cut within
/// a record has no list that the call could be asked with: document 01's 19.
fn printed(bytes: &[u8]) -> (u32, String) {
    let floats: Vec<f32> = bytes
        .chunks_exact(4)
        .map(|b| f32::from_le_bytes([b[0], b[1], b[2], b[3]]))
        .collect();
    let (number, kept) = if bytes.len() % RECORD != 0 {
        (rules::BAD_LENGTH, Vec::new())
    } else {
        let (decision, _, kept) = calls::merge(&floats, RADIUS, HEADS, LINKS);
        (decision.number, kept)
    };
    if number != 0 {
        return (number, format!("refused {number}\n"));
    }
    let mut text = String::new();
    for c in &kept {
        let [x, y, s] = c.map(bits32);
        text.push_str(&format!("{x:08X} {y:08X} {s:08X}\n"));
    }
    text.push_str(&format!("total {}\n", kept.len()));
    (number, text)
}

fn write(list: &mut List, bytes: &[u8]) {
    let (number, text) = printed(bytes);
    let given = bytes.iter().rposition(|b| *b != 0).map_or(0, |k| k + 1);
    let mut case = Case::new();
    case.count(bytes.len()).count(given).bytes(&bytes[..given]);
    case.count(text.len()).bytes(text.as_bytes());
    list.push(&case);
    list.tally(number_name(number));
}

fn borders(list: &mut List) {
    for (_, corners_in, _) in merge::examples() {
        write(list, &corners(&corners_in));
    }
    write(list, &[]);
    write(list, &corners(&[[1.5, -2.25, 3.0]]));
    // Cut within a record: 19, however long, and before 16.
    let three = corners(&[[1.0, 2.0, 3.0], [4.0, 5.0, 6.0], [7.0, 8.0, 9.0]]);
    for cut in [1, 4, 8, 11, 13, 23, 25, 35] {
        write(list, &three[..cut]);
    }
    for records in [4_095, 4_096, 4_097, 5_000] {
        for more in [0, 1, 4, 11] {
            write(list, &vec![0; RECORD * records + more]);
        }
    }
    write(list, &corners(&[[3.0, 1.0, 2.0]; 4_097]));
    // Every pattern of a NaN is printed as one.
    for nan in [0x7FC0_0000, 0x7FC0_0001, 0x7F80_0001, 0xFFC0_0000, u32::MAX] {
        for k in 0..3 {
            let mut records = [[0x3F80_0000; 3]; 2];
            records[1] = [0x4140_0000; 3];
            records[1][k] = nan;
            write(list, &file(&records));
        }
        write(list, &file(&[[nan; 3]; 2]));
    }
    // An infinite place ends the grid; zeros keep their sign; subnormal strengths.
    for x in [f32::INFINITY, f32::NEG_INFINITY] {
        write(
            list,
            &corners(&[[1.0, 1.0, 1.0], [x, 1.0, 2.0], [2.0, 1.0, 3.0]]),
        );
        write(list, &corners(&[[x, x, 1.0], [x, x, 2.0], [1.0, x, 3.0]]));
        write(list, &corners(&[[1.0, 1.0, x], [2.0, 1.0, x]]));
    }
    write(list, &corners(&[[-0.0, 0.0, -0.0], [9.0, -0.0, 1e-45]]));
    write(list, &corners(&[[0.0, 0.0, 1e-45], [1.0, 0.0, 2e-45]]));
    // As many cells as heads, and one row or column more.
    for far in [
        [254.0, 254.0],
        [255.5, 255.5],
        [256.0, 254.0],
        [254.0, 256.0],
        [32_766.0, 0.0],
        [32_768.0, 0.0],
        [1e6, 1e6],
    ] {
        write(list, &corners(&[[0.0, 0.0, 1.0], [far[0], far[1], 2.0]]));
    }
    // 4,096 records: none meets another, and merged.
    let apart: Vec<Triple> = (0..4_096)
        .map(|k| [(k % 64) as f32 * 4.0, (k / 64) as f32 * 4.0, k as f32])
        .collect();
    write(list, &corners(&apart));
    let close: Vec<Triple> = apart.iter().map(|c| c.map(|v| v * 0.25)).collect();
    write(list, &corners(&close));
}

fn seeded(random: &mut Random) -> Vec<u8> {
    let n = random.between(1, 24) as usize;
    let side = random.pick(&[2.0, 6.0, 20.0, 200.0]);
    let mut records: Vec<[u32; 3]> = (0..n)
        .map(|_| {
            let [x, y] = [random.unit() * side, random.unit() * side];
            [x, y, random.unit() * 100.0].map(f32::to_bits)
        })
        .collect();
    if random.once_in(4) {
        let (i, k) = (random.below(n), random.below(3));
        records[i][k] = random.word();
    }
    let mut bytes = file(&records);
    if random.once_in(8) {
        bytes.truncate(bytes.len() - random.below(RECORD));
    }
    bytes
}

pub fn list(seed: u64) -> List {
    let mut list = List::new("merge_print");
    borders(&mut list);
    let mut random = Random::of(seed, "merge_print");
    while list.size() < ENOUGH {
        let bytes = seeded(&mut random);
        write(&mut list, &bytes);
    }
    list
}
