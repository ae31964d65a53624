//! `chess_corners_graymap` against the rules; the Rust has no such call.

use crate::port;
use crate::trial::{self, parts, Lent, Met, Tally, Trial, PAINT};
use oracle::calls;
use oracle::lists::graymap as known;
use oracle::random::Random;
use std::fmt::{self, Display, Formatter};

/// What stands before and behind a lent file: digits, so that a reader that
/// leaves it would go on.
const PAINT_U8: u8 = b'1';

#[derive(Clone)]
pub struct Graymap {
    file: Vec<u8>,
}

/// All that the call leaves.
#[derive(Clone)]
pub struct Left {
    number: u32,
    given: port::Given,
    file: Lent<u8>,
}

fn class_of(number: u32) -> &'static str {
    match number {
        0 => "0",
        20 => "20",
        21 => "21",
        22 => "22",
        23 => "23",
        24 => "24",
        _ => "25",
    }
}

/// What is expected to be written: all but the pixel with 0, it alone with 24.
fn expected(file: &[u8]) -> (u32, port::Given) {
    let (decision, read, pixel) = calls::graymap(file);
    let mut given = port::Given::painted(PAINT);
    if let Some(read) = read {
        given.width = read.width;
        given.height = read.height;
        given.maximum = usize::from(read.maximum);
        given.start = read.start;
    }
    given.pixel = pixel.unwrap_or(PAINT);
    (decision.number, given)
}

impl Display for Graymap {
    fn fmt(&self, f: &mut Formatter<'_>) -> fmt::Result {
        let shown = &self.file[..self.file.len().min(500)];
        writeln!(f, "  {} bytes: {}", self.file.len(), shown.escape_ascii())
    }
}

impl Trial for Graymap {
    const NAME: &'static str = "graymap";
    const CLASSES: &'static [&'static str] = &["0", "20", "21", "22", "23", "24", "25"];
    const SHARED: &'static [&'static str] = &known::MET;
    type Left = Left;

    fn exported(&self, name: &mut dyn FnMut(&'static str)) {
        name("chess_corners_graymap");
    }

    fn by_port(&self) -> Left {
        let file = Lent::holding(&self.file, PAINT_U8);
        let mut given = port::Given::painted(PAINT);
        Left {
            number: port::graymap(file.inside(), &mut given),
            given,
            file,
        }
    }

    fn judged(&self, left: &Left) -> Result<Met, String> {
        let (number, given) = expected(&self.file);
        trial::held("number", left.number, number)?;
        trial::held("what is written", left.given, given)?;
        if let Some(k) = parts(left.file.inside(), &self.file, |a, b| a == b) {
            return Err(format!("byte {k} of the lent file is written"));
        }
        if left.file.outside().any(|byte| *byte != PAINT_U8) {
            return Err("something is written outside the lent file".into());
        }
        let met = Met::of(class_of(number));
        Ok(known::met(&self.file).into_iter().fold(met, Met::and))
    }

    fn size(&self) -> u64 {
        let odd = |byte: &u8| u64::from(!b" 19\n".contains(byte));
        10 * self.file.len() as u64 + self.file.iter().map(odd).sum::<u64>()
    }

    fn simpler(&self) -> Vec<Self> {
        let mut out = Vec::new();
        for left_out in trial::fewer(self.file.len()) {
            let mut file = self.file.clone();
            file.drain(left_out);
            out.push(Graymap { file });
        }
        for k in 0..self.file.len().min(300) {
            for byte in *b" 19\n" {
                let mut file = self.file.clone();
                file[k] = byte;
                out.push(Graymap { file });
            }
        }
        out
    }
}

/// Small files, and how many bytes of each are no pixels.
const SMALL: [(&[u8], usize); 6] = [
    (b"P5 3 2 200\n\x00\x09#\xc8\xc7\n", 11),
    (b"P5\r\n# 640 480\n4 #\r\t2\r\n\r255\t# 7\n1 2\x00", 27),
    (b"P5\n02 \t#a#b\n\n003\n#\n1\n\x01\x00\x01\x01\x00\x01", 22),
    (b"P5 1 1 4095\n\x01\x02", 12),
    (b"P5 4097 1 256\n\x01", 14),
    (b"P5 1 99999999999999999999 9\n\x01", 28),
];

/// Letters of every text: whitespace that is no more than the greatest digit, the
/// end of a comment, digits, and what is nothing of a header.
const LETTERS: &[u8; 7] = b"\t\n#019x";

/// Every text of up to so many letters behind the magic.
fn texts(tally: &mut Tally, most: u32) -> bool {
    (0..=most).all(|count| {
        (0..7usize.pow(count)).all(|k| {
            let letter = |i: u32| LETTERS[k / 7usize.pow(i) % 7];
            let file = b"P5\t".iter().copied().chain((0..count).map(letter));
            let file = file.collect();
            tally.tried(&Graymap { file })
        })
    })
}

/// Every text of up to seven letters, every prefix of a small file, and every
/// byte of its header as every other one.
pub fn short(tally: &mut Tally) -> bool {
    let before = tally.cases;
    let went = texts(tally, 7)
        && SMALL.iter().all(|(file, header)| {
            (0..=file.len()).all(|count| {
                let file = file[..count].to_vec();
                tally.tried(&Graymap { file })
            }) && (0..header * 256).all(|k| {
                let mut file = file.to_vec();
                file[k / 256] = (k % 256) as u8;
                tally.tried(&Graymap { file })
            })
        });
    tally.exhaustive = tally.cases - before;
    went
}

/// The largest image whole, a byte short, a byte too long, and with its last
/// pixel above the maximum.
pub fn longest(tally: &mut Tally) -> bool {
    let header = b"P5\n4096 4096\n254\n";
    let count = 4096 * 4096;
    [(1, 254), (0, 254), (2, 254), (1, 255), (2, 255)]
        .into_iter()
        .all(|(more, last)| {
            let mut file = header.to_vec();
            file.resize(header.len() + count - 1, 254);
            file.push(last);
            file.resize(header.len() + count + more - 1, 0);
            tally.tried(&Graymap { file })
        })
}

/// A file about the borders of the rules.
pub fn any(random: &mut Random) -> Graymap {
    Graymap {
        file: known::any(random),
    }
}

/// The driver notices each fault of an answer.
pub fn faults_noticed() -> Result<(), String> {
    let case = |file: &[u8]| Graymap {
        file: file.to_vec(),
    };
    let read = case(SMALL[0].0);
    let above = case(b"P5 2 1 9\n\x09\x0a");
    let refused = case(b"P5 2 1 9 ");
    trial::faults_noticed(
        &[read.clone(), above.clone(), refused],
        &[
            ("number", |l| l.number ^= 1),
            ("width", |l| l.given.width ^= 1),
            ("height", |l| l.given.height ^= 1),
            ("maximum", |l| l.given.maximum ^= 1),
            ("start", |l| l.given.start ^= 1),
            ("pixel", |l| l.given.pixel ^= 1),
            ("the lent file", |l| l.file.part()[4] ^= 1),
            ("before the lent file", |l| l.file.spoil()[3] = 0),
            ("behind the lent file", |l| {
                let last = l.file.part().len() + 4;
                l.file.spoil()[last] = 0;
            }),
        ],
    )?;
    trial::other_noticed(
        "width and height exchanged",
        &read,
        &case(b"P5 2 3 200\n\x00\x09#\xc8\xc7\n"),
    )
}
