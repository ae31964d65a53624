//! `chess_corners_graymap_u16` against the rules; the Rust has no such call.

use crate::port;
use crate::trial::{self, parts, Lent, Met, Tally, Trial, PAINT, PAINT_U16};
use oracle::random::Random;
use oracle::rules;
use std::fmt::{self, Display, Formatter};

#[derive(Clone)]
pub struct DeepGraymap {
    file: Vec<u8>,
    /// Elements of the lent buffer.
    room: usize,
}

/// All that the call leaves.
#[derive(Clone)]
pub struct Left {
    number: u32,
    given: port::Given,
    file: Lent<u8>,
    out: Lent<u16>,
}

fn class_of(number: u32) -> &'static str {
    match number {
        0 => "0",
        20 => "20",
        21 => "21",
        22 => "22",
        23 => "23",
        24 => "24",
        25 => "25",
        _ => "27",
    }
}

/// The maximum that a header gives, for the classes.
fn maximum_class(file: &[u8]) -> Option<&'static str> {
    let ([_, _, maximum], _) = rules::header(rules::behind_magic(file)?)?;
    match maximum {
        255 => Some("21, maximum 255"),
        256 => Some("maximum 256"),
        4095 => Some("maximum 4095"),
        4096 => Some("21, maximum 4096"),
        _ => None,
    }
}

impl DeepGraymap {
    /// The number, what is told, and the samples that are written.
    fn expected(&self) -> (u32, port::Given, Option<Vec<u16>>) {
        let mut given = port::Given::painted(PAINT);
        match rules::deep_graymap(&self.file, self.room) {
            Ok((read, samples)) => {
                given.width = read.width;
                given.height = read.height;
                given.maximum = usize::from(read.maximum);
                given.start = read.start;
                (0, given, Some(samples))
            }
            Err((number, pixel)) => {
                given.pixel = pixel.unwrap_or(PAINT);
                (number, given, None)
            }
        }
    }
}

impl Display for DeepGraymap {
    fn fmt(&self, f: &mut Formatter<'_>) -> fmt::Result {
        let shown = &self.file[..self.file.len().min(500)];
        let count = self.file.len();
        writeln!(
            f,
            "  room {}, {count} bytes: {}",
            self.room,
            shown.escape_ascii()
        )
    }
}

impl Trial for DeepGraymap {
    const NAME: &'static str = "deep graymap";
    const CLASSES: &'static [&'static str] = &[
        "0",
        "20",
        "21",
        "22",
        "23",
        "24",
        "25",
        "27",
        "21, maximum 255",
        "maximum 256",
        "maximum 4095",
        "21, maximum 4096",
    ];
    type Left = Left;

    fn exported(&self, name: &mut dyn FnMut(&'static str)) {
        name("chess_corners_graymap_u16");
    }

    fn by_port(&self) -> Left {
        let file = Lent::holding(&self.file, b'1');
        let mut out = Lent::painted(self.room, PAINT_U16);
        let mut given = port::Given::painted(PAINT);
        Left {
            number: port::graymap_u16(file.inside(), out.part(), &mut given),
            given,
            file,
            out,
        }
    }

    fn judged(&self, left: &Left) -> Result<Met, String> {
        let (number, given, samples) = self.expected();
        trial::held("number", left.number, number)?;
        trial::held("what is told", left.given, given)?;
        let want = samples.unwrap_or(vec![PAINT_U16; self.room]);
        if let Some(k) = parts(left.out.inside(), &want, |a, b| a == b) {
            return Err(format!("sample {k} is not the expected one"));
        }
        left.out.outside_kept("the samples")?;
        if parts(left.file.inside(), &self.file, |a, b| a == b).is_some() {
            return Err("the lent file is written".into());
        }
        let met = Met::of(class_of(number));
        Ok(maximum_class(&self.file).into_iter().fold(met, Met::and))
    }

    fn size(&self) -> u64 {
        let odd = |byte: &u8| u64::from(!b" 19\n".contains(byte));
        let odd: u64 = self.file.iter().map(odd).sum();
        10 * (self.file.len() + self.room) as u64 + odd
    }

    fn simpler(&self) -> Vec<Self> {
        let mut out = Vec::new();
        for left_out in trial::fewer(self.file.len()) {
            let mut less = self.clone();
            less.file.drain(left_out);
            out.push(less);
        }
        for k in 0..self.file.len().min(300) {
            for byte in *b" 19\n" {
                let mut other = self.clone();
                other.file[k] = byte;
                out.push(other);
            }
        }
        for room in [self.room / 2, self.room.saturating_sub(1)] {
            out.push(DeepGraymap {
                room,
                ..self.clone()
            });
        }
        out
    }
}

/// A file with these numbers in its header, and samples.
fn written([width, height, maximum]: [u64; 3], samples: &[u16]) -> Vec<u8> {
    let mut file = format!("P5\n{width} {height}\n{maximum}\n").into_bytes();
    file.extend(samples.iter().flat_map(|s| s.to_be_bytes()));
    file
}

/// Every maximum from 250 to 4100 with a sample at it and one above, every prefix
/// of a small file, and every byte of its header as every other one.
pub fn short(tally: &mut Tally) -> bool {
    let before = tally.cases;
    let maxima = (250..=4100u16).all(|m| {
        [m, m + 1].into_iter().all(|last| {
            tally.tried(&DeepGraymap {
                file: written([2, 1, u64::from(m)], &[0, last]),
                room: 2,
            })
        })
    });
    let small = written([2, 2, 4095], &[0, 4095, 258, 513]);
    let header = small.len() - 8;
    let cut = (0..=small.len()).all(|count| {
        tally.tried(&DeepGraymap {
            file: small[..count].to_vec(),
            room: 4,
        })
    });
    let bytes = (0..header * 256).all(|k| {
        let mut file = small.clone();
        file[k / 256] = (k % 256) as u8;
        tally.tried(&DeepGraymap { file, room: 4 })
    });
    tally.exhaustive = tally.cases - before;
    maxima && cut && bytes
}

/// The largest image whole, with its last sample above the maximum, and with a
/// buffer that is one short.
pub fn longest(tally: &mut Tally) -> bool {
    let count = 4096 * 4096;
    [(4094, 0), (4095, 0), (4094, 1)]
        .into_iter()
        .all(|(last, less)| {
            let mut samples = vec![0x0102; count];
            samples[count - 1] = last;
            tally.tried(&DeepGraymap {
                file: written([4096, 4096, 4094], &samples),
                room: count - less,
            })
        })
}

/// A file about the borders of the rules.
pub fn any(random: &mut Random) -> DeepGraymap {
    let size = [0, 1].map(|_| match random.below(40) {
        0 => random.pick(&[0, 4096, 4097]),
        _ => random.between(1, 9) as u64,
    });
    let maximum = match random.below(8) {
        0 => random.pick(&[0, 1, 255, 4096, 65535, 1 << 40]),
        1 | 2 => random.pick(&[256, 257, 4094, 4095]),
        _ => random.between(256, 4095) as u64,
    };
    let count = (size[0] * size[1]).min(5000) as usize;
    let above = random.once_in(4);
    let sample = |random: &mut Random| match above && random.once_in(20) {
        true => random.word() as u16,
        false => (u64::from(random.word()) % (maximum + 1)) as u16,
    };
    let samples: Vec<u16> = (0..count).map(|_| sample(random)).collect();
    let mut file = written([size[0], size[1], maximum], &samples);
    match random.below(12) {
        0 => drop(file.pop()),
        1 => file.push(0),
        2 => file.truncate(random.below(file.len() + 1)),
        3 => {
            let at = random.below(file.len().min(16));
            file[at] = random.pick(b"P5 \n\t#0192x");
        }
        _ => {}
    }
    let room = match random.below(8) {
        0 => count + 1,
        1 => count.saturating_sub(1),
        _ => count,
    };
    DeepGraymap { file, room }
}

/// The driver notices each fault of an answer.
pub fn faults_noticed() -> Result<(), String> {
    let read = DeepGraymap {
        file: written([3, 1, 1000], &[1, 515, 1000]),
        room: 3,
    };
    let refused = DeepGraymap {
        room: 4,
        ..read.clone()
    };
    trial::faults_noticed(
        &[read.clone(), refused],
        &[
            ("number", |l| l.number ^= 1),
            ("width", |l| l.given.width ^= 1),
            ("maximum", |l| l.given.maximum ^= 1),
            ("pixel", |l| l.given.pixel ^= 1),
            ("a sample", |l| l.out.part()[1] ^= 1),
            ("behind the samples", |l| {
                let last = l.out.part().len() + 4;
                l.out.spoil()[last] = 0;
            }),
        ],
    )?;
    let swapped = DeepGraymap {
        file: written([3, 1, 1000], &[256, 770, 1000]),
        room: 3,
    };
    trial::other_noticed("the low byte first", &read, &swapped)
}
