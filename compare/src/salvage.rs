//! `chess_corners_salvage` against the rules; the Rust has no such call.

use crate::port;
use crate::trial::{self, parts, Lent, Met, Tally, Trial, PAINT, PAINT_U16};
use oracle::calls;
use oracle::lists::salvage::{self as known, Call};
use oracle::random::Random;
use std::fmt::{self, Display, Formatter};

/// What stands before and behind the bytes that are lent.
const PAINT_U8: u8 = 0xA5;

#[derive(Clone)]
pub struct Salvage(Call);

/// All that the call leaves.
#[derive(Clone)]
pub struct Left {
    number: u32,
    counts: [usize; 2],
    out: Lent<u8>,
    faults: Lent<u16>,
    file: Lent<u8>,
}

fn class_of(number: u32) -> &'static str {
    match number {
        0 => "0",
        10 => "10",
        16 => "16",
        _ => "15",
    }
}

/// A lent buffer has what is written at its front, and its paint behind and
/// around.
fn written<T: Copy + PartialEq>(
    name: &str,
    lent: &Lent<T>,
    written: &[T],
    paint: T,
) -> Result<(), String> {
    let mut want = vec![paint; lent.inside().len()];
    want[..written.len()].copy_from_slice(written);
    if let Some(k) = parts(lent.inside(), &want, |a, b| a == b) {
        return Err(format!("{name} parts at {k}, expected otherwise"));
    }
    match lent.outside().any(|v| *v != paint) {
        true => Err(format!("something is written outside {name}")),
        false => Ok(()),
    }
}

impl Display for Salvage {
    fn fmt(&self, f: &mut Formatter<'_>) -> fmt::Result {
        let Call {
            file,
            size: [width, height],
            out,
            faults,
        } = &self.0;
        writeln!(
            f,
            "  {width} by {height}, {} bytes, {out} of output, {faults} numbers of faults",
            file.len()
        )?;
        for bytes in file.chunks(12).take(40) {
            writeln!(f, "  {bytes:02X?}")?;
        }
        Ok(())
    }
}

impl Trial for Salvage {
    const NAME: &'static str = "salvage";
    const CLASSES: &'static [&'static str] = &["0", "10", "16", "15"];
    const SHARED: &'static [&'static str] = &known::MET;
    type Left = Left;

    fn exported(&self, name: &mut dyn FnMut(&'static str)) {
        name("chess_corners_salvage");
    }

    fn by_port(&self) -> Left {
        let file = Lent::holding(&self.0.file, PAINT_U8);
        let mut out = Lent::painted(self.0.out, PAINT_U8);
        let mut faults = Lent::painted(self.0.faults, PAINT_U16);
        let mut counts = [PAINT; 2];
        let number = port::salvage(
            file.inside(),
            self.0.size,
            out.part(),
            faults.part(),
            &mut counts,
        );
        Left {
            number,
            counts,
            out,
            faults,
            file,
        }
    }

    fn judged(&self, left: &Left) -> Result<Met, String> {
        let call = &self.0;
        let (decision, saved) = calls::salvage(&call.file, call.size, call.out, call.faults);
        trial::held("number", left.number, decision.number)?;
        let counts = saved
            .as_ref()
            .map_or([PAINT; 2], |s| [s.kept.len() / 12, s.dropped.len()]);
        trial::held("counts", left.counts, counts)?;
        let saved = saved.unwrap_or_default();
        written("the output", &left.out, &saved.kept, PAINT_U8)?;
        let pairs = saved.dropped.concat();
        written("the faults", &left.faults, &pairs, PAINT_U16)?;
        written("the lent file", &left.file, &call.file, PAINT_U8)?;
        let met = Met::of(class_of(decision.number));
        Ok(known::met(call).into_iter().fold(met, Met::and))
    }

    fn size(&self) -> u64 {
        let odd = |byte: &u8| u64::from(*byte != 0);
        let sides = self.0.size.map(|side| side.min(1 << 20));
        let room = (self.0.out + self.0.faults) as u64;
        let bytes = 10 * self.0.file.len() as u64 + self.0.file.iter().map(odd).sum::<u64>();
        1000 * bytes + 10 * room + sides[0] + sides[1]
    }

    fn simpler(&self) -> Vec<Self> {
        let mut out = Vec::new();
        let whole = self.0.file.len() / 12;
        let mut push = |file: Vec<u8>| {
            let call = Call {
                file,
                ..self.0.clone()
            };
            out.push(Salvage(known::just(&call.file, call.size)));
            out.push(Salvage(call));
        };
        for records in trial::fewer(whole) {
            let mut file = self.0.file.clone();
            file.drain(12 * records.start..12 * records.end);
            push(file);
        }
        for k in 0..self.0.file.len().min(300) {
            let mut file = self.0.file.clone();
            file[k] = 0;
            push(file);
        }
        for side in [1, 2, 40] {
            out.push(Salvage(known::just(&self.0.file, [side, side])));
        }
        out
    }
}

/// Every prefix of a small file with every room that is at most enough, at two
/// sizes; and every float of 16 high bits in each place of a record.
pub fn short(tally: &mut Tally) -> bool {
    let before = tally.cases;
    let file = known::small();
    let went = [[40, 30], [30, 40]].into_iter().all(|size| {
        (0..=file.len()).all(|count| {
            let just = known::just(&file[..count], size);
            (0..=just.out + 1).all(|out| {
                (0..=just.faults + 1).all(|faults| {
                    tally.tried(&Salvage(Call {
                        out,
                        faults,
                        ..just.clone()
                    }))
                })
            })
        })
    }) && (0..=u16::MAX).all(|high| {
        (0..3).all(|at| {
            let mut record = [0, 0, 0x3F80_0000];
            record[at] = u32::from(high) << 16;
            tally.tried(&Salvage(known::just(
                &known::file_of(&[record]),
                [640, 480],
            )))
        })
    });
    tally.exhaustive = tally.cases - before;
    went
}

/// As many records as a file may have and one more, whole and cut, good, bad
/// and mixed.
pub fn longest(tally: &mut Tally, random: &mut Random) -> bool {
    let size = [640, 480];
    [4095, 4096, 4097].into_iter().all(|count| {
        [0, 1, 11].into_iter().all(|left| {
            (0..3).all(|kind| {
                let byte = |_| match kind {
                    0 => 0,
                    1 => random.byte(),
                    _ => random.pick(&[0, 0, 0x3F, 0x41, 0x7F, 0x80]),
                };
                let file: Vec<u8> = (0..12 * count + left).map(byte).collect();
                let just = known::just(&file, size);
                let mut short = just.clone();
                short.out = short.out.saturating_sub(1);
                let mut low = just.clone();
                low.faults = low.faults.saturating_sub(1);
                let refused = Call {
                    size: [640, 0],
                    out: 0,
                    ..just.clone()
                };
                let none = Call {
                    out: 0,
                    ..just.clone()
                };
                [just, short, low, refused, none]
                    .into_iter()
                    .all(|call| tally.tried(&Salvage(call)))
            })
        })
    })
}

/// A file about the borders of the rules.
pub fn any(random: &mut Random) -> Salvage {
    Salvage(known::any(random))
}

/// The driver notices each fault of an answer.
pub fn faults_noticed() -> Result<(), String> {
    let size = [40, 30];
    let file = known::small();
    let saved = Salvage(known::roomy(&file[..file.len() - 3], size));
    let mut refused = saved.clone();
    refused.0.size = [40, 0];
    let mut short = saved.clone();
    short.0.out = 13;
    trial::faults_noticed(
        &[saved.clone(), refused, short],
        &[
            ("number", |l| l.number ^= 1),
            ("kept", |l| l.counts[0] ^= 1),
            ("dropped", |l| l.counts[1] ^= 1),
            ("a byte of the output", |l| l.out.part()[7] ^= 1),
            ("the output's last byte", |l| {
                let last = l.out.part().len() - 1;
                l.out.part()[last] ^= 1;
            }),
            ("a number of the faults", |l| l.faults.part()[0] ^= 1),
            ("a reason", |l| l.faults.part()[1] ^= 1),
            ("the last of the faults", |l| {
                let last = l.faults.part().len() - 1;
                l.faults.part()[last] ^= 1;
            }),
            ("before the output", |l| l.out.spoil()[3] ^= 1),
            ("behind the output", |l| {
                let behind = l.out.part().len() + 4;
                l.out.spoil()[behind] ^= 1;
            }),
            ("behind the faults", |l| {
                let behind = l.faults.part().len() + 4;
                l.faults.spoil()[behind] ^= 1;
            }),
            ("the lent file", |l| l.file.part()[4] ^= 1),
        ],
    )?;
    let mut turned = saved.clone();
    turned.0.size = [30, 40];
    trial::other_noticed("width and height exchanged", &saved, &turned)
}
