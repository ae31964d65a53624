//! `chess_corners_response` against `chess_response_u8_patch` and document 01.

use crate::picture::{self, OfImage, Twice};
use crate::port;
use crate::trial::{self, bits, parts, Lent, Met, Tally, Trial, PAINT, PAINT_F};
use oracle::random::Random;
use oracle::types::{paper_ring, Image, Region, Ring, View};
use oracle::{calls, padding, pictures, rules};
use std::fmt::{self, Display, Formatter};
use std::rc::Rc;

#[derive(Clone)]
pub struct Response {
    image: Rc<Image>,
    /// The padding of each call.
    paint: u64,
    ring: Ring,
    radius: u64,
    region: Region,
    out: usize,
}

/// All that a call leaves.
#[derive(Clone)]
pub struct Answer {
    number: u32,
    size: [usize; 2],
    out: Lent<f32>,
}

impl Answer {
    fn same_as(&self, other: &Answer) -> bool {
        self.number == other.number
            && self.size == other.size
            && calls::same_floats(self.out.inside(), other.out.inside())
    }
}

impl Response {
    fn view(&self) -> View<'_> {
        View::from(&*self.image)
    }

    /// The radius as the oracle takes it; all above the limit are refused.
    fn radius(&self) -> i32 {
        i32::try_from(self.radius).unwrap_or(i32::MAX)
    }

    /// The elements of the clamped region.
    fn fitting(&self) -> usize {
        let (_, _, w, h) = rules::clamped(self.view(), self.region);
        w.saturating_mul(h) as usize
    }

    /// The same with a buffer as much too long or short as before.
    fn refit(mut self, before: &Response) -> Self {
        let off = before.out as i64 - before.fitting() as i64;
        self.out = (self.fitting() as i64 + off).max(0) as usize;
        self
    }
}

impl Display for Response {
    fn fmt(&self, f: &mut Formatter<'_>) -> fmt::Result {
        let r = self.region;
        writeln!(
            f,
            "  {}, ring radius {}, region ({}, {}) to ({}, {}), {} floats lent",
            picture::sizes(&self.image),
            self.radius,
            r.x0,
            r.y0,
            r.x1,
            r.y1,
            self.out
        )?;
        writeln!(f, "  ring {:?}", self.ring)?;
        picture::rows(&self.image, f)
    }
}

impl Trial for Response {
    const NAME: &'static str = "response";
    const CLASSES: &'static [&'static str] = &[
        "done",
        "done, zeros",
        "done, empty region",
        "10",
        "26",
        "11",
        "13",
        "14",
        "15",
    ];
    const SHARED: &'static [&'static str] = &picture::KINDS;

    type Left = Twice<Answer>;

    fn exported(&self, name: &mut dyn FnMut(&'static str)) {
        name(match self.image.deep {
            None => "chess_corners_response",
            Some(_) => "chess_corners_response_u16",
        });
    }

    fn by_port(&self) -> Self::Left {
        Twice::of(&self.image, self.paint, |image| {
            let mut answer = Answer {
                number: 0,
                size: [PAINT; 2],
                out: Lent::painted(self.out, PAINT_F),
            };
            answer.number = port::response(
                image,
                &port::flat(&self.ring),
                self.radius as usize,
                self.region,
                answer.out.part(),
                &mut answer.size,
            );
            answer
        })
    }

    fn judged(&self, left: &Self::Left) -> Result<Met, String> {
        let refused = rules::response_refusal(
            self.view(),
            self.radius(),
            &self.ring,
            self.region,
            self.out,
        );
        // Nothing more is expected of a refusal, and the Rust is not run.
        let (number, size, want) = match refused {
            Some(number) => (number, [PAINT; 2], vec![PAINT_F; self.out]),
            None => {
                let (_, w, h, values) = calls::response(
                    self.view(),
                    self.radius(),
                    &self.ring,
                    self.region,
                    self.out,
                );
                (0, [w as usize, h as usize], values)
            }
        };
        left.held(|answer| held(answer, number, size, &want), Answer::same_as)?;
        let met = Met::of(match number {
            0 if want.is_empty() => "done, empty region",
            0 if want.iter().any(|v| v.to_bits() != 0) => "done",
            0 => "done, zeros",
            rules::BAD_IMAGE => "10",
            rules::BAD_SAMPLE => "26",
            rules::BAD_RADIUS => "11",
            rules::BAD_RING => "13",
            rules::EMPTY_ROI => "14",
            _ => "15",
        });
        Ok(picture::met(met, self.view()))
    }

    fn size(&self) -> u64 {
        let ring: u64 = self
            .ring
            .iter()
            .map(|(dx, dy)| u64::from(dx.unsigned_abs()) + u64::from(dy.unsigned_abs()))
            .sum();
        let r = self.region;
        let edges: u64 = [r.x0, r.y0, r.x1, r.y1]
            .iter()
            .map(|e| (*e).min(10_000))
            .sum();
        picture::size(&self.image) + ring + self.out as u64 + self.radius + edges
    }

    fn simpler(&self) -> Vec<Self> {
        let mut out = Vec::new();
        for (image, [x, y]) in picture::simpler(&self.image) {
            let moved = |edge: u64, by: usize| edge.saturating_sub(by as u64);
            let r = self.region;
            let less = Response {
                image: Rc::new(image),
                region: Region {
                    x0: moved(r.x0, x),
                    y0: moved(r.y0, y),
                    x1: moved(r.x1, x),
                    y1: moved(r.y1, y),
                },
                ..self.clone()
            };
            out.push(less.refit(self));
        }
        let r = self.region;
        for region in [
            Region { x1: r.x0 + 1, ..r },
            Region { y1: r.y0 + 1, ..r },
            Region {
                x0: r.x1.saturating_sub(1),
                ..r
            },
            Region {
                y0: r.y1.saturating_sub(1),
                ..r
            },
            Region {
                x1: r.x1.min(self.image.width),
                ..r
            },
            Region {
                y1: r.y1.min(self.image.height),
                ..r
            },
        ] {
            let less = Response {
                region,
                ..self.clone()
            };
            out.push(less.refit(self));
        }
        for k in 0..16 {
            let mut less = self.clone();
            less.ring[k] = (0, 0);
            out.push(less);
        }
        if self.radius > 0 {
            out.push(Response {
                radius: self.radius - 1,
                ..self.clone()
            });
        }
        out
    }
}

impl OfImage for Response {
    fn image(&self) -> &Image {
        &self.image
    }

    fn with_image(&self, image: Image) -> Self {
        Response {
            image: Rc::new(image),
            ..self.clone()
        }
    }
}

/// How an answer parts from what is expected.
fn held(got: &Answer, number: u32, size: [usize; 2], want: &[f32]) -> Result<(), String> {
    trial::held("number", got.number, number)?;
    trial::held("size", got.size, size)?;
    let values = got.out.inside();
    if let Some(k) = parts(values, want, |a, b| a.to_bits() == b.to_bits()) {
        let (got, want) = (bits(values[k]), bits(want[k]));
        return Err(format!("element {k} is {got}, expected {want}"));
    }
    got.out.outside_kept("the buffer")
}

/// The sixteen pixels at distance 2 round the middle of 5 by 5, in a turn.
fn round() -> Ring {
    let mut ring = [(0, 0); 16];
    for k in 0..4 {
        let at = k as i32 - 2;
        ring[k] = (at, -2);
        ring[4 + k] = (2, at);
        ring[8 + k] = (-at, 2);
        ring[12 + k] = (-2, -at);
    }
    ring
}

/// The middle pixel of 5 by 5 alone.
const MIDDLE: Region = Region {
    x0: 2,
    y0: 2,
    x1: 3,
    y1: 3,
};

/// Whether both sides answer alike in the middle of 5 by 5, the port by rows with
/// padding. The oracle was lent the ring.
fn same_in_the_middle(lent: port::Image<'_>, pixels: &[u8; 25], flat: &[i32; 32]) -> bool {
    let mut out = [PAINT_F; 3];
    let mut size = [PAINT; 2];
    let number = port::response(lent, flat, 2, MIDDLE, &mut out[1..2], &mut size);
    let view = View::new(5, 5, pixels);
    let (w, h, want) = oracle::any_ring::response_patch(view, false, MIDDLE).expect("a region");
    number == 0
        && size == [w, h]
        && [PAINT_F, want[0], PAINT_F].map(f32::to_bits) == out.map(f32::to_bits)
}

/// All two-valued images of 5 by 5 at ring radius 2, in the middle pixel. The
/// ring is the outer sixteen pixels and the cross the five in the middle; the
/// four that no sample reads follow the others, unless all is asked for. Each
/// image has other padding, where the pitch leaves room for any.
pub fn short(tally: &mut Tally, all: bool, levels: [u8; 2], pitch: usize) -> bool {
    let unread = [6usize, 8, 16, 18];
    let read: Vec<usize> = (0..25).filter(|k| !unread.contains(k)).collect();
    let order: Vec<usize> = read.iter().chain(&unread).copied().collect();
    let ring = round();
    let flat = port::flat(&ring);
    oracle::any_ring::lend_ring(2, &ring);
    let count: u32 = if all { 1 << 25 } else { 1 << 21 };
    let mut pixels = [0u8; 25];
    let mut image = Image {
        pitch: pitch as u64,
        ..Image::new(5, 5, vec![0; 5 * pitch])
    };
    for number in 0..count {
        let bits = match all {
            true => number,
            false => number | (number.wrapping_mul(0x9E37_79B9) >> 28) << 21,
        };
        for (k, at) in order.iter().enumerate() {
            pixels[*at] = levels[(bits >> k & 1) as usize];
        }
        for (row, five) in image.bytes.chunks_mut(pitch).zip(pixels.chunks(5)) {
            row[..5].copy_from_slice(five);
            row[5..].fill(number as u8 | 1);
        }
        if !same_in_the_middle(picture::lent(&image), &pixels, &flat) {
            tally.tried(&Response {
                region: MIDDLE,
                out: 1,
                ..whole(image, ring, 2)
            });
            tally.differ = true;
            return false;
        }
    }
    tally.cases += u64::from(count);
    tally.parts += u64::from(count);
    let exported = tally.exported.entry("chess_corners_response");
    exported.or_default().cases += u64::from(count);
    *tally.classes.entry("done").or_default() += u64::from(count);
    tally.exhaustive += u64::from(count);
    true
}

/// Rings, each for some calls: the oracle keeps every ring that it was lent.
pub struct Rings {
    ring: Ring,
    radius: u64,
    left: u32,
}

impl Rings {
    pub fn new() -> Self {
        Rings {
            ring: paper_ring(1),
            radius: 5,
            left: 0,
        }
    }

    fn next(&mut self, random: &mut Random) {
        if self.left > 0 {
            self.left -= 1;
            return;
        }
        self.left = 15;
        self.radius = 1 + random.below(10) as u64;
        let r = self.radius as i64;
        self.ring = match random.below(6) {
            0 => {
                self.radius = 5;
                paper_ring(1)
            }
            1 => {
                self.radius = 10;
                paper_ring(2)
            }
            2 => [(); 16].map(|()| {
                let end = [-r as i32, r as i32];
                (random.pick(&end), random.pick(&end))
            }),
            _ => [(); 16].map(|()| (random.between(-r, r) as i32, random.between(-r, r) as i32)),
        };
    }
}

fn any_size(random: &mut Random, radius: u64) -> u64 {
    match random.below(4) {
        0 => 1 + random.below(8) as u64,
        _ => (2 * radius + random.below(6) as u64)
            .saturating_sub(1)
            .max(1),
    }
}

fn any_edge(random: &mut Random, radius: u64, size: u64) -> u64 {
    match random.below(12) {
        0 => 0,
        1 => radius,
        2 => size.saturating_sub(radius),
        3 | 4 => size,
        5 => size + 1,
        6 => random.pick(&[u64::MAX, u64::MAX - 1, 1 << 63, 1 << 32, size + 100]),
        _ => random.below(size as usize + 2) as u64,
    }
}

/// An image about the borders of the rules.
fn any_image(random: &mut Random, radius: u64) -> Image {
    let (mut width, mut height) = (any_size(random, radius), any_size(random, radius));
    if random.once_in(100) {
        (width, height) =
            random.pick(&[(4096, 1), (1, 4096), (4097, 1), (1, 4097), (0, 3), (3, 0)]);
    }
    let (w, h) = (width as usize, height as usize);
    let image = match random.below(4) {
        0 => pictures::noise(random, w, h),
        1 => pictures::few_levels(random, w, h, &[0, 255]),
        2 if width * height < 1000 => pictures::any(random, w, h),
        _ => pictures::few_levels(random, w, h, &[0, 1, 127, 254, 255]),
    };
    picture::any(random, image)
}

fn any_region(random: &mut Random, radius: u64, [width, height]: [u64; 2]) -> Region {
    if random.once_in(4) {
        return Region {
            x0: 0,
            y0: 0,
            x1: width,
            y1: height,
        };
    }
    let [a, b, c, d] = [width, height, width, height].map(|n| any_edge(random, radius, n));
    if random.once_in(6) {
        return Region {
            x0: a,
            y0: b,
            x1: c,
            y1: d,
        };
    }
    Region {
        x0: a.min(c),
        y0: b.min(d),
        x1: a.max(c),
        y1: b.max(d),
    }
}

/// One thing of a call is wrong, now and then.
fn spoilt(random: &mut Random, case: &mut Response) {
    match random.below(40) {
        0 => Rc::make_mut(&mut case.image).bytes.push(7),
        1 => drop(Rc::make_mut(&mut case.image).bytes.pop()),
        // A product that wraps to the number of bytes there are.
        2 => {
            let (w, h) = random.pick(&[(1 << 32, 1 << 32), (1 << 63, 2), (2, 1 << 63)]);
            case.image = Rc::new(Image::new(w, h, Vec::new()));
        }
        3 => case.radius = 0,
        4 => case.radius = random.pick(&[11, 12, 1 << 31, 1 << 32, (1 << 32) + 5, u64::MAX]),
        5 | 6 => {
            let r = case.radius as i32;
            let far = random.pick(&[r + 1, -r - 1, i32::MAX, i32::MIN]);
            let k = random.below(16);
            if random.once_in(2) {
                case.ring[k].0 = far;
            } else {
                case.ring[k].1 = far;
            }
        }
        _ => {}
    }
}

/// A call about the borders of the rules.
pub fn any(random: &mut Random, rings: &mut Rings) -> Response {
    rings.next(random);
    let image = any_image(random, rings.radius);
    let mut case = Response {
        region: any_region(random, rings.radius, [image.width, image.height]),
        paint: random.word64(),
        ..whole(image, rings.ring, rings.radius)
    };
    spoilt(random, &mut case);
    case.out = case.fitting().min(1 << 16);
    match random.below(20) {
        0 => case.out += 1 + random.below(3),
        1 => case.out = case.out.saturating_sub(1),
        _ => {}
    }
    case
}

/// The whole of an image, with a buffer that fits.
fn whole(image: Image, ring: Ring, radius: u64) -> Response {
    let mut case = Response {
        region: Region {
            x0: 0,
            y0: 0,
            x1: image.width,
            y1: image.height,
        },
        image: Rc::new(image),
        paint: 0,
        ring,
        radius,
        out: 0,
    };
    case.out = case.fitting();
    case
}

/// A pitch of every class.
pub fn pitches(tally: &mut Tally, random: &mut Random) -> bool {
    let image = pictures::noise(random, 16, 14);
    picture::pitches(tally, random, &whole(image, paper_ring(1), 5))
}

/// The driver notices each fault of an answer.
pub fn faults_noticed() -> Result<(), String> {
    let mut random = Random::of(1, "faults");
    let image = pictures::noise(&mut random, 12, 12);
    let written = Response {
        region: Region {
            x0: 4,
            y0: 4,
            x1: 8,
            y1: 8,
        },
        out: 16,
        ..whole(image, paper_ring(1), 5)
    };
    let refused = Response {
        radius: 11,
        ..written.clone()
    };
    let padded = picture::faults_noticed(&written, |l| {
        l.again.as_mut().expect("padding").out.part()[5] += 1.0;
    })?;
    trial::faults_noticed(
        &[written, refused, padded],
        &[
            ("number", |l| l.first.number ^= 1),
            ("width", |l| l.first.size[0] ^= 1),
            ("height", |l| l.first.size[1] ^= 1),
            ("the sign of a zero", |l| l.first.out.part()[0] = -0.0),
            ("a value", |l| l.first.out.part()[5] += 1.0),
            ("outside the buffer", |l| l.first.out.spoil()[0] = 0.0),
        ],
    )
}
