//! Images as they are lent: every call gets other padding, and what it leaves
//! may not depend on it.

use crate::port;
use crate::trial::{self, crops, Met, Tally, Trial};
use oracle::padding;
use oracle::random::Random;
use oracle::rules;
use oracle::types::{Deepened, Image, View, Words};
use std::fmt::{self, Formatter};

/// An image of bytes as it crosses.
pub fn lent(image: &Image) -> port::Image<'_> {
    port::Image {
        bytes: &image.bytes,
        words: None,
        width: image.width as usize,
        height: image.height as usize,
        pitch: image.pitch as usize,
    }
}

/// A call on the image as it crosses: its words where it is deep.
fn crossed<A>(image: &Image, call: impl Fn(port::Image<'_>) -> A) -> A {
    let words = image.deep.map(|_| View::from(image).samples());
    call(port::Image {
        words: words.as_deref(),
        ..lent(image)
    })
}

/// The words of a deep image, of any kind.
fn any_words(random: &mut Random) -> Deepened {
    let kinds = [
        Words::Bytes,
        Words::Full,
        Words::Full,
        Words::Full,
        Words::Full,
        Words::Above,
    ];
    Deepened {
        mix: random.word64(),
        kind: random.pick(&kinds),
    }
}

/// Now and then the image as a deep one.
fn any_depth(random: &mut Random, mut image: Image) -> Image {
    if random.once_in(3) {
        image.deep = Some(any_words(random));
    }
    image
}

/// The same call by bytes.
pub fn by_bytes<T: OfImage>(call: &T) -> T {
    let mut image = call.image().clone();
    image.deep = None;
    call.with_image(image)
}

/// The same call by words.
pub fn by_words<T: OfImage>(random: &mut Random, call: &T) -> T {
    let mut image = call.image().clone();
    image.deep = Some(any_words(random));
    call.with_image(image)
}

/// What of the depth a run must reach.
const DEPTHS: [&str; 5] = [
    "bytes",
    "words, bytes in them",
    "words, above 4095 in the padding",
    "words, twelve bits",
    "words, above 4095 in the image",
];

/// The kinds of padding and of depth.
pub const KINDS: [&str; 18] = {
    let mut all = [""; 18];
    let mut k = 0;
    while k < 18 {
        all[k] = if k < 13 {
            padding::KINDS[k]
        } else {
            DEPTHS[k - 13]
        };
        k += 1;
    }
    all
};

/// A case of this image, by its padding and its depth.
pub fn met(met: Met, image: View<'_>) -> Met {
    met.and(padding::kind(image)).and(depth(image))
}

/// Which of them an image is.
fn depth(image: View<'_>) -> &'static str {
    let padded = image.pitch != image.width && !rules::bad_image(image);
    DEPTHS[match image.deep.map(|deep| deep.kind) {
        None => 0,
        _ if rules::bad_sample(image) => 4,
        _ if padded => 2,
        Some(Words::Bytes) => 1,
        Some(_) => 3,
    }]
}

/// Whether there is padding that can be painted.
fn has_padding(image: &Image) -> bool {
    image.pitch != image.width && !rules::bad_image(image.into())
}

/// A call that is lent the image with padding by a number.
pub fn painted<A>(image: &Image, paint: u64, call: impl Fn(port::Image<'_>) -> A) -> A {
    if !has_padding(image) {
        return crossed(image, call);
    }
    let mut other = image.clone();
    padding::paint(&mut Random::of(paint, "paint"), &mut other);
    crossed(&other, call)
}

/// What a call leaves, and what it leaves where the padding alone is another.
#[derive(Clone)]
pub struct Twice<A> {
    pub first: A,
    pub again: Option<A>,
}

impl<A> Twice<A> {
    pub fn of(image: &Image, paint: u64, call: impl Fn(port::Image<'_>) -> A) -> Self {
        Twice {
            first: painted(image, paint, &call),
            again: has_padding(image).then(|| painted(image, !paint, &call)),
        }
    }

    /// What holds of the first, where the other is the same.
    pub fn held<T>(
        &self,
        held: impl Fn(&A) -> Result<T, String>,
        same: impl Fn(&A, &A) -> bool,
    ) -> Result<T, String> {
        let told = held(&self.first)?;
        let Some(again) = &self.again else {
            return Ok(told);
        };
        held(again).map_err(|how| format!("with other padding: {how}"))?;
        match same(&self.first, again) {
            true => Ok(told),
            false => Err("other padding gives other bits".into()),
        }
    }
}

/// A call that is lent an image.
pub trait OfImage: Trial {
    fn image(&self) -> &Image;
    fn with_image(&self, image: Image) -> Self;
}

/// A call, whose image has no padding, at a pitch of every class.
pub fn pitches<T: OfImage>(tally: &mut Tally, random: &mut Random, call: &T) -> bool {
    let mut all = padding::near(random, call.image());
    all.extend(padding::far(random, call.image()));
    all.extend((0..padding::WRONG).map(|kind| padding::wrong(random, kind)));
    all.into_iter()
        .all(|image| tally.tried(&call.with_image(image)))
}

/// What would be lent to a call that takes the width for the pitch.
fn by_width(image: &Image) -> Image {
    let (w, h) = (image.width as usize, image.height as usize);
    Image::new(w, h, image.bytes[..w * h].to_vec())
}

/// The driver notices rows that are taken to begin a width apart, and an answer
/// that is spoilt where the padding is another. Gives the call with padding.
pub fn faults_noticed<T: OfImage>(call: &T, spoilt_again: fn(&mut T::Left)) -> Result<T, String> {
    let pitch = call.image().width + 7;
    let image = padding::padded(&mut Random::of(1, "faults"), call.image(), pitch);
    let wrong = call.with_image(by_width(&image));
    let padded = call.with_image(image);
    trial::other_noticed("rows by the width", &padded, &wrong)?;
    let fault = ("an answer by the padding", spoilt_again);
    trial::faults_noticed(&[padded.clone()], &[fault])?;
    Ok(padded)
}

/// The most bytes of a padded image: they are painted for every call.
const MOST: u64 = 1 << 16;

/// The image at any pitch and depth, or now and then one with a wrong pitch.
pub fn any(random: &mut Random, image: Image) -> Image {
    let pitched = any_pitch(random, image);
    any_depth(random, pitched)
}

fn any_pitch(random: &mut Random, image: Image) -> Image {
    if random.once_in(32) {
        let kind = random.below(padding::WRONG);
        return padding::wrong(random, kind);
    }
    if rules::bad_image((&image).into()) {
        return image;
    }
    let pitch = padding::any_pitch(random, image.width);
    match pitch == image.width || pitch * image.height > MOST {
        true => image,
        false => padding::padded(random, &image, pitch),
    }
}

/// How large an image is, for shrinking.
pub fn size(image: &Image) -> u64 {
    let lit = image.bytes.iter().filter(|b| **b != 0).count() as u64;
    10_000 * image.bytes.len() as u64 + 10 * lit
}

/// An image with so much padding.
fn with_padding(image: Image, padding: u64) -> Image {
    match padding {
        0 => image,
        _ => {
            let pitch = image.width + padding;
            padding::padded(&mut Random::of(0, "padding"), &image, pitch)
        }
    }
}

/// Images a step simpler, and where their first pixel was.
pub fn simpler(image: &Image) -> Vec<(Image, [usize; 2])> {
    let mut out = Vec::new();
    let (w, h) = (image.width as usize, image.height as usize);
    if image.pitch == image.width || has_padding(image) {
        let padding = image.pitch - image.width;
        let bytes = padding::taken_out(image.into());
        for less in [0, padding / 2, padding.saturating_sub(1)] {
            let whole = Image::new(w, h, bytes.to_vec());
            out.push((with_padding(whole, less), [0; 2]));
        }
        for part in crops(&bytes, w, h) {
            let cut = Image::new(part.width, part.height, part.values);
            out.push((with_padding(cut, padding), [part.x, part.y]));
        }
    }
    for k in 0..image.bytes.len().min(1000) {
        let mut darker = image.clone();
        darker.bytes[k] = 0;
        out.push((darker, [0; 2]));
    }
    out
}

/// The sizes.
pub fn sizes(image: &Image) -> String {
    format!(
        "width {}, height {}, pitch {}, {} bytes, deepened {:?}",
        image.width,
        image.height,
        image.pitch,
        image.bytes.len(),
        image.deep
    )
}

/// The rows with their padding.
pub fn rows(image: &Image, f: &mut Formatter<'_>) -> fmt::Result {
    for row in image.bytes.chunks(image.pitch.clamp(1, 64) as usize) {
        writeln!(f, "  {row:?}")?;
    }
    Ok(())
}
