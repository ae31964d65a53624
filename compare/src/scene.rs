//! What the refiner is asked about: an image with settings, and seeds on it,
//! about the borders of document 01's rules.

use crate::trial::bits;
use crate::{picture, port};
use oracle::lists::{self, refine_list};
use oracle::random::Random;
use oracle::types::{Image, Settings, View};
use oracle::{calls, pictures, plain, rules};
use std::fmt::{self, Display, Formatter};
use std::rc::Rc;

#[derive(Clone)]
pub struct Scene {
    pub image: Rc<Image>,
    pub settings: port::Settings,
}

/// As the oracle takes them: all radii above the limit are refused.
pub fn for_oracle(s: port::Settings) -> Settings {
    Settings {
        radius: i32::try_from(s.radius).unwrap_or(i32::MAX),
        det_margin: s.det_margin,
        max_offset: s.max_offset,
        min_abs_det: s.min_abs_det,
    }
}

impl Scene {
    pub fn view(&self) -> View<'_> {
        View::from(&*self.image)
    }

    pub fn for_oracle(&self) -> Settings {
        for_oracle(self.settings)
    }

    pub fn size(&self) -> u64 {
        let s = self.settings;
        let usual = Settings::default();
        let odd = [
            s.det_margin.to_bits() != usual.det_margin.to_bits(),
            s.max_offset.to_bits() != usual.max_offset.to_bits(),
            s.min_abs_det.to_bits() != usual.min_abs_det.to_bits(),
        ];
        let odd = odd.iter().filter(|o| **o).count() as u64;
        picture::size(&self.image) + 5 * odd + s.radius.min(1 << 20) as u64
    }

    /// Scenes a step simpler, and how far the places on them move.
    pub fn simpler(&self) -> Vec<(Scene, [f32; 2])> {
        let mut out: Vec<(Scene, [f32; 2])> = picture::simpler(&self.image)
            .into_iter()
            .map(|(image, moved)| {
                let less = Scene {
                    image: Rc::new(image),
                    ..self.clone()
                };
                (less, moved.map(|by| by as f32))
            })
            .collect();
        let usual = Settings::default();
        let mut other = |change: &dyn Fn(&mut port::Settings)| {
            let mut less = self.clone();
            change(&mut less.settings);
            out.push((less, [0.0; 2]));
        };
        other(&|s| s.det_margin = usual.det_margin);
        other(&|s| s.max_offset = usual.max_offset);
        other(&|s| s.min_abs_det = usual.min_abs_det);
        other(&|s| s.radius = s.radius.saturating_sub(1));
        out
    }
}

impl Display for Scene {
    fn fmt(&self, f: &mut Formatter<'_>) -> fmt::Result {
        let (image, s) = (&self.image, self.settings);
        writeln!(
            f,
            "  {}, radius {}, det_margin {}, max_offset {}, min_abs_det {}",
            picture::sizes(image),
            s.radius,
            bits(s.det_margin),
            bits(s.max_offset),
            bits(s.min_abs_det)
        )?;
        picture::rows(image, f)
    }
}

/// A saddle exactly on a pixel, half-way or a quarter between two.
fn exact_saddle(random: &mut Random, [w, h]: [usize; 2]) -> Image {
    let steep = random.between(1, 3);
    let [d, e] = [0, 1].map(|_| steep * random.pick(&[0i64, 1, 2, -1, -2]));
    let centre = [w as i64 / 2, h as i64 / 2];
    let k = [2 * steep, 0, -2 * steep, d, e];
    pictures::surface(w, h, centre, k, random.pick(&[1, 1, 2]))
}

fn any_image(random: &mut Random, radius: usize) -> Image {
    if random.once_in(3) {
        return refine_list::board(random).0;
    }
    let least = (2 * radius + 1) as i64;
    let [w, h] = [0, 1].map(|_| match random.below(8) {
        0 => random.between(1, least + 1) as usize,
        _ => random.between(least + 1, least + 9) as usize,
    });
    match random.below(16) {
        0 => pictures::noise(random, w, h),
        1 => pictures::few_levels(random, w, h, &[0, 255]),
        2 => pictures::flat(w, h, random.byte()),
        3 | 4 => exact_saddle(random, [w, h]),
        5..=10 => pictures::hard(random, w.max(7)),
        _ => pictures::any(random, w, h),
    }
}

/// A setting: a usual one, or one at the edge of what is refused.
fn any_limit(random: &mut Random, usual: f32, others: &[f32]) -> f32 {
    match random.below(160) {
        0 => random.pick(&[f32::NAN, f32::INFINITY, f32::NEG_INFINITY]),
        1 => random.pick(&[-1.0, -1e-45, f32::MIN]),
        2..=11 => random.pick(&[0.0, -0.0, 1e-45, f32::MAX]),
        12..=90 => random.pick(others),
        _ => usual,
    }
}

/// A number, or the one whose bits are one above or below.
fn beside(random: &mut Random, x: f32) -> f32 {
    match random.below(3) {
        0 => f32::from_bits(x.to_bits().wrapping_add(1)),
        1 => f32::from_bits(x.to_bits().saturating_sub(1)),
        _ => x,
    }
}

/// Settings at a tie: the determinant of a seed's first fit, or the distance
/// to its place.
fn tie(random: &mut Random, scene: &mut Scene) {
    let seed = any_seed(random, scene);
    let blind = Settings {
        det_margin: 0.0,
        min_abs_det: f32::MAX,
        ..scene.for_oracle()
    };
    let (first, _) = calls::refine_kept(scene.view(), &blind, seed, false);
    if first.status != rules::TOO_SMALL || first.score >= 0.0 {
        return;
    }
    let s = &mut scene.settings;
    match random.below(4) {
        0 => s.det_margin = beside(random, -first.score),
        1 => s.min_abs_det = beside(random, -first.score),
        _ => {
            let place = calls::without_padding(scene.view(), |whole| {
                plain::first_fit(whole, &scene.for_oracle(), seed)
            });
            let away = (place[0] - seed[0]).abs().max((place[1] - seed[1]).abs());
            if away.is_finite() {
                scene.settings.max_offset = beside(random, away);
            }
        }
    }
}

/// An image at any pitch, now and then one that is refused.
fn any_lent(random: &mut Random, radius: usize) -> Image {
    let mut image = any_image(random, radius);
    if random.once_in(100) {
        let (w, h) = random.pick(&[(4096, 1), (1, 4096), (4097, 1), (1, 4097)]);
        image = pictures::flat(w, h, 9);
    }
    let mut image = picture::any(random, image);
    match random.below(100) {
        0 => image.bytes.push(7),
        1 => drop(image.bytes.pop()),
        2 => {
            let (w, h) = random.pick(&[(1 << 32, 1 << 32), (1 << 63, 2), (0, 0), (9, 0), (0, 9)]);
            image = Image::new(w, h, Vec::new());
        }
        _ => {}
    }
    image
}

pub fn any(random: &mut Random) -> Scene {
    let radius = match random.below(64) {
        0 => random.pick(&[9, 1 << 31, 1 << 32, (1 << 32) + 2, usize::MAX]),
        1 | 2 => 0,
        3 => 8,
        _ => random.pick(&[1, 1, 1, 1, 2, 2, 2, 2, 3, 3, 4, 5, 6, 7]),
    };
    let usual = Settings::default();
    let mut scene = Scene {
        image: Rc::new(any_lent(random, radius.min(8))),
        settings: port::Settings {
            radius,
            det_margin: any_limit(random, usual.det_margin, &[0.0, 1e-30, 0.5, 4.0, 100.0]),
            max_offset: any_limit(random, usual.max_offset, &[1e30, 1e30, 8.0, 2.5, 0.5, 0.25]),
            min_abs_det: any_limit(random, usual.min_abs_det, &[0.0, 1e-30, 1.0, 50.0]),
        },
    };
    if random.once_in(8) {
        tie(random, &mut scene);
    }
    scene
}

/// A NaN of any bits.
fn any_nan(random: &mut Random) -> f32 {
    f32::from_bits(0x7F80_0001 | random.word())
}

fn along(random: &mut Random, size: u64, radius: usize) -> f32 {
    let size = size.clamp(1, 4097);
    let r = radius.min(8) as f32;
    let last = size as f32 - 1.0 - r;
    let whole = |random: &mut Random| random.between(-2, size as i64 + 1) as f32;
    match random.below(64) {
        0 => lists::odd_float(random),
        1 => any_nan(random),
        2..=4 => whole(random) + 0.5,
        5 => {
            let half = whole(random) + 0.5;
            beside(random, half)
        }
        6..=8 => random.pick(&[
            r,
            r - 0.5,
            r - 0.500_001,
            r - 1.0,
            last,
            last + 0.499_999,
            last + 0.5,
            last + 1.0,
        ]),
        9..=11 => whole(random),
        12..=36 => r + (last - r) * random.unit(),
        _ => lists::place(random, size),
    }
}

/// A seed on a scene: about its middle, anywhere, at the rim, odd.
pub fn any_seed(random: &mut Random, scene: &Scene) -> [f32; 2] {
    let radius = scene.settings.radius;
    [
        along(random, scene.image.width, radius),
        along(random, scene.image.height, radius),
    ]
}

/// A strength: it is copied, so any bits will do.
pub fn any_strength(random: &mut Random) -> f32 {
    f32::from_bits(random.word())
}
