// The Rust behind plain functions over slices. This text stands in a module
// that names one build of docs/src `rust`; lib.rs has three such modules.
// Nothing is checked here: a bad input panics, wraps or answers as the Rust
// does. None of these functions is a mirror but `refine_counted`. A deep image
// goes to the Rust's own estimator, which is generic over the pixels.

use crate::types::*;
use rust::estimate_noise_sigma_u8 as probe;
use rust::CornerRefiner;

fn settings(s: &Settings) -> rust::SaddlePointConfig {
    let mut cfg = rust::SaddlePointConfig::default();
    cfg.radius = s.radius;
    cfg.det_margin = s.det_margin;
    cfg.max_offset = s.max_offset;
    cfg.min_abs_det = s.min_abs_det;
    cfg
}

fn view(image: View<'_>) -> rust::ImageView<'_> {
    rust::ImageView::from_u8_slice(image.width as usize, image.height as usize, image.bytes)
        .expect("the byte count is width times height")
}

fn words<'a>(image: View<'_>, samples: &'a [u16]) -> probe::saddle_point::Words<'a> {
    probe::saddle_point::Words {
        width: image.width as usize,
        height: image.height as usize,
        words: samples,
    }
}

fn status(s: rust::RefineStatus) -> u32 {
    match s {
        rust::RefineStatus::Accepted => 0,
        rust::RefineStatus::Rejected => 1,
        rust::RefineStatus::OutOfBounds => 2,
        rust::RefineStatus::IllConditioned => 3,
        _ => unreachable!("the Rust has four statuses"),
    }
}

fn corners(list: &[Triple]) -> Vec<rust::Corner> {
    list.iter()
        .map(|c| rust::Corner::new(c[0], c[1], c[2]))
        .collect()
}

fn triples(list: &[rust::Corner]) -> Vec<Triple> {
    list.iter().map(|c| [c.x, c.y, c.strength]).collect()
}

/// `chess_response_u8_patch` with the ring that this build has for the
/// parameters. Width, height and values.
pub fn response_patch<'a>(
    image: impl Into<View<'a>>,
    radius10: bool,
    region: Region,
) -> Option<(usize, usize, Vec<f32>)> {
    let image = image.into();
    let mut params = rust::ChessParams::default();
    params.use_radius10 = radius10;
    let roi = rust::Roi::new(
        region.x0 as usize,
        region.y0 as usize,
        region.x1 as usize,
        region.y1 as usize,
    )?;
    let map = rust::chess_response_u8_patch(
        image.bytes,
        image.width as usize,
        image.height as usize,
        &params,
        roi,
    );
    Some((map.width(), map.height(), map.data().to_vec()))
}

/// `chess_response_u8`, the whole image at once. The port leaves it out.
pub fn response_whole<'a>(image: impl Into<View<'a>>, radius10: bool) -> Vec<f32> {
    let image = image.into();
    let mut params = rust::ChessParams::default();
    params.use_radius10 = radius10;
    let (w, h) = (image.width as usize, image.height as usize);
    rust::chess_response_u8(image.bytes, w, h, &params)
        .data()
        .to_vec()
}

/// `chess_response_at_u8`.
pub fn response_at(bytes: &[u8], width: usize, x: i32, y: i32, ring: &Ring) -> f32 {
    probe::response::at(bytes, width, x, y, ring)
}

/// `compute_row_range_scalar`.
pub fn response_row(
    bytes: &[u8],
    width: usize,
    y: i32,
    ring: &Ring,
    out: &mut [f32],
    from: usize,
    to: usize,
) {
    probe::response::row(bytes, width, y, ring, out, from, to)
}

/// A refiner kept over many seeds, as a caller of the Rust keeps it.
pub struct Refiner(rust::SaddlePointRefiner);

impl Refiner {
    pub fn new(s: &Settings, covariance: bool) -> Self {
        Refiner(probe::saddle_point::refiner(settings(s), covariance))
    }

    /// Other contents for the operator, where the radius has one.
    pub fn lend(&mut self, s: &Settings, op: &LentOperator) {
        probe::saddle_point::lend(&mut self.0, &op.rows(s.radius));
    }

    /// `SaddlePointRefiner::refine` on one seed; its estimator on a deep image.
    pub fn refine<'a>(&mut self, image: impl Into<View<'a>>, seed: [f32; 2]) -> Refined {
        let image = image.into();
        if image.deep.is_some() {
            return self.refine_samples(image, seed);
        }
        let answer = self
            .0
            .refine(seed, rust::RefineContext::new(Some(view(image)), None));
        Refined {
            status: status(answer.status),
            x: answer.x,
            y: answer.y,
            score: answer.score,
            converged: probe::saddle_point::converged(&answer),
            covariance: answer
                .noise_covariance_per_unit_variance()
                .map(|c| [c.xx, c.xy, c.yy]),
        }
    }

    /// The same by the samples as words, whatever the depth.
    pub fn refine_samples(&mut self, image: View<'_>, seed: [f32; 2]) -> Refined {
        let samples = image.samples();
        let found = probe::saddle_point::refine_words(&mut self.0, &words(image, &samples), seed);
        match found {
            Ok(([x, y], score, converged, covariance)) => Refined {
                status: 0,
                x,
                y,
                score,
                converged,
                covariance,
            },
            Err((score, refused)) => Refined {
                status: status(refused),
                x: seed[0],
                y: seed[1],
                score,
                ..Refined::default()
            },
        }
    }

    /// The estimate alone of a seed whose patch lies inside the image: the
    /// place, and the covariance; `None` where it is refused.
    pub fn estimate<'a>(
        &mut self,
        image: impl Into<View<'a>>,
        seed: [f32; 2],
    ) -> Option<([f32; 2], Option<[f32; 3]>)> {
        probe::saddle_point::estimate(&mut self.0, &view(image.into()), seed)
    }

    /// `refine_corners_on_image`.
    pub fn refine_list<'a>(&mut self, image: impl Into<View<'a>>, list: &[Triple]) -> Vec<Triple> {
        triples(&rust::refine_corners_on_image(
            corners(list),
            Some(view(image.into())),
            None,
            &mut self.0,
        ))
    }

    /// `refine_corners_on_image_with_fallback`.
    pub fn refine_list_with_fallback<'a>(
        &mut self,
        fallback: &mut Refiner,
        image: impl Into<View<'a>>,
        list: &[Triple],
    ) -> Vec<Triple> {
        triples(&rust::refine_corners_on_image_with_fallback(
            corners(list),
            Some(view(image.into())),
            None,
            &mut self.0,
            &mut fallback.0,
        ))
    }
}

/// One seed by the original and by the mirror. The answer is the original's;
/// the counts are the mirror's, `None` where no seed was accepted.
///
/// Ends the program where the two do not agree bit for bit.
pub fn refine_counted<'a>(
    image: impl Into<View<'a>>,
    s: &Settings,
    seed: [f32; 2],
    covariance: bool,
) -> (Refined, Option<Run>) {
    Counted::new(s, covariance).refine(image.into(), seed)
}

/// The two kept for many seeds with one radius.
pub struct Counted {
    refiner: Refiner,
    mirror: probe::saddle_point::Mirror,
    covariance: bool,
}

impl Counted {
    pub fn new(s: &Settings, covariance: bool) -> Self {
        Counted {
            refiner: Refiner::new(s, covariance),
            mirror: probe::saddle_point::Mirror::new(settings(s)),
            covariance,
        }
    }

    /// Other settings with the same radius.
    pub fn settle(&mut self, s: &Settings, covariance: bool) {
        probe::saddle_point::settle(&mut self.refiner.0, settings(s), covariance);
        self.mirror.settle(settings(s));
        self.covariance = covariance;
    }

    /// The original on a list.
    pub fn refine_list(&mut self, image: View<'_>, list: &[Triple]) -> Vec<Triple> {
        self.refiner.refine_list(image, list)
    }

    /// Other contents for the operator, where the radius has one.
    pub fn lend(&mut self, s: &Settings, op: &LentOperator) {
        self.refiner.lend(s, op);
        self.mirror.lend(&op.rows(s.radius));
    }

    /// As `refine_counted`.
    pub fn refine(&mut self, image: View<'_>, seed: [f32; 2]) -> (Refined, Option<Run>) {
        let answer = self.refiner.refine(image, seed);
        self.held_by_words(image, seed, &answer);
        if answer.status == 2 {
            return (answer, None);
        }
        let mirrored = match image.deep {
            None => self.mirror.run(&view(image), seed),
            Some(_) => self.mirror.run_words(&words(image, &image.samples()), seed),
        };
        let run = self.held_by_mirror(&answer, mirrored);
        (answer, run)
    }

    /// With an operator of any content: by the samples as words, where no test of a
    /// patch wraps. The original on bytes gives the same, or it panics, which is
    /// said. Ends the program where it gives something else.
    pub fn refine_lent(
        &mut self,
        image: View<'_>,
        seed: [f32; 2],
    ) -> (Refined, Option<Run>, bool) {
        let answer = self.refiner.refine_samples(image, seed);
        let original = crate::rust_or_rule::run(|| self.refiner.refine(image, seed));
        if original.is_some_and(|other| bits_of(&other) != bits_of(&answer)) {
            crate::rust_or_rule::broken("a lent operator gives words another answer than bytes");
        }
        if answer.status == 2 {
            return (answer, None, original.is_none());
        }
        let mirrored = self.mirror.run_words(&words(image, &image.samples()), seed);
        let run = self.held_by_mirror(&answer, mirrored);
        (answer, run, original.is_none())
    }

    /// What the mirror counts of an answer that is its own, bit for bit. Ends the
    /// program where it is not.
    fn held_by_mirror(
        &self,
        answer: &Refined,
        mirrored: Result<probe::saddle_point::Mirrored, (f32, rust::RefineStatus)>,
    ) -> Option<Run> {
        match mirrored {
            Err((score, refused)) => {
                hold(
                    status(refused) == answer.status && same(score, answer.score),
                    "the mirror refuses otherwise",
                );
                None
            }
            Ok(m) => {
                self.held_alike(answer, &m);
                Some(counts(&m))
            }
        }
    }

    /// An accepted answer is the mirror's.
    fn held_alike(&self, answer: &Refined, m: &probe::saddle_point::Mirrored) {
        hold(answer.status == 0, "the mirror accepts what was refused");
        hold(
            same(m.xy[0], answer.x) && same(m.xy[1], answer.y) && same(m.score, answer.score),
            "the mirror finds another place",
        );
        hold(
            m.converged == answer.converged,
            "the mirror parts on convergence",
        );
        let asked = m.covariance.filter(|_| self.covariance);
        hold(
            asked.map(|c| c.map(crate::words::bits32))
                == answer.covariance.map(|c| c.map(crate::words::bits32)),
            "the mirror finds another covariance",
        );
    }

    /// On bytes the estimator over words gives what the original gives, bit for
    /// bit: so it may judge the deep images. Ends the program where it does not.
    fn held_by_words(&mut self, image: View<'_>, seed: [f32; 2], answer: &Refined) {
        if image.deep.is_some() {
            return;
        }
        let again = self.refiner.refine_samples(image, seed);
        if bits_of(&again) != bits_of(answer) {
            crate::rust_or_rule::broken("words of bytes are refined otherwise than bytes");
        }
    }
}

/// Ends the program where a check of the oracle does not hold.
fn hold(holds: bool, what: &str) {
    if !holds {
        crate::rust_or_rule::broken(what);
    }
}

/// The same bits; one NaN is another.
fn same(a: f32, b: f32) -> bool {
    crate::words::bits32(a) == crate::words::bits32(b)
}

/// What an answer has, by its bits; one NaN is another.
fn bits_of(a: &Refined) -> (u32, [u32; 3], bool, Option<[u32; 3]>) {
    let covariance = a.covariance.map(|c| c.map(crate::words::bits32));
    let floats = [a.x, a.y, a.score].map(crate::words::bits32);
    (a.status, floats, a.converged, covariance)
}

/// What the mirror counted.
fn counts(m: &probe::saddle_point::Mirrored) -> Run {
    Run {
        tries: m.tries,
        steps: m.steps,
        newtons: m.newtons,
        far: m.far,
        fits: m.fits,
        stuck: m.stuck,
        fresh_slope: m.fresh_slope,
        reach: m.reach,
    }
}

/// The mirror alone, for a hunt: what it counts, nothing where no seed is accepted.
pub struct Alone(probe::saddle_point::Mirror);

impl Alone {
    pub fn new(s: &Settings) -> Self {
        Alone(probe::saddle_point::Mirror::new(settings(s)))
    }

    pub fn run<'a>(&self, image: impl Into<View<'a>>, seed: [f32; 2]) -> Run {
        match self.0.run(&view(image.into()), seed) {
            Ok(m) => counts(&m),
            Err(_) => Run::default(),
        }
    }
}

/// The place of the first fit, accepted or not, by the mirror.
pub fn first_fit<'a>(image: impl Into<View<'a>>, s: &Settings, seed: [f32; 2]) -> [f32; 2] {
    match probe::saddle_point::mirror(&settings(s), &view(image.into()), seed) {
        Ok(m) => m.first,
        Err(_) => [f32::NAN; 2],
    }
}

/// The place of the last fit that the steps reached, by the mirror.
pub fn last_fit<'a>(image: impl Into<View<'a>>, s: &Settings, seed: [f32; 2]) -> [f32; 2] {
    match probe::saddle_point::mirror(&settings(s), &view(image.into()), seed) {
        Ok(m) => m.last,
        Err(_) => [f32::NAN; 2],
    }
}

/// `merge_corners_simple`.
pub fn merge(list: &[Triple], radius: f32) -> Vec<Triple> {
    triples(&rust::merge_corners_simple(&mut corners(list), radius))
}

/// `merge_corners_naive`, the plain scan, with the square of the radius.
pub fn merge_plain(list: &[Triple], r2: f32) -> Vec<Triple> {
    triples(&probe::merge::plain_scan(&mut corners(list), r2))
}

/// `detect_peaks_from_response_with_refine_radius`. The Rust knows the ring
/// radii 5 and 10 only, and they reach no further than the border; for
/// another ring radius the difference is put into the refiner's radius, a
/// signed number that the Rust adds to it.
pub fn peaks(width: usize, height: usize, response: &[f32], s: &PeakSettings) -> Vec<Triple> {
    let map = rust::ResponseMap::new(width, height, response.to_vec());
    let mut params = rust::ChessParams::default();
    params.threshold = s.threshold;
    params.nms_radius = s.window_radius as u32;
    params.min_cluster_size = s.min_cluster_size;
    params.use_radius10 = s.ring_radius == 10;
    let shift = s.ring_radius - params.ring_radius() as i32;
    triples(&rust::detect_peaks_from_response_with_refine_radius(
        &map,
        &params,
        s.refiner_radius + shift,
    ))
}

/// `solve`: a saddle, or the determinant that was refused.
pub fn solve(s: &Settings, coefs: [f32; 5]) -> Result<Saddle, f32> {
    probe::saddle_point::solve_at(&settings(s), coefs).map(|(u, quad, det)| Saddle { u, quad, det })
}

/// `fit_operator` with `inverse_normal_matrix`.
pub fn operator(radius: i32) -> Option<Operator> {
    let inverse = probe::saddle_point::inverse(radius);
    let made = probe::saddle_point::operator(radius);
    assert!(inverse.is_some() == made.is_some());
    let (columns, overlap) = made?;
    Some(Operator {
        columns,
        overlap,
        inverse: inverse?,
    })
}

/// `Window::new`: base and fraction.
pub fn window(centre: [i32; 2], offset: [f32; 2]) -> ([i32; 2], [f32; 2]) {
    probe::saddle_point::window(centre, offset)
}

/// `IntegerFits::at`: the coefficients of the patch centred on a pixel.
pub fn fit<'a>(image: impl Into<View<'a>>, radius: i32, centre: [i32; 2]) -> Option<[f32; 5]> {
    probe::saddle_point::fit_at(radius, &view(image.into()), centre)
}

/// `blend` and `cached_slope` of four fits, `[j][i]`, at a fraction.
pub fn blend(corners: [[[f32; 5]; 2]; 2], t: [f32; 2]) -> ([f32; 5], [[f32; 5]; 2]) {
    probe::saddle_point::blend_and_slope(corners, t)
}

/// `newton_step`.
pub fn newton_step(m: [[f32; 2]; 2], u: [f32; 2]) -> Option<[f32; 2]> {
    probe::saddle_point::newton(m, u)
}

/// `sensitivity`: J and M.
pub fn sensitivity(saddle: &Saddle, slope: &[[f32; 5]; 2]) -> ([[f32; 5]; 2], [[f32; 2]; 2]) {
    probe::saddle_point::sensitivity_of((saddle.u, saddle.quad, saddle.det), slope)
}

/// `covariance` for a window with fraction `t`.
pub fn covariance(
    radius: i32,
    t: [f32; 2],
    jac: &[[f32; 5]; 2],
    m: [[f32; 2]; 2],
) -> Option<[f32; 3]> {
    probe::saddle_point::covariance_of(radius, t, jac, m)
}

pub use probe::response::Gradients;

/// `ResponseStencil::add_gradient` on a square tile and a gradient grid of
/// the same side.
pub fn add_gradient(
    ring: &Ring,
    side: usize,
    tile: &[u8],
    x: i32,
    y: i32,
    scale: [f32; 2],
    before: &[[f32; 2]],
) -> Vec<[f32; 2]> {
    probe::response::add_gradient(ring, side, tile, x, y, scale, before)
}
