// Child module of refine/saddle_point.rs.
use super::*;

pub type FiveFloats = [f32; 5];

/// The private fit operator: a row of five for each sample, and the overlaps.
pub type Operator = (Vec<FiveFloats>, [[FiveFloats; 5]; 9]);

pub fn inverse(radius: i32) -> Option<[[f64; 6]; 6]> {
    inverse_normal_matrix(radius)
}

pub fn operator(radius: i32) -> Option<Operator> {
    fit_operator(radius).map(|op| (op.columns, *op.overlap))
}

/// A fitted saddle: u, the quadratic coefficients, the determinant.
pub type Saddle = ([f32; 2], [f32; 3], f32);

pub fn solve_at(cfg: &SaddlePointConfig, coefs: FiveFloats) -> Result<Saddle, f32> {
    solve(cfg, coefs).map(|s| (s.u, s.quad, s.det_h))
}

/// Base and fraction of the window at `offset` from `centre`.
pub fn window(centre: [i32; 2], offset: [f32; 2]) -> ([i32; 2], [f32; 2]) {
    let w = Window::new(centre, offset);
    (w.base, w.t)
}

pub fn newton(m: [[f32; 2]; 2], u: [f32; 2]) -> Option<[f32; 2]> {
    newton_step(m, u)
}

pub fn sensitivity_of(
    (u, quad, det_h): Saddle,
    slope: &[FiveFloats; 2],
) -> ([FiveFloats; 2], [[f32; 2]; 2]) {
    sensitivity(&PatchSaddle { u, quad, det_h }, slope)
}

pub fn covariance_of(
    radius: i32,
    t: [f32; 2],
    jac: &[FiveFloats; 2],
    m: [[f32; 2]; 2],
) -> Option<[f32; 3]> {
    let op = fit_operator(radius)?;
    covariance(&op, &Window { base: [0, 0], t }, jac, m).map(|c| [c.xx, c.xy, c.yy])
}

/// The fit of the patch centred on a pixel, by a fresh cache.
pub fn fit_at(radius: i32, image: &ImageView<'_>, centre: [i32; 2]) -> Option<FiveFloats> {
    let op = fit_operator(radius)?;
    let side = (2 * radius + 1) as usize;
    let mut patch = vec![0.0; side * side];
    IntegerFits::new(image, &op, radius, &mut patch).at(centre)
}

/// The blend of the four fits about a base, as `[j][i]`, at fraction `t`, and
/// the slope of it.
pub fn blend_and_slope(
    corners: [[FiveFloats; 2]; 2],
    t: [f32; 2],
) -> (FiveFloats, [FiveFloats; 2]) {
    let window = Window { base: [0, 0], t };
    let op = fit_operator(1).expect("radius 1 has an operator");
    let image = ImageView::from_u8_slice(1, 1, &[0]).expect("one pixel");
    let mut patch = [0.0; 9];
    let mut fits = IntegerFits::new(&image, &op, 1, &mut patch);
    fits.corners = corners;
    fits.corners_base = Some(window.base);
    let slope = fits.cached_slope(&window).expect("the base is the same");
    (blend(&corners, &window), slope)
}

/// Whether an answer converged: a field that only the crate sees.
pub fn converged(answer: &RefineResult) -> bool {
    answer.converged
}

/// A refiner that reports covariances, or not.
pub fn refiner(cfg: SaddlePointConfig, reports: bool) -> SaddlePointRefiner {
    let mut made = SaddlePointRefiner::new(cfg);
    made.reports_covariance = reports;
    made
}

/// Other settings with the same radius for a refiner that is kept.
pub fn settle(refiner: &mut SaddlePointRefiner, cfg: SaddlePointConfig, reports: bool) {
    assert!(refiner.cfg.radius == cfg.radius);
    refiner.cfg = cfg;
    refiner.reports_covariance = reports;
}

/// An operator of other contents.
fn lent((columns, overlap): &Operator) -> FitOperator {
    FitOperator {
        columns: columns.clone(),
        overlap: Box::new(*overlap),
    }
}

/// Other contents for the operator of a refiner; where there is none, there is
/// none still.
pub fn lend(refiner: &mut SaddlePointRefiner, op: &Operator) {
    refiner.fit_op = refiner.fit_op.take().map(|_| lent(op));
}

/// Twelve-bit samples for the Rust's own estimator, which reads an image through
/// its private `Pixels` (W-212): rows without padding.
pub struct Words<'a> {
    pub width: usize,
    pub height: usize,
    pub words: &'a [u16],
}

impl Pixels for Words<'_> {
    fn supports(&self, x: i32, y: i32, radius: i32) -> bool {
        let within = |v: i32, size: usize| v >= radius && i64::from(v) + i64::from(radius) < size as i64;
        within(x, self.width) && within(y, self.height)
    }

    fn read_patch(&self, x: i32, y: i32, radius: i32, out: &mut [f32]) {
        let side = 2 * radius + 1;
        for (k, v) in out.iter_mut().enumerate() {
            let (dx, dy) = (k as i32 % side - radius, k as i32 / side - radius);
            *v = f32::from(self.words[(y + dy) as usize * self.width + (x + dx) as usize]);
        }
    }
}

/// What the estimator says of a seed: the place, the score, whether it converged,
/// and the covariance.
pub type Estimated = ([f32; 2], f32, bool, Option<[f32; 3]>);

/// The Rust's estimator on words: as `refine` calls it, without the edge width.
pub fn refine_words(
    refiner: &mut SaddlePointRefiner,
    words: &Words<'_>,
    seed: [f32; 2],
) -> Result<Estimated, (f32, RefineStatus)> {
    let centre = seed.map(|v| v.round() as i32);
    if !words.supports(centre[0], centre[1], refiner.cfg.radius) {
        return Err((0.0, RefineStatus::OutOfBounds));
    }
    let e = refiner.estimate(words, centre, seed, MAX_STEPS, STEP_TOL)?;
    let covariance = e.covariance.map(|c| [c.xx, c.xy, c.yy]);
    Ok((e.xy, e.score, e.converged, covariance))
}

/// The refiner's estimate alone, without the edge width that `refine` works
/// out beside a covariance; the centre's patch must lie inside the image.
pub fn estimate(
    refiner: &mut SaddlePointRefiner,
    image: &ImageView<'_>,
    seed: [f32; 2],
) -> Option<([f32; 2], Option<[f32; 3]>)> {
    let centre = seed.map(|v| v.round() as i32);
    let found = refiner.estimate(image, centre, seed, MAX_STEPS, STEP_TOL);
    let found = found.ok()?;
    let covariance = found.covariance.map(|c| [c.xx, c.xy, c.yy]);
    Some((found.xy, covariance))
}

/// What the mirror of the loop found.
pub struct Mirrored {
    pub xy: [f32; 2],
    pub score: f32,
    pub converged: bool,
    pub covariance: Option<[f32; 3]>,
    /// Candidate windows tried.
    pub tries: u32,
    /// Steps taken.
    pub steps: u32,
    /// Steps that used the Newton step.
    pub newtons: u32,
    /// Candidates whose base leaves 32 bits.
    pub far: u32,
    /// Patches fitted, and whether more than the cache holds.
    pub fits: usize,
    /// The last step had no candidate that was taken.
    pub stuck: bool,
    /// The slope had to be worked out without the four cached fits.
    pub fresh_slope: bool,
    /// The greatest offset of a candidate.
    pub reach: f32,
    /// The first fit's place, and the last one's.
    pub first: [f32; 2],
    pub last: [f32; 2],
}

/// Whether each part of the base of the window at `offset` from `centre`,
/// and the place one beside it, is a number of 32 bits.
fn base_fits(centre: [i32; 2], offset: [f32; 2]) -> bool {
    (0..2).all(|k| {
        let base = i64::from(centre[k]) + i64::from(offset[k].floor() as i32);
        i32::try_from(base).is_ok() && i32::try_from(base + 1).is_ok()
    })
}

/// The steps once more, counted, over the private functions of the file.
/// The centre's patch must lie inside the image. The caller compares the
/// answer with the original's.
pub fn mirror(
    cfg: &SaddlePointConfig,
    image: &ImageView<'_>,
    seed: [f32; 2],
) -> Result<Mirrored, (f32, RefineStatus)> {
    Mirror::new(*cfg).run(image, seed)
}

/// The mirror of many seeds with one radius.
pub struct Mirror {
    op: Option<FitOperator>,
    cfg: SaddlePointConfig,
}

impl Mirror {
    pub fn new(cfg: SaddlePointConfig) -> Self {
        let op = fit_operator(cfg.radius);
        Mirror { op, cfg }
    }

    /// Other settings with the same radius.
    pub fn settle(&mut self, cfg: SaddlePointConfig) {
        assert!(self.cfg.radius == cfg.radius);
        self.cfg = cfg;
    }

    /// Other contents for the operator, as `lend` has it.
    pub fn lend(&mut self, op: &Operator) {
        self.op = self.op.take().map(|_| lent(op));
    }

    pub fn run(
        &self,
        image: &ImageView<'_>,
        seed: [f32; 2],
    ) -> Result<Mirrored, (f32, RefineStatus)> {
        match &self.op {
            Some(op) => mirror_with(op, &self.cfg, image, seed),
            None => Err((0.0, RefineStatus::IllConditioned)),
        }
    }

    /// The same on words.
    pub fn run_words(
        &self,
        words: &Words<'_>,
        seed: [f32; 2],
    ) -> Result<Mirrored, (f32, RefineStatus)> {
        match &self.op {
            Some(op) => mirror_with(op, &self.cfg, words, seed),
            None => Err((0.0, RefineStatus::IllConditioned)),
        }
    }
}

/// The mirror with the operator at hand.
fn mirror_with(
    op: &FitOperator,
    cfg: &SaddlePointConfig,
    image: &impl Pixels,
    seed: [f32; 2],
) -> Result<Mirrored, (f32, RefineStatus)> {
    let side = (2 * cfg.radius + 1) as usize;
    let mut patch = vec![0.0; side * side];
    let mut fits = IntegerFits::new(image, op, cfg.radius, &mut patch);
    let centre = seed.map(|v| v.round() as i32);
    let home = centre.map(|v| v as f32);
    let half_side = cfg.max_offset.min(cfg.radius as f32 + 0.5);
    let inside = |off: [f32; 2]| {
        ((home[0] + off[0]) - seed[0]).abs() <= half_side
            && ((home[1] + off[1]) - seed[1]).abs() <= half_side
    };
    let size = |u: [f32; 2]| u[0] * u[0] + u[1] * u[1];
    let small = STEP_TOL * STEP_TOL;

    let Some(coefs) = fits.at(centre) else {
        return Err((0.0, RefineStatus::OutOfBounds));
    };
    let first = match solve(cfg, coefs) {
        Ok(fit) => fit,
        Err(det) => return Err((det, RefineStatus::IllConditioned)),
    };
    if !inside(first.u) {
        return Err((first.det_h, RefineStatus::Rejected));
    }

    let mut now = (first, [0.0f32; 2], Window::new(centre, [0.0; 2]));
    let (mut tries, mut steps, mut newtons, mut far) = (0, 0, 0, 0);
    let mut stuck = false;
    let mut reach = 0.0f32;
    while steps < MAX_STEPS as u32 && !stuck && !(size(now.0.u) < small) {
        let (fit, at, window) = now;
        let newton = match fits.cached_slope(&window) {
            Some(slope) => newton_step(sensitivity(&fit, &slope).1, fit.u),
            None => None,
        };
        let step = newton.unwrap_or(fit.u);
        stuck = true;
        for scale in [1.0f32, 0.5, 0.25, 0.125] {
            tries += 1;
            let place = [at[0] + scale * step[0], at[1] + scale * step[1]];
            reach = reach.max(place[0].abs()).max(place[1].abs());
            if !base_fits(centre, place) {
                far += 1;
                continue;
            }
            let there = Window::new(centre, place);
            let Some(found) = fits.refit(cfg, &there) else {
                continue;
            };
            let nearer = size(found.u) < size(fit.u);
            if nearer && inside([place[0] + found.u[0], place[1] + found.u[1]]) {
                now = (found, place, there);
                stuck = false;
                steps += 1;
                newtons += u32::from(newton.is_some());
                break;
            }
        }
    }

    let (fit, at, window) = now;
    let mut answer = Mirrored {
        xy: [home[0] + first.u[0], home[1] + first.u[1]],
        score: (-first.det_h).sqrt(),
        converged: false,
        covariance: None,
        tries,
        steps,
        newtons,
        far,
        fits: fits.len,
        stuck,
        fresh_slope: false,
        reach,
        first: [home[0] + first.u[0], home[1] + first.u[1]],
        last: [home[0] + at[0] + fit.u[0], home[1] + at[1] + fit.u[1]],
    };
    if size(fit.u) >= small {
        return Ok(answer);
    }
    answer.xy = [home[0] + at[0] + fit.u[0], home[1] + at[1] + fit.u[1]];
    answer.score = (-fit.det_h).sqrt();
    let cached = fits.cached_slope(&window);
    answer.fresh_slope = cached.is_none();
    if let Some(slope) = cached.or_else(|| fits.slope(&window)) {
        let (jac, m) = sensitivity(&fit, &slope);
        let det = m[0][0] * m[1][1] - m[0][1] * m[1][0];
        if det.is_finite() && det != 0.0 {
            answer.converged = true;
            answer.covariance = covariance(op, &window, &jac, m).map(|c| [c.xx, c.xy, c.yy]);
        }
    }
    answer.fits = fits.len;
    Ok(answer)
}
