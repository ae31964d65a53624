//! What each call of the port must answer: document 01's refusals first,
//! then the Rust's answer, or document 01's where the Rust has none. Plain
//! functions over slices; the lists are written from them, and a driver that
//! compares the port natively calls them too. For timing call `plain`.

use crate::padding;
use crate::rules::{self, Way};
use crate::rust_or_rule::{accepted, broken, refusal, run, Decided};
use crate::types::*;
use crate::words::bits32;
use crate::{any_ring, checked, plain};
use std::cell::RefCell;
use std::thread::LocalKey;

/// The number of an answer, and who decided it.
#[derive(Clone, Copy, Debug, PartialEq, Eq)]
pub struct Decision {
    pub number: u32,
    pub decided: Decided,
}

fn decision(refused: Option<u32>, decided: Decided) -> Decision {
    Decision {
        number: refused.unwrap_or(0),
        decided,
    }
}

/// A check of rule against Rust that must hold.
fn hold(holds: bool, what: &str) {
    if !holds {
        broken(what);
    }
}

pub fn same_floats(a: &[f32], b: &[f32]) -> bool {
    a.len() == b.len() && a.iter().zip(b).all(|(x, y)| bits32(*x) == bits32(*y))
}

pub fn same_triples(a: &[Triple], b: &[Triple]) -> bool {
    same_floats(&a.concat(), &b.concat())
}

/// The whole triples of a list of floats.
pub fn triples(floats: &[f32]) -> Vec<Triple> {
    floats.chunks_exact(3).map(|c| [c[0], c[1], c[2]]).collect()
}

/// Asks the Rust, which knows no pitch, about the image with its padding taken
/// out. `None` where a pitch that is not the width is refused: it cannot be asked.
fn asked<T>(image: View<'_>, f: impl FnOnce(View<'_>) -> T) -> Option<T> {
    if image.pitch != image.width && rules::bad_image(image) {
        return None;
    }
    Some(without_padding(image, f))
}

/// The same of an image that no number refuses.
pub fn without_padding<T>(image: View<'_>, f: impl FnOnce(View<'_>) -> T) -> T {
    let bytes = padding::taken_out(image);
    f(View {
        pitch: image.width,
        bytes: &bytes,
        ..image
    })
}

/// Runs the Rust on a whole image of bytes; `None` where it panics, or where the
/// image is deep: its lists take bytes alone.
fn by_rust<T>(image: View<'_>, f: impl FnOnce() -> T) -> Option<T> {
    match image.deep {
        None => run(f),
        Some(_) => None,
    }
}

/// Whether `ImageView::from_u8_slice` says no as well as document 01.
fn view_refused(image: View<'_>) -> bool {
    image.width.checked_mul(image.height) != Some(image.bytes.len() as u64)
}

/// The response of a region: width, height, values.
pub fn response(
    image: View<'_>,
    radius: i32,
    ring: &Ring,
    region: Region,
    out: usize,
) -> (Decision, u64, u64, Vec<f32>) {
    any_ring::lend_ring(radius as u32, ring);
    checked::lend_ring(radius as u32, ring);
    let by_plain = |whole: View<'_>| any_ring::response_patch(whole, false, region);
    let by_checked = |whole: View<'_>| checked::response_patch(whole, false, region);
    let refused = rules::response_refusal(image, radius, ring, region, out);
    let (w, h, values) = match refused {
        Some(_) => (0, 0, Vec::new()),
        None => rules::response(image, radius, ring, region),
    };
    let same = |answer: &Option<(usize, usize, Vec<f32>)>| {
        let (rw, rh, rv) = answer.as_ref().expect("the region is not empty");
        (*rw as u64, *rh as u64) == (w, h) && same_floats(rv, &values)
    };
    let decided = asked(image, |whole| match refused {
        _ if image.deep.is_some() => Decided::NotRun,
        // `Roi::new` says no as well.
        Some(rules::EMPTY_ROI) => Decided::ByRust,
        Some(_) => refusal(|| by_plain(whole), || by_checked(whole)),
        None => accepted(|| by_plain(whole), || by_checked(whole), same),
    });
    let decided = decided.unwrap_or(Decided::NotRun);
    hold(
        decided != Decided::OtherRule,
        "response: rule and Rust part",
    );
    (decision(refused, decided), w, h, values)
}

/// What is answered of a seed that a number refuses before any fit: 4 gives the
/// seed's own place, from 10 up nothing is given.
fn refused_seed(status: u32, seed: [f32; 2]) -> Refined {
    let [x, y] = match status {
        rules::BAD_SEED => seed,
        _ => [0.0; 2],
    };
    Refined {
        status,
        x,
        y,
        ..Refined::default()
    }
}

/// One seed: the answer, the counts of the run, and who decided.
pub fn refine_one(
    image: View<'_>,
    s: &Settings,
    seed: [f32; 2],
    covariance: bool,
) -> (Refined, Run, Decided) {
    if let Some(number) = rules::seed_refusal(image, s, seed) {
        let decided = asked(image, |whole| match view_refused(whole) {
            true => Decided::ByRust,
            false => refusal(
                || plain::Refiner::new(s, covariance).refine(whole, seed),
                || checked::Refiner::new(s, covariance).refine(whole, seed),
            ),
        });
        let decided = decided.unwrap_or(Decided::NotRun);
        return (refused_seed(number, seed), Run::default(), decided);
    }
    let (by_checked, (answer, run, panics)) = without_padding(image, |whole| {
        let by_checked = run(|| checked::refine_counted(whole, s, seed, covariance));
        let mut fresh = plain::Counted::new(s, covariance);
        (by_checked, seed_by(&mut fresh, whole, s, seed))
    });
    let decided = match by_checked {
        _ if panics => Decided::RustPanics,
        Some(_) => Decided::ByRust,
        None => Decided::RustWraps,
    };
    (answer, run, decided)
}

/// A refiner of each radius that is kept.
type Kept = RefCell<[Option<plain::Counted>; 8]>;

thread_local! {
    /// Those with their own operators, and those whose operators are lent.
    static KEPT: Kept = const { RefCell::new([const { None }; 8]) };
    static LENT: Kept = const { RefCell::new([const { None }; 8]) };
}

/// Runs with the kept refiner of these settings, which no number refuses.
fn with_kept<T>(s: &Settings, covariance: bool, f: impl FnOnce(&mut plain::Counted) -> T) -> T {
    with_kept_of(&KEPT, s, covariance, f)
}

fn with_kept_of<T>(
    all: &'static LocalKey<Kept>,
    s: &Settings,
    covariance: bool,
    f: impl FnOnce(&mut plain::Counted) -> T,
) -> T {
    all.with_borrow_mut(|all| {
        let kept = &mut all[s.radius as usize];
        let kept = kept.get_or_insert_with(|| plain::Counted::new(s, covariance));
        kept.settle(s, covariance);
        f(kept)
    })
}

/// A seed's answer and counts by the plain build, or by document 01 where it
/// panics; and whether it does.
fn seed_by(
    refiner: &mut plain::Counted,
    image: View<'_>,
    s: &Settings,
    seed: [f32; 2],
) -> (Refined, Run, bool) {
    let outside = rules::patch_leaves(image, s, seed);
    match run(|| refiner.refine(image, seed)) {
        None => {
            hold(outside, "the Rust panics where document 01 has a fit");
            let unmoved = Refined {
                status: 2,
                x: seed[0],
                y: seed[1],
                ..Refined::default()
            };
            (unmoved, Run::default(), true)
        }
        Some((mut a, run)) => {
            hold((a.status == 2) == outside, "rule and Rust part on status 2");
            // The Rust has one status for no operator and for a refused fit.
            if a.status == rules::ILL_CONDITIONED && s.radius != 0 {
                a.status = rules::why_refused(s, a.score);
            }
            (a, run.unwrap_or_default(), false)
        }
    }
}

/// `refine_one` for a driver that asks for many seeds: the refiner of a radius
/// is kept, and only the plain build is run, so nobody says who decided.
pub fn refine_kept(
    image: View<'_>,
    s: &Settings,
    seed: [f32; 2],
    covariance: bool,
) -> (Refined, Run) {
    if let Some(number) = rules::seed_refusal(image, s, seed) {
        return (refused_seed(number, seed), Run::default());
    }
    with_kept(s, covariance, |kept| {
        let (answer, run, _) = without_padding(image, |whole| seed_by(kept, whole, s, seed));
        (answer, run)
    })
}

/// One seed with a lent operator of any content, of which no number says anything:
/// the answer, the counts of the run, and whether the Rust's own call panics.
fn lent_by(
    image: View<'_>,
    s: &Settings,
    op: &LentOperator,
    seed: [f32; 2],
    covariance: bool,
) -> (Refined, Run, bool) {
    with_kept_of(&LENT, s, covariance, |kept| {
        kept.lend(s, op);
        let (mut a, run, panics) = without_padding(image, |whole| kept.refine_lent(whole, seed));
        let outside = rules::patch_leaves(image, s, seed);
        hold((a.status == 2) == outside, "rule and Rust part on status 2");
        if a.status == rules::ILL_CONDITIONED && s.radius != 0 {
            a.status = rules::why_refused(s, a.score);
        }
        (a, run.unwrap_or_default(), panics)
    })
}

/// `refine_kept` with a lent operator of any content.
pub fn refine_lent_kept(
    image: View<'_>,
    s: &Settings,
    op: &LentOperator,
    seed: [f32; 2],
    covariance: bool,
) -> (Refined, Run) {
    if let Some(number) = rules::seed_refusal(image, s, seed) {
        return (refused_seed(number, seed), Run::default());
    }
    let (answer, run, _) = lent_by(image, s, op, seed, covariance);
    (answer, run)
}

/// `refine_one` with a lent operator of any content.
pub fn refine_lent(
    image: View<'_>,
    s: &Settings,
    op: &LentOperator,
    seed: [f32; 2],
    covariance: bool,
) -> (Refined, Run, Decided) {
    if rules::seed_refusal(image, s, seed).is_some() {
        return refine_one(image, s, seed, covariance);
    }
    let (answer, counts, panics) = lent_by(image, s, op, seed, covariance);
    let by_checked = || {
        let mut refiner = checked::Refiner::new(s, covariance);
        refiner.lend(s, op);
        without_padding(image, |whole| refiner.refine(whole, seed))
    };
    let decided = match panics {
        true => Decided::RustPanics,
        false if run(by_checked).is_none() => Decided::RustWraps,
        false => Decided::ByRust,
    };
    (answer, counts, decided)
}

/// `refine_list` in the same way: the number and the corners.
pub fn refine_list_kept(
    image: View<'_>,
    s: &Settings,
    floats: &[f32],
    out: usize,
) -> (u32, Vec<Triple>) {
    if let Some(number) = rules::refine_list_refusal(image, s, floats.len(), out) {
        return (number, Vec::new());
    }
    let corners = triples(floats);
    let of_whole = |whole: View<'_>, kept: &mut plain::Counted| {
        let one_by_one: Vec<Triple> = corners
            .iter()
            .filter(|c| !rules::bad_seed([c[0], c[1]]))
            .filter_map(|c| {
                let (a, _, _) = seed_by(kept, whole, s, [c[0], c[1]]);
                (a.status == 0).then_some([a.x, a.y, c[2]])
            })
            .collect();
        // The Rust panics on some seeds that leave the image.
        if let Some(all) = by_rust(whole, || kept.refine_list(whole, &corners)) {
            hold(same_triples(&all, &one_by_one), "a list is not its seeds");
        }
        (0, one_by_one)
    };
    with_kept(s, false, |kept| {
        without_padding(image, |whole| of_whole(whole, kept))
    })
}

/// Who decided a list: both builds are run, and the plain one must give what
/// its seeds give one by one.
fn decided_list(
    one_by_one: &[Triple],
    by_plain: impl FnOnce() -> Vec<Triple>,
    by_checked: impl FnOnce() -> Vec<Triple>,
) -> Decided {
    let decided = accepted(by_plain, by_checked, |all| same_triples(all, one_by_one));
    hold(decided != Decided::OtherRule, "a list is not its seeds");
    decided
}

/// A list of seeds, `floats` of them three a corner, with `out` floats lent.
pub fn refine_list(
    image: View<'_>,
    s: &Settings,
    floats: &[f32],
    out: usize,
) -> (Decision, Vec<Triple>) {
    let corners = triples(floats);
    let refused = rules::refine_list_refusal(image, s, floats.len(), out);
    let answered = asked(image, |whole| {
        let by_plain = || plain::Refiner::new(s, false).refine_list(whole, &corners);
        let by_checked = || checked::Refiner::new(s, false).refine_list(whole, &corners);
        match refused {
            Some(rules::BAD_LENGTH) => (Vec::new(), Decided::NotRun),
            Some(_) if view_refused(whole) => (Vec::new(), Decided::ByRust),
            Some(_) => (Vec::new(), refusal(by_plain, by_checked)),
            None => {
                let one_by_one: Vec<Triple> = corners
                    .iter()
                    .filter_map(|c| {
                        let (a, _, _) = refine_one(whole, s, [c[0], c[1]], false);
                        (a.status == 0).then_some([a.x, a.y, c[2]])
                    })
                    .collect();
                let decided = decided_list(&one_by_one, by_plain, by_checked);
                (one_by_one, decided)
            }
        }
    });
    let (answer, decided) = answered.unwrap_or((Vec::new(), Decided::NotRun));
    (decision(refused, decided), answer)
}

/// W-209: the corners, and the pass that gave each.
pub fn fallback(
    image: View<'_>,
    one: &Settings,
    two: &Settings,
    floats: &[f32],
    out: usize,
    passes: usize,
) -> (Decision, Vec<Triple>, Vec<u8>) {
    let corners = triples(floats);
    let refused = rules::fallback_refusal(image, one, two, floats.len(), out, passes);
    let mut answer = Vec::new();
    let mut gave = Vec::new();
    let decided = asked(image, |whole| {
        let by_plain = || {
            let mut second = plain::Refiner::new(two, false);
            plain::Refiner::new(one, false).refine_list_with_fallback(&mut second, whole, &corners)
        };
        let by_checked = || {
            let mut second = checked::Refiner::new(two, false);
            let mut first = checked::Refiner::new(one, false);
            first.refine_list_with_fallback(&mut second, whole, &corners)
        };
        match refused {
            Some(rules::BAD_LENGTH) => Decided::NotRun,
            Some(_) if view_refused(whole) => Decided::ByRust,
            Some(_) => refusal(by_plain, by_checked),
            None => {
                for c in &corners {
                    let tried = first_pass(whole, [one, two], [c[0], c[1]]);
                    answer.extend(tried.map(|(_, [x, y])| [x, y, c[2]]));
                    gave.extend(tried.map(|(pass, _)| pass));
                }
                decided_list(&answer, by_plain, by_checked)
            }
        }
    });
    let decided = decided.unwrap_or(Decided::NotRun);
    (decision(refused, decided), answer, gave)
}

/// The first of two passes that accepts a seed, 1 or 2, and where it puts it.
fn first_pass(image: View<'_>, passes: [&Settings; 2], seed: [f32; 2]) -> Option<(u8, [f32; 2])> {
    (1..).zip(passes).find_map(|(pass, s)| {
        let (a, _, _) = refine_one(image, s, seed, false);
        (a.status == 0).then_some((pass, [a.x, a.y]))
    })
}

/// `fallback` with kept refiners: the number, the corners and their passes.
pub fn fallback_kept(
    image: View<'_>,
    [one, two]: [&Settings; 2],
    floats: &[f32],
    out: usize,
    passes: usize,
) -> (u32, Vec<Triple>, Vec<u8>) {
    if let Some(number) = rules::fallback_refusal(image, one, two, floats.len(), out, passes) {
        return (number, Vec::new(), Vec::new());
    }
    let corners = triples(floats);
    without_padding(image, |whole| {
        let spots =
            [one, two].map(|s| with_kept(s, false, |kept| spots_by(kept, whole, s, &corners)));
        let (mut answer, mut gave) = (Vec::new(), Vec::new());
        for (k, c) in corners.iter().enumerate() {
            let found = (1..)
                .zip(&spots)
                .find_map(|(pass, all)| Some((pass, all[k]?)));
            answer.extend(found.map(|(_, [x, y])| [x, y, c[2]]));
            gave.extend(found.map(|(pass, _)| pass));
        }
        let mut second = plain::Refiner::new(two, false);
        let mut first = plain::Refiner::new(one, false);
        // The Rust panics on some seeds that leave the image.
        let both = || first.refine_list_with_fallback(&mut second, whole, &corners);
        if let Some(all) = by_rust(whole, both) {
            hold(
                same_triples(&all, &answer),
                "a list with a second try is not its seeds",
            );
        }
        (0, answer, gave)
    })
}

/// Where each seed is refined to, if it is accepted.
fn spots_by(
    kept: &mut plain::Counted,
    whole: View<'_>,
    s: &Settings,
    corners: &[Triple],
) -> Vec<Option<[f32; 2]>> {
    let spot = |c: &Triple| {
        if rules::bad_seed([c[0], c[1]]) {
            return None;
        }
        let (a, _, _) = seed_by(kept, whole, s, [c[0], c[1]]);
        (a.status == 0).then_some([a.x, a.y])
    };
    corners.iter().map(spot).collect()
}

/// Whether the Rust's merge may be run: its grid asks for little memory, or
/// for so much that the library panics instead of asking.
fn merge_may_run(list: &[Triple], radius: f32) -> bool {
    if list.is_empty() || !radius.is_finite() || radius <= 0.0 {
        return true;
    }
    let [across, down] = rules::cells(list, radius).map(|n| n as u64);
    let asked = u128::from(across.wrapping_mul(down));
    asked <= 1 << 22 || asked * 24 > isize::MAX as u128
}

/// A merge: the way taken and the corners kept.
pub fn merge(
    floats: &[f32],
    radius: f32,
    heads: usize,
    links: usize,
) -> (Decision, Way, Vec<Triple>) {
    let corners = triples(floats);
    let by_plain = || plain::merge(&corners, radius);
    let by_checked = || checked::merge(&corners, radius);
    let way = rules::merge_way(floats.len(), &corners, radius, heads, links);
    let (refused, kept) = match way {
        Way::Refused(number) => (Some(number), Vec::new()),
        _ => (None, rules::merged(&corners, radius, way)),
    };
    let decided = if refused == Some(rules::BAD_LENGTH) || !merge_may_run(&corners, radius) {
        Decided::NotRun
    } else if refused.is_some() {
        refusal(by_plain, by_checked)
    } else {
        accepted(by_plain, by_checked, |answer| same_triples(answer, &kept))
    };
    hold(decided != Decided::OtherRule, "merge: rule and Rust part");
    if way == Way::Plain {
        let scan = plain::merge_plain(&corners, radius * radius);
        hold(same_triples(&scan, &kept), "the plain scan parts");
    }
    (decision(refused, decided), way, kept)
}

/// The Rust's own peaks; `None` where it panics.
pub fn peaks_of_rust(
    width: usize,
    height: usize,
    response: &[f32],
    s: &PeakSettings,
) -> Option<Vec<Triple>> {
    run(|| plain::peaks(width, height, response, s))
}

/// The peaks by document 01's window rule, `out` floats lent.
pub fn peaks(
    width: u64,
    height: u64,
    response: &[f32],
    s: &PeakSettings,
    out: usize,
) -> (Decision, Vec<Triple>) {
    let (w, h) = (width as usize, height as usize);
    let mut refused = rules::peaks_refusal(width, height, response, s, out);
    let mut peaks = Vec::new();
    if refused.is_none() {
        peaks = rules::peaks(w, h, response, s);
        if peaks.len() > out / 3 {
            refused = Some(rules::TOO_MANY);
            peaks = Vec::new();
        }
    }
    let by_plain = || plain::peaks(w, h, response, s);
    let by_checked = || checked::peaks(w, h, response, s);
    let decided = match refused {
        Some(_) => refusal(by_plain, by_checked),
        None => accepted(by_plain, by_checked, |answer| same_triples(answer, &peaks)),
    };
    (decision(refused, decided), peaks)
}

/// `solve`: the saddle, or the determinant and the number of the test that
/// fails first.
pub fn solve(s: &Settings, coefs: [f32; 5]) -> Result<Saddle, (f32, u32)> {
    plain::solve(s, coefs).map_err(|det| (det, rules::why_refused(s, det)))
}

/// The fit operator of a radius.
pub fn operator(radius: i32) -> Option<Operator> {
    plain::operator(radius)
}

/// W-213: the gradient grid afterwards, two floats a cell; empty if refused.
#[allow(clippy::too_many_arguments)]
pub fn gradient(
    side: u32,
    tile: &[u8],
    ring: &Ring,
    x: u32,
    y: u32,
    scale: [f32; 2],
    grads: &[f32],
) -> (Decision, Vec<f32>) {
    let n = side as usize;
    let before: Vec<[f32; 2]> = grads.chunks_exact(2).map(|g| [g[0], g[1]]).collect();
    let (ix, iy) = (x as i32, y as i32);
    let by_plain = || plain::add_gradient(ring, n, tile, ix, iy, scale, &before);
    let by_checked = || checked::add_gradient(ring, n, tile, ix, iy, scale, &before);
    let refused = rules::gradient_refusal(side, tile.len(), ring, x, y, grads.len());
    let mut after = Vec::new();
    let decided = match refused {
        // The Rust's tile and grid always have their side squared.
        Some(rules::BAD_IMAGE | rules::BAD_OUT) => Decided::NotRun,
        // Where it does not panic, it reads and writes the row beside.
        Some(_) => refusal(by_plain, by_checked),
        None => {
            let (x, y) = (x as usize, y as usize);
            after = rules::gradient(n, tile, ring, x, y, scale, &before).concat();
            if grads.iter().any(|g| g.to_bits() == 0x8000_0000) {
                // The Rust's grid starts from +0.0 and never holds this.
                Decided::NotRun
            } else {
                accepted(by_plain, by_checked, |answer| {
                    same_floats(&answer.concat(), &after)
                })
            }
        }
    };
    hold(
        decided != Decided::OtherRule,
        "gradient: rule and Rust part",
    );
    (decision(refused, decided), after)
}

/// W-206: the place at fault of 33 and 34, and the corner of each place, none
/// if refused. The Rust has no such call.
pub fn tie(
    board: &Board<'_>,
    floats: &[f32],
    answers: usize,
) -> (Decision, Option<usize>, Vec<u16>) {
    let refused = rules::board_refusal(board, floats.len(), answers);
    let (refused, place, tied) = match refused {
        Some(_) => (refused, None, Vec::new()),
        None => match rules::tied(board, &triples(floats)) {
            Ok(tied) => (None, None, tied),
            Err((number, place)) => (Some(number), Some(place), Vec::new()),
        },
    };
    (decision(refused, Decided::NotRun), place, tied)
}

/// W-202: the graymap, none if refused, and the pixel of 24. The Rust has no
/// such call.
pub fn graymap(file: &[u8]) -> (Decision, Option<Graymap>, Option<usize>) {
    let (refused, read, pixel) = match rules::graymap(file) {
        Ok(read) => (None, Some(read), None),
        Err((number, pixel)) => (Some(number), None, pixel),
    };
    (decision(refused, Decided::NotRun), read, pixel)
}

/// W-214: what is written, none if refused. The Rust has no such call.
pub fn salvage(
    file: &[u8],
    size: [u64; 2],
    out: usize,
    faults: usize,
) -> (Decision, Option<Salvaged>) {
    let saved = rules::salvaged(file, size, out, faults);
    let refused = saved.as_ref().err().copied();
    (decision(refused, Decided::NotRun), saved.ok())
}

/// W-211: changes what is held; a refusal leaves it. The Rust has no such call.
pub fn cover(size: [u64; 2], held: &mut Covered, asked: Asked) -> Decision {
    decision(rules::covered(size, held, asked), Decided::NotRun)
}
