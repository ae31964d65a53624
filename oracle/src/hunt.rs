//! Looks for runs of the refiner that are hard to meet, and prints what it
//! saw. Nothing of the lists comes from here.

use crate::lists::{lent, refine};
use crate::random::Random;
use crate::rust_or_rule::run;
use crate::types::*;
use crate::{pictures, plain};

/// The first seed number whose picture makes the steps start and then fail.
fn first_stuck() -> Option<u64> {
    (0..100_000).find(|&n| {
        let image = pictures::any(&mut Random::of(n, "stuck"), 13, 13);
        let s = refine::stuck_settings();
        match plain::refine_counted(&image, &s, [6.0, 6.0], false) {
            (a, Some(run)) => a.status == 0 && !a.converged && run.stuck && run.steps > 0,
            _ => false,
        }
    })
}

pub fn all(turns: usize, seed: u64) {
    println!("steps that start and fail: picture {:?}", first_stuck());
    let mut random = Random::of(seed, "hunt");
    let mut most = Run::default();
    let mut reach = 0.0;
    let (mut accepted, mut panics, mut far, mut sixteen) = (0, 0, 0, 0);
    for _ in 0..turns {
        let s = Settings {
            radius: random.pick(&[1, 1, 1, 2, 2, 3]),
            det_margin: random.pick(&[0.0, 0.0, 0.0, 1e-3]),
            max_offset: random.pick(&[1e30, 1e30, 1.5]),
            min_abs_det: random.pick(&[0.0, 0.0, 0.0, 1e-4]),
        };
        let side = random.between(6, 12) as usize;
        let image = pictures::hard(&mut random, side);
        for _ in 0..20 {
            let seed = [random.unit() * side as f32, random.unit() * side as f32];
            match run(|| plain::refine_counted(&image, &s, seed, true)) {
                None => panics += 1,
                Some((_, None)) => {}
                Some((a, Some(r))) => {
                    accepted += 1;
                    if r.far > 0 {
                        far += 1;
                        println!("a base leaves 32 bits: {image:?} {s:?} {seed:?} {a:?} {r:?}");
                    }
                    if r.steps == 16 {
                        sixteen += 1;
                        if sixteen <= 3 {
                            println!("16 steps: {image:?} {s:?} {seed:?} {a:?} {r:?}");
                        }
                    }
                    if r.tries > most.tries {
                        most = r;
                        println!("tries {}: {image:?} {s:?} {seed:?} {r:?}", r.tries);
                    }
                    if r.reach > reach {
                        reach = r.reach;
                        println!("reach {reach}: {image:?} {s:?} {seed:?} {r:?}");
                    }
                    if a.converged && a.covariance.is_none() {
                        println!("converged, covariance not finite: {image:?} {s:?} {seed:?}");
                    }
                }
            }
        }
    }
    println!("{accepted} accepted, {panics} panics, {far} far bases, {sixteen} of 16 steps, farthest candidate {reach}, most tries {most:?}");
}

/// A picture whose rows are P, Q, P, Q and so on, and a seed on it. Every row
/// is a mirror, so that a fit has no slope downwards but by rounding. The
/// first fit lies `half`/2 pixels to the left, half-way between two centres;
/// there the curves downwards of the two cancel, again but for rounding, and
/// the next step may be long.
fn alternating(random: &mut Random, radius: usize) -> Option<(Image, [f32; 2])> {
    let r = radius as i64;
    let half = 2 * random.below(radius + 1) as i64 + 1;
    let left = ((half + 1) / 2) as usize;
    let (side, centre) = (2 * radius + 1, left + radius);
    let width = centre + radius + 1;

    // 3x² less three times its mean; what the first fit asks of the sums of
    // the columns, as whole numbers: their scalar product with `asked` is 0.
    let curve = |x: i64| 3 * x * x - r * (r + 1);
    let squares: i64 = (-r..=r).map(|x| x * x).sum();
    let curves: i64 = (-r..=r).map(|x| curve(x) * curve(x)).sum();
    let asked: Vec<i64> = (-r..=r)
        .map(|x| curves * x - 3 * half * squares * curve(x))
        .collect();

    let (most, spread) = (
        random.pick(&[1, 2, 3, 5, 9]),
        random.pick(&[2, 4, 10, 30, 80]),
    );
    let mut apart: Vec<i64> = (0..width).map(|_| random.between(-most, most)).collect();
    apart[0] = -(2 * apart[1..side].iter().sum::<i64>() + apart[side]);
    let mut p: Vec<i64> = (0..width).map(|_| random.between(0, spread)).collect();
    // Rows of the patch that are Q, and the sum of a column of it.
    let others = (0..=2 * r).filter(|y| (y - r) % 2 != 0).count() as i64;
    let last = width - 1;
    let sum: i64 = (0..2 * radius)
        .map(|x| {
            let k = centre - radius + x;
            asked[x] * (side as i64 * p[k] + others * apart[k])
        })
        .sum();
    let of_last = asked[2 * radius];
    if of_last == 0 || sum % of_last != 0 {
        return None;
    }
    let wanted = -sum / of_last;
    apart[last] = (0..side as i64).find(|d| (wanted - others * d) % side as i64 == 0)?;
    p[last] = (wanted - others * apart[last]) / side as i64;
    let q: Vec<i64> = p.iter().zip(&apart).map(|(p, d)| p + d).collect();
    let least = p.iter().chain(&q).min().copied()?;
    let rows = 2 * radius + 3;
    let mut bytes = Vec::with_capacity(rows * width);
    for y in 0..rows {
        for v in if (y + radius + 1) % 2 == 0 { &p } else { &q } {
            // A level more everywhere changes nothing.
            bytes.push(u8::try_from(v - least).ok()?);
        }
    }
    let seed = [centre as f32, (radius + 1) as f32];
    Some((Image::new(width, rows, bytes), seed))
}

/// Looks on such pictures for a candidate far from its centre.
pub fn far(turns: usize, seed: u64) {
    let mut random = Random::of(seed, "far");
    let mirrors: Vec<plain::Alone> = (1..=3)
        .map(|radius| {
            plain::Alone::new(&Settings {
                radius,
                det_margin: 0.0,
                max_offset: 1e30,
                min_abs_det: 0.0,
            })
        })
        .collect();
    let mut best = 0.0f32;
    let (mut tried, mut long) = (0, 0);
    for _ in 0..turns {
        let radius = random.pick(&[1usize, 2, 2, 2, 3]);
        let Some((image, at)) = alternating(&mut random, radius) else {
            continue;
        };
        tried += 1;
        let here = mirrors[radius - 1].run(&image, at).reach;
        long += usize::from(here > 1e6);
        if here > best {
            best = here;
            println!("reach {best}: radius {radius} {image:?} {at:?}");
        }
    }
    println!(
        "{tried} pictures, {long} with a candidate beyond 1,000,000, farthest candidate {best}"
    );
}

/// Looks on pictures of 32 by 30 at radius 7 for the most tries, by the picture's
/// number.
pub fn tries(turns: usize, seed: u64) {
    let mirror = plain::Alone::new(&refine::through(7));
    let mut most = 0;
    for number in seed..seed + turns as u64 {
        let (image, at) = refine::wide(number);
        let here = mirror.run(&image, at).tries;
        if here > most {
            most = here;
            println!("tries {most}: picture {number} {at:?}");
        }
        if most == 64 {
            return;
        }
    }
    println!("{turns} pictures, most tries {most}");
}

/// Looks among lent operators of any content, by the number of the run, for a base
/// that leaves 32 bits and for a seed that converged after steps without a finite
/// covariance, though the operator is finite.
pub fn lent(turns: usize, seed: u64) {
    let (mut accepted, mut far, mut not_finite) = (0, 0, 0);
    for number in seed..seed + turns as u64 {
        let case = lent::numbered(number);
        let (a, run) = case.run();
        accepted += usize::from(a.status == 0);
        if run.far > 0 {
            far += 1;
            println!("a base leaves 32 bits: number {number} {a:?} {run:?}");
        }
        let op = &case.operator;
        let finite = op.columns.iter().chain(&op.overlap).all(|v| v.is_finite());
        if a.converged && a.covariance.is_none() && run.steps > 0 && finite {
            not_finite += 1;
            if not_finite <= 5 {
                println!("covariance not finite: number {number} {a:?} {run:?}");
            }
        }
    }
    println!(
        "{turns} runs, {accepted} accepted, {far} with a base beyond 32 bits, {not_finite} covariances not finite after steps"
    );
}
