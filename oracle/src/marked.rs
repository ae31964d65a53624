//! The marked examples P1 to P12 and the shortcuts of document 01, run on
//! the Rust.

use crate::lists::{merge, refine, response};
use crate::types::*;
use crate::{calls, plain, rules};

/// Everything that was run: a line each, and whether it held.
pub fn all() -> Vec<(String, bool)> {
    let mut out = Vec::new();
    let mut say = |line: String, holds: bool| out.push((line, holds));

    for (name, image, n, bits) in response::examples() {
        let ring = paper_ring(1);
        let value = plain::response_at(&image.bytes, 11, 5, 5, &ring);
        let whole = rules::whole_at((&image).into(), &ring, 5, 5);
        say(
            format!("{name}: N {whole}, value {value} ({:08X})", value.to_bits()),
            whole == n && value.to_bits() == bits,
        );
    }
    let (up, down) = (2.5f32.round(), (-2.5f32).round());
    say(
        format!("P6: round 2.5 is {up}, -2.5 is {down}"),
        up == 3.0 && down == -3.0,
    );
    let (nan, inf) = (f32::NAN as i32, f32::INFINITY as i32);
    say(
        format!("P7: NaN to {nan}, +inf to {inf}"),
        nan == 0 && inf == 2_147_483_647,
    );
    let root = 2f32.sqrt().to_bits();
    say(format!("P8: root of 2 is {root:08X}"), root == 0x3FB5_04F3);

    let open = Settings {
        det_margin: 0.0,
        min_abs_det: 0.0,
        ..Settings::default()
    };
    let saddle = [1.0, 0.0, -1.0, 1.0, 0.0];
    match plain::solve(&open, saddle) {
        Ok(fit) => {
            let score = (-fit.det).sqrt();
            let u = fit.u.map(f32::to_bits);
            say(
                format!("P9: u {:?}, score {score}", fit.u),
                u == [(-0.5f32).to_bits(), (-0.0f32).to_bits()] && score == 2.0,
            );
        }
        Err(det) => say(format!("P9: refused with {det}"), false),
    }
    match calls::solve(&open, [0.0; 5]) {
        Ok(fit) => say(format!("P10: fitted at {:?}", fit.u), false),
        Err((det, why)) => say(
            format!("P10: refused, {why}, with {det}"),
            det.to_bits() == 0 && why == rules::NOT_FINITE,
        ),
    }
    for (name, corners, kept) in merge::examples() {
        let answer = plain::merge(&corners, 2.0);
        say(
            format!("{name}: {} left, {answer:?}", answer.len()),
            answer == kept,
        );
    }

    // Shortcuts that give wrong corners.
    let low = 0.499_999_97f32;
    say(
        format!(
            "shortcut, rounding as floor(x+0.5): 0.49999997 rounds to {}, the shortcut gives {}",
            low.round(),
            (low + 0.5).floor()
        ),
        low.round() == 0.0 && (low + 0.5).floor() == 1.0,
    );
    let apart = vec![[0.0, 0.0, 1.0], [5e-30, 0.0, 2.0]];
    let r = 1e-30f32;
    let (grid, scan) = (plain::merge(&apart, r), plain::merge_plain(&apart, r * r));
    say(
        format!(
            "shortcut, plain scan for the grid at radius 1e-30: the grid keeps {}, the scan {}",
            grid.len(),
            scan.len()
        ),
        grid.len() == 2 && scan.len() == 1,
    );
    let mut with_nan = apart.clone();
    with_nan.push([f32::NAN, 0.0, 3.0]);
    let (grid, scan) = (
        plain::merge(&with_nan, r),
        plain::merge_plain(&with_nan, r * r),
    );
    say(
        format!(
            "shortcut, a NaN leaves the grid: with one the Rust keeps {}, the scan {}",
            grid.len(),
            scan.len()
        ),
        grid.len() == 3 && scan.len() == 2,
    );
    let (image, seed) = refine::stuck_corner();
    let (answer, run) = plain::refine_counted(&image, &refine::stuck_settings(), seed, false);
    let first = plain::first_fit(&image, &refine::stuck_settings(), seed);
    let last = plain::last_fit(&image, &refine::stuck_settings(), seed);
    let steps = run.map_or(0, |r| r.steps);
    say(
        format!(
            "shortcut, the last fit where the steps fail: after {steps} steps the answer is {:?}, the first fit {first:?}, the last {last:?}",
            [answer.x, answer.y]
        ),
        answer.status == 0 && !answer.converged && steps > 0 && [answer.x, answer.y] == first && first != last,
    );
    let four = Settings {
        det_margin: 4.0,
        ..open
    };
    match plain::solve(&four, saddle) {
        Ok(fit) => say(
            format!(
                "shortcut, refusing a tie: margin 4 with det {} is fitted",
                fit.det
            ),
            fit.det == -4.0,
        ),
        Err(det) => say(
            format!("shortcut, refusing a tie: margin 4 with det {det} is refused"),
            false,
        ),
    }

    // The zero that a float sum starts from, at both widths.
    let none32: f32 = [0f32; 0].iter().sum();
    let none64: f64 = [0f64; 0].iter().sum();
    let some32: f32 = [-0f32; 3].iter().sum();
    let some64: f64 = [-0f64; 3].iter().sum();
    say(
        format!("float sum starts from {none32:?} (binary32) and {none64:?} (binary64)"),
        none32.to_bits() == 0x8000_0000
            && none64.to_bits() == 1 << 63
            && some32.to_bits() == 0x8000_0000
            && some64.to_bits() == 1 << 63,
    );
    out
}
