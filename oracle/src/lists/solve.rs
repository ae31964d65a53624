//! `solve` on coefficients and limits.

use super::*;
use crate::{checked, plain};

fn write(list: &mut List, coefs: [f32; 5], det_margin: f32, min_abs_det: f32) {
    let s = Settings {
        det_margin,
        min_abs_det,
        ..Settings::default()
    };
    let answer = calls::solve(&s, coefs);
    assert!(answer.is_ok() == checked::solve(&s, coefs).is_ok());
    let mut case = Case::new();
    case.floats(&coefs).float(det_margin).float(min_abs_det);
    match answer {
        Ok(saddle) => {
            assert!(same_floats(&saddle.quad, &coefs[..3]));
            let score = (-saddle.det).sqrt();
            case.word(0)
                .floats(&saddle.u)
                .float(saddle.det)
                .float(score);
            list.tally("fitted");
            if saddle.det == -det_margin {
                list.tally("fitted with the determinant at the margin");
            }
            if saddle.det.abs() == min_abs_det {
                list.tally("fitted with the magnitude at the minimum");
            }
        }
        Err((det, why)) => {
            case.word(why).floats(&[0.0, 0.0]).float(det).float(0.0);
            list.tally(number_name(why));
        }
    }
    list.push(&case);
}

pub fn list(seed: u64) -> List {
    let mut list = List::new("solve");
    let nan = f32::NAN;
    let inf = f32::INFINITY;
    let saddle = [1.0, 0.0, -1.0, 1.0, 0.0];
    write(&mut list, saddle, 0.0, 0.0); // P9
    write(&mut list, [0.0; 5], 0.0, 0.0); // P10
    let near_four = [3.999_999_8, 4.0, 4.000_000_5];
    for m in near_four {
        write(&mut list, saddle, m, 0.0);
        write(&mut list, saddle, 0.0, m);
        write(&mut list, saddle, m, m);
    }
    for zero in [0.0, -0.0] {
        for other in [0.0, -0.0] {
            for coefs in [
                [0.0; 5],
                [-0.0; 5],
                [1.0, 2.0, 1.0, 1.0, 1.0],
                [0.0, 0.0, 0.0, 1.0, 1.0],
                [0.0, 1.0, 0.0, 0.0, 0.0],
                [0.0, 1.0, 0.0, -0.0, -0.0],
                [0.0, -1.0, 0.0, 5.0, -3.0],
                [1.0, 0.0, 1.0, 0.0, 0.0],
                [1e-30, 0.0, -1e-30, 1.0, 1.0],
                [1e-20, 0.0, -1e-20, 1.0, 1.0],
                [1e-23, 0.0, -1e-22, 1e-30, 1e-30],
                [1e30, 0.0, -1e30, 1.0, 1.0],
                [1e19, 0.0, -1e19, 1.0, 1.0],
                [1e19, 0.0, -1e19, 1e38, 1e38],
                [1.0, 1e20, 1.0, 1.0, 1.0],
                [1e20, 2e20, 1e20, 1.0, 1.0],
                [nan, 0.0, -1.0, 1.0, 0.0],
                [1.0, nan, -1.0, 1.0, 0.0],
                [1.0, 0.0, -1.0, nan, 0.0],
                [1.0, 0.0, -1.0, 0.0, nan],
                [1.0, 0.0, -1.0, inf, 0.0],
                [1.0, 0.0, -1.0, 0.0, -inf],
                [inf, 0.0, -inf, 0.0, 0.0],
                [0.0, inf, 0.0, 1.0, 1.0],
                [1.0, 0.0, -1.0, 3e38, 3e38],
                [1e-3, 0.0, -1e-3, 1e36, 1e36],
                [1e-45, 1e-45, 1e-45, 1e-45, 1e-45],
                [0.0, 1e-22, 0.0, 1e-45, 1e-45],
                [0.0, 1e-23, 0.0, 1.0, 1.0],
            ] {
                write(&mut list, coefs, zero, other);
            }
        }
    }
    for limit in [1e-45, 1e30, f32::MAX, 1e-38] {
        write(&mut list, saddle, limit, 0.0);
        write(&mut list, saddle, 0.0, limit);
        write(&mut list, [0.0; 5], limit, 0.0);
        write(&mut list, [0.0; 5], 0.0, limit);
        write(&mut list, [inf, 0.0, -inf, 1.0, 1.0], limit, limit);
        write(&mut list, [nan; 5], limit, limit);
    }
    let mut random = Random::of(seed, "solve");
    for i in 0..4_000 {
        let coef = |random: &mut Random| match i % 5 {
            0 => (random.unit() - 0.5) * 10.0,
            1 => random.between(-4, 4) as f32 * 0.5,
            2 => f32::from_bits(
                (random.word() & 0x80FF_FFFF) | ((random.between(90, 160) as u32) << 23),
            ),
            3 => (random.unit() - 0.5) * 200.0,
            _ => {
                let x = f32::from_bits(random.word());
                if x.is_nan() {
                    f32::NAN
                } else {
                    x
                }
            }
        };
        let coefs = [(); 5].map(|()| coef(&mut random));
        let margin = random.pick(&[0.0, -0.0, 1e-3, 1e-3, 1.0, 4.0, 16.0]);
        let least = random.pick(&[0.0, -0.0, 1e-4, 1e-4, 1.0, 9.0, 30.0]);
        write(&mut list, coefs, margin, least);
        // The same again with a limit at the determinant itself.
        let s = Settings {
            det_margin: 0.0,
            min_abs_det: 0.0,
            ..Settings::default()
        };
        if let Ok(fit) = plain::solve(&s, coefs) {
            if i % 4 == 0 && fit.det.is_finite() && fit.det < 0.0 {
                write(&mut list, coefs, -fit.det, 0.0);
                write(&mut list, coefs, 0.0, -fit.det);
                if -fit.det < f32::MAX {
                    let above = f32::from_bits((-fit.det).to_bits() + 1);
                    write(&mut list, coefs, above, 0.0);
                    write(&mut list, coefs, 0.0, above);
                }
            }
        }
    }
    list
}
