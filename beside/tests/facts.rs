//! What is known of the original: the table of cases, and facts measured on it before.

use beside::cases::case;
use beside::reduction::matrix::francis::givens::implicit_givens_rotation as rotation;
use beside::reduction::matrix::francis::givens::{apply_g_left, apply_gt_right};
use beside::reduction::matrix::svd::interface::{full_svd_decomposition, svd_decomposition};
use beside::reduction::matrix::svd::primitives::singular;
use beside::text::{Answer, Case, hex, hexes};
use beside::{Settings, run};
use std::panic::catch_unwind;

const LOW: Settings = Settings::LOW_FLOOR;
const DEFAULT: Settings = Settings::DEFAULT;

fn answer(rows: usize, cols: usize, matrix: &[f64], settings: Settings) -> Answer {
    case(rows, cols, matrix, settings).answer().unwrap()
}

/// The report as it is printed, and the matrix in hex against the one expected.
fn expect(answer: &Answer, report: &str, matrix: &[f64]) {
    assert_eq!(answer.report.to_string(), report);
    assert_eq!(hexes(&answer.matrix), hexes(matrix));
}

#[test]
fn defaults() {
    let expected = Settings {
        limit: 100,
        credit: 50,
        tolerance: 1e-10,
        absolute: 1e-12,
        floor: 1e-21,
    };
    assert_eq!(DEFAULT, expected);
    assert_eq!(hex(LOW.floor), "0010000000000000");
}

#[test]
fn roots() {
    let root = |bits: u64| hex(f64::from_bits(bits).sqrt());
    assert_eq!(root(0x8000_0000_0000_0000), "8000000000000000");
    assert_eq!(root(1), hex(2f64.powi(-537)));
    assert_eq!(root(0x4000_0000_0000_0000), "3FF6A09E667F3BCD");
    assert_eq!(root(0x3FF0_0000_0000_0001), hex(1.0));
    assert_eq!(root(0x7FEF_FFFF_FFFF_FFFF), "5FEFFFFFFFFFFFFF");
}

#[test]
fn rotations() {
    assert_eq!(rotation(0.0, 0.0), (0.0, 0.0, 1.0));
    assert_eq!(rotation(2.0, 0.0), (2.0, 1.0, 0.0));
    let (radius, cosine, sine) = rotation(3.0, 4.0);
    assert_eq!(radius, 5.0);
    assert_eq!(hex(cosine), "3FE3333333333334");
    assert_eq!(hex(sine), "3FE999999999999A");
    assert!(rotation(1.0, -1.0).2 < 0.0);
}

/// The rotations that the definitions are held to in crates/method/proofs/Cases.antt (`slips`).
#[test]
fn rotations_of_the_slips() {
    let shown = |a: f64, b: f64| {
        let (radius, cosine, sine) = rotation(a, b);
        [radius, cosine, sine].map(hex)
    };
    assert_eq!(
        shown(1.0, -1.0),
        ["3FF6A09E667F3BCD", "3FE6A09E667F3BCC", "BFE6A09E667F3BCC"]
    );
    assert_eq!(
        shown(0.0, -3.0),
        ["C008000000000000", "0000000000000000", "3FF0000000000000"]
    );
    assert_eq!(
        shown(4.0, -3.0),
        ["4014000000000000", "3FE999999999999A", "BFE3333333333334"]
    );
}

#[test]
fn singulars() {
    assert_eq!(singular(2.0, 0.0, 0.0, 1.0), 1.0);
    assert_eq!(singular(1.0, 0.0, 0.0, 2.0), 4.0);
}

#[test]
fn table() {
    expect(&answer(1, 1, &[-3.0], LOW), "settled 0 0 0 1 0", &[-3.0]);
    expect(
        &answer(1, 2, &[3.0, 4.0], LOW),
        "settled 0 0 0 1 0",
        &[-5.0, 0.0],
    );
    let diagonal = answer(2, 2, &[2.0, 0.0, 0.0, 1.0], LOW);
    expect(&diagonal, "settled 1 0 1 1 0", &[-2.0, 0.0, 0.0, 1.0]);
    assert_eq!(
        hexes(&diagonal.uv.unwrap().0),
        hexes(&[-1.0, 0.0, 0.0, 1.0])
    );
    let zeros = answer(2, 2, &[0.0; 4], Settings { limit: 3, ..LOW });
    expect(&zeros, "quiet 3 3 0 2 6", &[0.0; 4]);
}

#[test]
fn limit_none() {
    let none = Settings { limit: 0, ..LOW };
    let diagonal = answer(2, 2, &[2.0, 0.0, 0.0, 1.0], none);
    expect(&diagonal, "quiet 0 0 0 2 0", &[-2.0, 0.0, 0.0, 1.0]);
    expect(&answer(2, 2, &[0.0; 4], none), "quiet 0 0 0 2 0", &[0.0; 4]);
}

#[test]
fn zeros_turn_both_sides() {
    let (u, v) = answer(2, 2, &[0.0; 4], Settings { limit: 3, ..LOW })
        .uv
        .unwrap();
    assert_eq!(hexes(&u), hexes(&[-0.0, 1.0, -1.0, -0.0]));
    assert_eq!(hexes(&v), hexes(&u));
}

#[test]
fn floor_decides() {
    let matrix = [
        4.0, 0.0, 0.0, 0.0, 4.0, 4.0, 0.0, 3.0, 0.0, 0.0, 0.0, 0.0, 4.0, 4.0, 0.0, 3.0,
    ];
    let high = answer(4, 4, &matrix, DEFAULT).report;
    assert_eq!(high.to_string(), "stopped 100 100 0 4 600");
    let low = answer(4, 4, &matrix, LOW).report;
    assert_eq!((low.passes, low.range), (4, 1));
    let tail = [0.0, 1e-22];
    expect(&answer(1, 2, &tail, DEFAULT), "settled 0 0 0 1 0", &tail);
    expect(
        &answer(1, 2, &tail, LOW),
        "settled 0 0 0 1 0",
        &[-1e-22, 0.0],
    );
}

#[test]
fn tables_that_stop() {
    assert_eq!(answer(2, 2, &[0.0, 1.0, 0.0, 1.0], DEFAULT).report.range, 2);
    assert!(answer(3, 3, &[1.0; 9], DEFAULT).report.range > 1);
    let patient = Settings {
        limit: 100_000,
        ..DEFAULT
    };
    assert_eq!(answer(2, 2, &[0.0, 1.0, 0.0, 1.0], patient).report.range, 2);
    assert!(answer(3, 3, &[1.0; 9], patient).report.range > 1);
}

#[test]
fn survey_of_the_rules() {
    let line = "2 1 100 50 3DDB7CDFD9D7BDBB 3D719799812DEA11 3B92E3B40A0E9B4F | \
                4008000000000000 4010000000000000 | - | -";
    let answer = Case::read(line).unwrap().answer().unwrap();
    assert_eq!(
        answer.to_string(),
        "settled 0 0 0 1 0 | C014000000000000 0000000000000000 | - | -"
    );
}

#[test]
fn large_table_settles() {
    let mut seed = 1u64;
    let mut next = || {
        seed = seed.wrapping_mul(6_364_136_223_846_793_005).wrapping_add(1);
        (seed >> 11) as f64 / 2f64.powi(52) - 1.0
    };
    let mut matrix: Vec<f64> = (0..48 * 48).map(|_| next()).collect();
    let report = run(48, 48, &mut matrix, None, &DEFAULT);
    assert_eq!((report.range, report.drops), (1, 47));
    assert!((100..160).contains(&report.passes), "{report}");
}

/// A product and a sum round one after the other. Here a product is 1 + 2^-26 + 2^-54, and the other
/// takes away 1 + 2^-26: joined with the sum, the first would keep its last part.
#[test]
fn nothing_is_fused() {
    let near = 1.0 + 2f64.powi(-27);
    let rest = -(1.0 + 2f64.powi(-26));
    for (table, cosine, sine) in [([near, rest], near, 1.0), ([rest, near], 1.0, near)] {
        let mut rows = table;
        apply_g_left(&mut rows, 0, 1, 1, 1, cosine, sine);
        assert_eq!(rows[0], 0.0);
        let mut columns = table;
        apply_gt_right(&mut columns, 0, 1, 2, 1, cosine, sine);
        assert_eq!(columns[0], 0.0);
    }
}

/// `apply_gt_right` and the form that the rules give, c x i + s x j and (-s) x i + c x j.
#[test]
fn columns_turn_as_the_rules_say() {
    let mut state = 1u64;
    let mut bits = || {
        state = state
            .wrapping_mul(6364136223846793005)
            .wrapping_add(1442695040888963407);
        f64::from_bits(state ^ (state >> 29))
    };
    for _ in 0..2_000_000 {
        let (cosine, sine, i, j) = (bits(), bits(), bits(), bits());
        let mut pair = [i, j];
        apply_gt_right(&mut pair, 0, 1, 2, 1, cosine, sine);
        let rules = [cosine * i + sine * j, -sine * i + cosine * j];
        assert_eq!(hexes(&pair), hexes(&rules));
    }
}

/// Where its comments and its code differ, and what it does at the edges: docs/DIFFERENCES.md.
mod differences {
    use super::*;

    /// A ~= U Sigma V' with U and V orthogonal does not hold of every finite table.
    #[test]
    fn no_split_of_huge_readings() {
        let most = answer(1, 2, &[f64::MAX; 2], DEFAULT);
        expect(&most, "settled 0 0 0 1 0", &[f64::NEG_INFINITY, 0.0]);
        let square = answer(2, 2, &[1e160, 1e160, 0.0, 1e160], DEFAULT);
        expect(&square, "stopped 100 100 0 2 200", &[f64::NAN; 4]);
        let (u, v) = square.uv.unwrap();
        assert!(u.iter().chain(&v).all(|entry| entry.is_nan()));
    }

    /// The squares hold up to some 1e154, their squares in the shift do not: no sweep turns anything.
    #[test]
    fn no_shift_of_large_readings() {
        let split = |x: f64| answer(2, 2, &[x, x, 0.0, x], DEFAULT);
        assert_eq!(split(1e77).report.to_string(), "settled 7 6 1 1 12");
        expect(
            &split(1e78),
            "stopped 100 100 0 2 200",
            &[-1e78, 1e78, 0.0, -1e78],
        );
    }

    /// 0 x 0 is left as it is; with no rows or no columns alone it panics.
    #[test]
    fn no_rows_or_no_columns() {
        let returns = |rows: usize, cols: usize, full: bool| {
            catch_unwind(|| {
                let (b, p, w) = (&mut [], &mut [0.0; 3], &mut [0.0; 3]);
                let (card, limit, tolerance, absolute) = (0, 100, 1e-10, 1e-12);
                if full {
                    let (mut u, mut v) = (vec![0.0; rows * rows], vec![0.0; cols * cols]);
                    full_svd_decomposition(
                        b, &mut u, &mut v, p, w, rows, cols, card, cols, limit, tolerance, absolute,
                    );
                } else {
                    svd_decomposition(b, p, w, rows, cols, card, cols, limit, tolerance, absolute);
                }
            })
            .is_ok()
        };
        for full in [false, true] {
            assert!(returns(0, 0, full));
            assert!(!returns(0, 3, full) && !returns(3, 0, full));
        }
    }

    /// Tau is multiplied into the products u'A and Au, not into what is subtracted of them.
    #[test]
    fn the_place_of_tau() {
        let none = Settings {
            limit: 0,
            ..DEFAULT
        };
        let left = answer(2, 2, &[1.0, 2.0, 1.0, 1.0], none);
        assert_eq!(left.matrix[3], 0.7071067811865475);
        let (u, _) = answer(2, 1, &[1.0, 4.0], DEFAULT).uv.unwrap();
        assert_eq!(u[3], 0.24253562503633286);
        let (u, _) = answer(2, 1, &[3.0, 4.0], DEFAULT).uv.unwrap();
        assert_eq!(u, [-0.6000000000000001, -0.8, -0.8, 0.6]);
    }

    /// The bound is of the whole walk: what a window used above 50 passes is missing in the next.
    #[test]
    fn a_stall_takes_from_the_next_window() {
        let table = [0.0, 1.0, -2.0, 0.0, -2.0, -2.0, 0.0, -2.0, -2.0];
        let at = |limit| answer(3, 3, &table, Settings { limit, ..DEFAULT }).report;
        assert_eq!((at(57).drops, at(58).drops), (0, 1));
        // 57 sweeps over three, and 92 over two.
        assert_eq!(at(100).to_string(), "stopped 150 149 1 2 412");
    }

    /// No rotation and no drop asks for the floor.
    #[test]
    fn the_walk_below_the_floor() {
        let small = answer(2, 2, &[1e-22, 1e-22, 0.0, 1e-22], DEFAULT);
        let left = [
            -6.180339887498949e-23,
            -3.5264830524668625e-38,
            0.0,
            -1.6180339887498947e-22,
        ];
        expect(&small, "settled 2 1 1 1 2", &left);
    }

    /// The first turn of a sweep makes no zero: it goes by the shift, and the bulge comes of it.
    #[test]
    fn the_first_turn() {
        let mut h = [1.0, 1.0, 0.0, 1.0];
        let shift = singular(h[0], h[1], h[2], h[3]);
        let (_, cosine, sine) = rotation(h[0] * h[0] - shift, h[0] * h[1]);
        apply_gt_right(&mut h, 0, 1, 2, 2, cosine, sine);
        let turned = [
            0.3249196962329064,
            1.3763819204711734,
            -0.5257311121191335,
            0.8506508083520399,
        ];
        assert_eq!(h, turned);
    }
}
