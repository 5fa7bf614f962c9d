//! The reference's values are the known ones, to far more digits than a double has.

use beside::reference::{Twofold, off, values};
use beside::tables::{FEW_PASSES, NOISE_3, NOISE_MILLIONTH, drawn};

/// The values are these, but for 1e-27 of the largest: a double's last place is some 1e-16.
fn are(found: &[Twofold], known: &[Twofold]) {
    assert_eq!(found.len(), known.len());
    for (&value, &wanted) in found.iter().zip(known) {
        let apart = (value - wanted).near().abs();
        let allowed = 1e-27 * known[0].near();
        assert!(apart <= allowed, "{value:?} for {wanted:?}: {apart:e}");
    }
}

fn exactly(numbers: &[f64]) -> Vec<Twofold> {
    numbers.iter().map(|&x| Twofold::from(x)).collect()
}

fn transposed(rows: usize, cols: usize, table: &[f64]) -> Vec<f64> {
    let entry = |at: usize| table[at % rows * cols + at / rows];
    (0..rows * cols).map(entry).collect()
}

/// The sign of entry (i, j) in a table of 1 and -1 whose columns are square to each other (Sylvester).
fn sign(i: usize, j: usize) -> f64 {
    if (i & j).count_ones().is_multiple_of(2) {
        1.0
    } else {
        -1.0
    }
}

/// H x D x H' for these numbers on the diagonal of D: its values are root of (rows x columns) times them.
fn mixed(rows: usize, diagonal: &[f64]) -> Vec<f64> {
    let cols = diagonal.len();
    let entry = |i: usize, j: usize| {
        let part = |k: usize| sign(i, k) * diagonal[k] * sign(j, k);
        (0..cols).map(part).sum::<f64>()
    };
    (0..rows * cols)
        .map(|at| entry(at / cols, at % cols))
        .collect()
}

#[test]
fn numbers_of_two_doubles_are_exact_to_30_digits() {
    let (one, three) = (Twofold::ONE, Twofold::from(3.0));
    let third = one / three;
    assert!((third * three - one).near().abs() < 1e-31);
    assert!((third + third + third - one).near().abs() < 1e-31);
    let root = Twofold::from(2.0).sqrt();
    assert!((root * root - Twofold::from(2.0)).near().abs() < 1e-31);
    let small = Twofold::from(2f64.powi(-80));
    assert_eq!((one + small) - one, small);
    assert_eq!((-(one + small)).abs(), one + small);
    let square = (one + small) * (one + small);
    assert_eq!(square, one + (small + small), "2^-160 is below all digits");
    assert_eq!(Twofold::ZERO.sqrt(), Twofold::ZERO);
}

#[test]
fn known_tables_have_their_known_values() {
    are(&values(2, 2, &[3.0, 0.0, 0.0, -4.0]), &exactly(&[4.0, 3.0]));
    are(&values(1, 3, &[2.0, 3.0, 6.0]), &exactly(&[7.0]));
    are(&values(3, 1, &[2.0, -3.0, 6.0]), &exactly(&[7.0]));
    are(&values(3, 2, &[0.0; 6]), &exactly(&[0.0, 0.0]));
    are(&values(4, 9, &[0.5; 36]), &exactly(&[3.0, 0.0, 0.0, 0.0]));

    let (half, root) = (Twofold::from(0.5), Twofold::from(5.0).sqrt());
    let golden = [(root + Twofold::ONE) * half, (root - Twofold::ONE) * half];
    are(&values(2, 2, &[1.0, 1.0, 1.0, 0.0]), &golden);

    let small = 2f64.powi(-30);
    let table = [1.0, 1.0, small, 0.0, 0.0, small];
    let large = (Twofold::from(2.0) + Twofold::from(small * small)).sqrt();
    are(&values(3, 2, &table), &[large, small.into()]);
}

/// Values far apart, close together and equal, in tables that mix all of them; the tables' entries are exact.
#[test]
fn mixed_tables_give_back_what_was_mixed() {
    for (rows, diagonal) in [
        (8, vec![900.0, 7.0, 5.0, 4.0, 3.0, 2.0, 1.0, 0.0]),
        (8, vec![5.0, 5.0, 5.0, 5.0, 1.0, 1.0, 1.0, 1.0]),
        (16, vec![1e6, 1.0, 0.5, 2f64.powi(-20)]),
        (16, vec![3.0, 3.0 - 2f64.powi(-30), 2f64.powi(-30), 0.0]),
    ] {
        let cols = diagonal.len();
        let table = mixed(rows, &diagonal);
        let times = ((rows * cols) as f64).sqrt();
        let known: Vec<f64> = diagonal.iter().map(|x| times * x).collect();
        are(&values(rows, cols, &table), &exactly(&known));
        let turned = transposed(rows, cols, &table);
        are(&values(cols, rows, &turned), &exactly(&known));
    }
}

/// Two tables whose values were computed by mpmath 1.3.0 with 60 digits: 1 / (i + j + 1), which is hard, and
/// (7 i + 3 j mod 11) / 10.
#[test]
fn values_are_those_of_another_program() {
    let sums = |parts: &[(f64, f64)]| -> Vec<Twofold> {
        let sum = |&(high, low)| Twofold::from(high) + Twofold::from(low);
        parts.iter().map(sum).collect()
    };
    let entry = |at: usize| 1.0 / ((at / 6 + at % 6 + 1) as f64);
    let hard: Vec<f64> = (0..36).map(entry).collect();
    let known = [
        (1.618899858924339, 8.035182928264988e-18),
        (0.24236087057520955, -5.003067285308981e-19),
        (0.016321521319875826, 6.716987936482953e-19),
        (0.0006157483541826453, -4.791945791768504e-20),
        (1.2570757122637029e-05, -7.894967037383371e-23),
        (1.082799484481101e-07, 5.057489691185367e-24),
    ];
    are(&values(6, 6, &hard), &sums(&known));
    let entry = |at: usize| ((7 * (at / 5) + 3 * (at % 5)) % 11) as f64 / 10.0;
    let even: Vec<f64> = (0..40).map(entry).collect();
    let known = [
        (3.1993152695719487, 6.78194413828993e-17),
        (1.194873803790605, 1.3237472548906232e-17),
        (1.0895341614737593, -3.867609123678349e-17),
        (0.7157633717914113, -1.1511623736594733e-17),
        (0.5892847405814969, 5.383843066831472e-17),
    ];
    are(&values(8, 5, &even), &sums(&known));
}

/// Of drawn surveys: the squares add up to those of the readings, and the transposed table has the same values.
#[test]
fn drawn_tables_keep_their_size() {
    for (_, table) in [NOISE_3, NOISE_MILLIONTH] {
        for (rows, cols) in FEW_PASSES {
            for readings in drawn(table, (rows, cols), 5) {
                let found = values(rows, cols, &readings);
                let squares =
                    |numbers: &[Twofold]| numbers.iter().fold(Twofold::ZERO, |sum, &x| sum + x * x);
                let (all, readings_all) = (squares(&found), squares(&exactly(&readings)));
                assert!((all - readings_all).near().abs() <= 1e-27 * all.near());
                are(
                    &values(cols, rows, &transposed(rows, cols, &readings)),
                    &found,
                );
            }
        }
    }
}

#[test]
fn off_is_the_largest_difference_by_size() {
    let known = exactly(&[4.0, 2.0, 1.0]);
    assert_eq!(off(&[1.0, -4.0, 2.0], &known), 0.0);
    assert_eq!(off(&[-1.0, 4.5, 2.25], &known), 0.125);
    assert_eq!(off(&[4.0, 2.0, 0.0], &known), 0.25);
    assert_eq!(off(&[0.0, -0.0], &exactly(&[0.0, 0.0])), 0.0);
    let third = [Twofold::ONE / Twofold::from(3.0)];
    let part = off(&[1.0 / 3.0], &third);
    assert!(
        part > 5e-17 && part < 6e-17,
        "{part:e}: less than a double tells"
    );
}
