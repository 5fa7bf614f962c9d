//! A fixed list of small cases: some chosen for a rule that they show, then drawn ones that mix
//! shapes, readings, settings and what U and V hold. Short enough to be followed step by step.

use crate::reduction::matrix::svd::primitives::identity_flat;
use crate::text::Case;
use crate::{Settings, rotations};

/// No case of the list makes more passes.
pub const MOST_PASSES: u64 = 40;

/// The whole list.
pub fn all() -> Vec<Case> {
    let mut cases = chosen();
    cases.extend(quiet());
    let showing = |(rows, cols, table)| case(rows, cols, table, Settings::DEFAULT);
    cases.extend(rotations::SHOWING.map(showing));
    cases.extend(drawn());
    cases
}

fn identities(rows: usize, cols: usize) -> Option<(Vec<f64>, Vec<f64>)> {
    Some((identity_flat(rows, rows), identity_flat(cols, cols)))
}

/// A case that accumulates from the identity.
pub fn case(rows: usize, cols: usize, matrix: &[f64], settings: Settings) -> Case {
    Case {
        rows,
        cols,
        settings,
        matrix: matrix.to_vec(),
        uv: identities(rows, cols),
    }
}

/// Settings with another limit and credit.
fn walk(limit: usize, credit: usize, settings: Settings) -> Settings {
    Settings {
        limit,
        credit,
        ..settings
    }
}

const TRIDIAGONAL: [f64; 9] = [4.0, 1.0, 0.0, 1.0, 3.0, 1.0, 0.0, 1.0, 2.0];

fn chosen() -> Vec<Case> {
    let default = Settings::DEFAULT;
    let low = Settings::LOW_FLOOR;
    let loose = |tolerance: f64, absolute: f64| Settings {
        tolerance,
        absolute,
        ..walk(3, 1, default)
    };
    let dependent = [
        4.0, 0.0, 0.0, 0.0, 4.0, 4.0, 0.0, 3.0, 0.0, 0.0, 0.0, 0.0, 4.0, 4.0, 0.0, 3.0,
    ];
    vec![
        // The runs of the table of cases.
        case(1, 1, &[-3.0], low),
        case(1, 2, &[3.0, 4.0], low),
        case(2, 2, &[2.0, 0.0, 0.0, 1.0], low),
        case(2, 2, &[0.0; 4], walk(3, 50, low)),
        // Limit 0 still brings the matrix to two diagonals.
        case(2, 2, &[2.0, 0.0, 0.0, 1.0], walk(0, 50, low)),
        case(2, 2, &[0.0; 4], walk(0, 50, low)),
        // The floor decides: a row tail below it stays, a column below it is cleared.
        case(1, 2, &[0.0, 1e-22], default),
        case(1, 2, &[0.0, 1e-22], low),
        case(2, 1, &[0.0, 1e-22], default),
        case(4, 4, &dependent, walk(10, 50, default)),
        case(4, 4, &dependent, low),
        // A head of -0 counts as negative.
        case(2, 1, &[-0.0, 3.0], default),
        case(1, 3, &[-0.0, 3.0, -4.0], default),
        // The coupling is exactly the absolute bound, then exactly the relative one: no drop.
        case(2, 2, &[2.0, 0.5, 0.0, 1.0], loose(1.0, 0.5)),
        case(2, 2, &[1.0, 0.5, 0.0, 1.0], loose(0.25, 1.0)),
        // Both ends of the diagonal count in the relative bound.
        case(2, 2, &[1.0, 0.375, 0.0, 1.0], loose(0.25, 1.0)),
        // Tables that do not settle.
        case(2, 2, &[0.0, 1.0, 0.0, 1.0], walk(12, 50, default)),
        case(3, 3, &[1.0; 9], walk(12, 50, default)),
        // A drop lowers the counter and does not clear it: one pass short, and just enough.
        case(3, 3, &TRIDIAGONAL, walk(4, 1, default)),
        case(3, 3, &TRIDIAGONAL, walk(5, 1, default)),
        // Two equal magnitudes of unlike sign turn by a negative sine.
        case(2, 2, &[1.0, 1.0, 0.0, 0.0], walk(3, 1, default)),
        // A radius that overflows, in a row and in a column.
        case(1, 2, &[f64::MAX, -f64::MAX], default),
        case(2, 2, &[f64::MAX, 1.0, f64::MAX, -1.0], walk(4, 1, default)),
        // The bound is infinity times 0, not a number: the absolute one decides.
        case(2, 2, &[f64::MAX, 0.0, f64::MAX, 0.0], loose(0.0, 1e-12)),
        // What is under the root is not a number: 0 is taken for it.
        case(
            3,
            3,
            &[1.0, 0.0, 0.0, 0.0, f64::MAX, 0.0, 0.0, f64::MAX, 0.0],
            Settings {
                limit: 1,
                ..loose(0.5, 0.0)
            },
        ),
    ]
}

/// Runs that end quiet, and such as miss it: by one coupling alone, or although something else is not zero.
fn quiet() -> Vec<Case> {
    let (most, least) = (f64::MAX, f64::from_bits(1));
    let at = |limit: usize| walk(limit, 50, Settings::DEFAULT);
    vec![
        // Zeros of either sign: couplings of -0 at first, and what sweeps make of zeros.
        case(2, 2, &[0.0, -0.0, -0.0, 0.0], at(0)),
        case(2, 3, &[0.0, 0.0, 0.0, -0.0, 0.0, 0.0], at(0)),
        case(2, 3, &[0.0; 6], at(2)),
        case(3, 2, &[-0.0; 6], at(3)),
        // No zero on the diagonal: the limit alone is to blame.
        case(3, 3, &[3.0, 0.0, 0.0, 0.0, 2.0, 0.0, 0.0, 0.0, 1.0], at(0)),
        // One value and then zeros, which never settle.
        case(3, 3, &[1.0, 0.0, 0.0, 0.0, 0.0, 0.0, 0.0, 0.0, 0.0], at(4)),
        // Quiet all the same: a dropped coupling at the corner's end and one behind it, entries across the
        // diagonal in the lower and in the upper form, a row tail, a value that overflows.
        case(
            3,
            3,
            &[0.0, 0.0, 0.0, 0.0, 0.0, 1e-13, 0.0, 0.0, 1.0],
            at(2),
        ),
        case(
            4,
            4,
            &[
                0.0, 0.0, 0.0, 0.0, 0.0, 0.0, 1e-13, 0.0, 0.0, 0.0, 1.0, 1e-13, 0.0, 0.0, 0.0, 1.0,
            ],
            at(2),
        ),
        case(2, 3, &[0.0, 1e-22, 0.0, 0.0, 0.0, 0.0], at(0)),
        case(2, 2, &[0.5, -0.5, 0.0, -1.0], at(1)),
        case(
            3,
            3,
            &[0.0, 0.0, 1e-22, 0.0, 0.0, 0.0, 0.0, 0.0, 0.0],
            at(0),
        ),
        case(2, 2, &[most, 0.0, most, 0.0], at(0)),
        // One coupling alone: the first, the last and one between, in the upper form and in the lower.
        case(3, 3, &[3.0, 1.0, 0.0, 0.0, 2.0, 0.0, 0.0, 0.0, 1.0], at(0)),
        case(3, 3, &[3.0, 0.0, 0.0, 0.0, 2.0, 1.0, 0.0, 0.0, 1.0], at(0)),
        case(
            4,
            4,
            &[
                0.0, 0.0, 0.0, 0.0, 0.0, 0.0, 1.0, 0.0, 0.0, 0.0, 0.0, 0.0, 0.0, 0.0, 0.0, 0.0,
            ],
            at(0),
        ),
        case(
            3,
            4,
            &[0.0, 0.0, 0.0, 0.0, -0.5, 0.0, 0.0, 0.0, 0.0, 0.0, 0.0, 0.0],
            at(0),
        ),
        case(
            3,
            4,
            &[0.0, 0.0, 0.0, 0.0, 0.0, 0.0, 0.0, 0.0, 0.0, -0.5, 0.0, 0.0],
            at(0),
        ),
        // The smallest number that is not zero, and a NaN.
        case(2, 2, &[0.0, least, 0.0, 0.0], at(0)),
        case(2, 3, &[0.0, 0.0, 0.0, -least, 0.0, 0.0], at(0)),
        case(2, 2, &[most; 4], at(0)),
    ]
}

/// Splitmix64.
pub(crate) struct Draw(pub(crate) u64);

impl Draw {
    pub(crate) fn bits(&mut self) -> u64 {
        self.0 = self.0.wrapping_add(0x9E37_79B9_7F4A_7C15);
        let z = (self.0 ^ (self.0 >> 30)).wrapping_mul(0xBF58_476D_1CE4_E5B9);
        let z = (z ^ (z >> 27)).wrapping_mul(0x94D0_49BB_1331_11EB);
        z ^ (z >> 31)
    }

    pub(crate) fn below(&mut self, bound: u64) -> u64 {
        self.bits() % bound
    }

    fn of(&mut self, values: &[f64]) -> f64 {
        values[self.below(values.len() as u64) as usize]
    }

    /// From -bound to bound.
    fn whole(&mut self, bound: u64) -> f64 {
        self.below(2 * bound + 1) as f64 - bound as f64
    }

    /// Any sign and fraction with a power of two from `low` up to, but without, `high`.
    fn float(&mut self, low: i64, high: i64) -> f64 {
        let power = low + self.below((high - low) as u64) as i64 + 1023;
        let rest = self.bits() & 0x800F_FFFF_FFFF_FFFF;
        f64::from_bits(rest | (power as u64) << 52)
    }

    fn subnormal(&mut self) -> f64 {
        f64::from_bits(self.bits() & 0x800F_FFFF_FFFF_FFFF)
    }
}

/// Readings are always finite.
pub(crate) const READINGS: [fn(&mut Draw, f64) -> f64; 8] = [
    |draw, _| draw.whole(9),
    |draw, _| draw.of(&[0.0, 0.0, 0.0, -0.0, 1.0, 2.0, -3.0]),
    |draw, _| draw.float(-3, 3),
    |draw, _| draw.of(&[0.0, -0.0]),
    |draw, _| {
        if draw.below(2) == 0 {
            draw.subnormal()
        } else {
            draw.float(-1022, -1018)
        }
    },
    |draw, floor| {
        draw.of(&[
            floor,
            -floor,
            floor.next_down(),
            floor.next_up(),
            floor / 2.0,
            0.0,
        ])
    },
    |draw, _| draw.float(1019, 1024),
    |draw, _| draw.float(-300, 300),
];

fn settings(kind: usize, draw: &mut Draw) -> Settings {
    let default = Settings::DEFAULT;
    let low = Settings::LOW_FLOOR;
    match kind {
        0 => default,
        1 => low,
        2 => walk(0, 50, default),
        3 => walk(1 + draw.below(4) as usize, 50, low),
        4 => walk(2 + draw.below(9) as usize, 0, default),
        5 => Settings {
            tolerance: 0.0,
            ..walk(4, 2, default)
        },
        6 => Settings {
            tolerance: -0.0,
            absolute: -0.0,
            ..walk(3, 50, low)
        },
        7 => Settings {
            tolerance: f64::MAX,
            absolute: f64::MAX,
            ..default
        },
        8 => Settings {
            tolerance: 0.125,
            absolute: 1e300,
            ..walk(9, 1, low)
        },
        9 => Settings {
            floor: 3.0,
            ..walk(5, 3, default)
        },
        _ => Settings {
            floor: f64::from_bits(1),
            ..walk(6, 1, default)
        },
    }
}

/// U or V: the identity, whole numbers, ordinary numbers, or anything at all.
fn side(kind: usize, size: usize, draw: &mut Draw) -> Vec<f64> {
    let strange = [
        f64::NAN,
        f64::INFINITY,
        f64::NEG_INFINITY,
        -0.0,
        f64::MAX,
        1.0,
        -2.5,
    ];
    (0..size * size)
        .map(|at| match kind {
            0 => {
                if at % (size + 1) == 0 {
                    1.0
                } else {
                    0.0
                }
            }
            1 => draw.whole(5),
            2 => draw.float(-2, 2),
            _ => {
                if draw.below(4) == 0 {
                    draw.of(&strange)
                } else {
                    draw.float(-2, 2)
                }
            }
        })
        .collect()
}

fn drawn() -> Vec<Case> {
    let mut draw = Draw(0x5EED);
    let mut cases = Vec::new();
    for number in 0..43 {
        // Every shape up to 4 x 4 once, then again and again those in which there is a walk.
        let (rows, cols) = match number {
            0..16 => (number / 4 + 1, number % 4 + 1),
            _ => ((number - 16) / 3 % 3 + 2, (number - 16) % 3 + 2),
        };
        let settings = settings(number % 11, &mut draw);
        let reading = READINGS[number * 3 % 8];
        let matrix = (0..rows * cols)
            .map(|_| reading(&mut draw, settings.floor))
            .collect();
        let kind = number % 5;
        let uv = (kind < 4).then(|| (side(kind, rows, &mut draw), side(kind, cols, &mut draw)));
        let mut case = Case {
            rows,
            cols,
            settings,
            matrix,
            uv,
        };
        if case
            .answer()
            .is_ok_and(|answer| answer.report.passes > MOST_PASSES)
        {
            case.settings = walk(4 + draw.below(9) as usize, 3, settings);
        }
        cases.push(case);
    }
    cases
}
