//! The values of a table in about twice the digits of a double, to hold the method's values against. Nothing of the
//! method is in it: it is the one-sided rotation of columns (Hestenes, Jacobi), in numbers that are the sum of two
//! doubles. Any two columns are turned until no two are askew; their lengths are then the values.

use std::ops::{Add, Div, Mul, Neg, Sub};

/// The sum of two doubles, the second at most half a unit in the last place of the first: some 31 digits. No operation
/// looks for overflow; the readings of a survey are far from it.
#[derive(Clone, Copy, Debug, PartialEq, PartialOrd)]
pub struct Twofold(f64, f64);

/// a + b and what rounding took from it (Knuth).
fn sum(a: f64, b: f64) -> (f64, f64) {
    let s = a + b;
    let part = s - a;
    (s, (a - (s - part)) + (b - part))
}

/// The same where a is the larger one.
fn short_sum(a: f64, b: f64) -> Twofold {
    let s = a + b;
    Twofold(s, b - (s - a))
}

/// a x b and what rounding took from it (Dekker, Veltkamp).
fn product(a: f64, b: f64) -> (f64, f64) {
    let halves = |x: f64| {
        let wide = x * 134_217_729.0;
        let high = wide - (wide - x);
        (high, x - high)
    };
    let p = a * b;
    let ((a, c), (b, d)) = (halves(a), halves(b));
    (p, ((a * b - p) + a * d + c * b) + c * d)
}

impl Twofold {
    pub const ZERO: Twofold = Twofold(0.0, 0.0);
    pub const ONE: Twofold = Twofold(1.0, 0.0);

    /// The nearest double.
    pub fn near(self) -> f64 {
        self.0
    }

    pub fn abs(self) -> Twofold {
        if self.0 < 0.0 { -self } else { self }
    }

    /// The root, by one step of Newton from that of the nearest double.
    pub fn sqrt(self) -> Twofold {
        if self.0 <= 0.0 {
            return Twofold::ZERO;
        }
        let root = Twofold::from(self.0.sqrt());
        let step = (self - root * root).0 / (2.0 * root.0);
        root + Twofold::from(step)
    }
}

impl From<f64> for Twofold {
    fn from(x: f64) -> Twofold {
        Twofold(x, 0.0)
    }
}

impl Neg for Twofold {
    type Output = Twofold;
    fn neg(self) -> Twofold {
        Twofold(-self.0, -self.1)
    }
}

impl Add for Twofold {
    type Output = Twofold;
    fn add(self, other: Twofold) -> Twofold {
        let ((high, rest), (low, last)) = (sum(self.0, other.0), sum(self.1, other.1));
        let Twofold(high, rest) = short_sum(high, rest + low);
        short_sum(high, rest + last)
    }
}

impl Sub for Twofold {
    type Output = Twofold;
    fn sub(self, other: Twofold) -> Twofold {
        self + -other
    }
}

impl Mul for Twofold {
    type Output = Twofold;
    fn mul(self, other: Twofold) -> Twofold {
        let (high, rest) = product(self.0, other.0);
        short_sum(high, rest + (self.0 * other.1 + self.1 * other.0))
    }
}

impl Div for Twofold {
    type Output = Twofold;
    fn div(self, other: Twofold) -> Twofold {
        let first = Twofold::from(self.0 / other.0);
        let left = self - first * other;
        let second = Twofold::from(left.0 / other.0);
        let left = left - second * other;
        first + second + Twofold::from(left.0 / other.0)
    }
}

fn dot(a: &[Twofold], b: &[Twofold]) -> Twofold {
    a.iter()
        .zip(b)
        .fold(Twofold::ZERO, |sum, (&x, &y)| sum + x * y)
}

/// Two columns count as square to each other when the cosine between them is at most this, and a column that is
/// shorter than this part of the whole table as zero.
const ASKEW: f64 = 1e-28;
const ROUNDS: usize = 100;

/// Turns the two columns so that they are square to each other; whether they were not.
fn turn(a: &mut [Twofold], b: &mut [Twofold], whole: f64) -> bool {
    let (aa, bb, ab) = (dot(a, a), dot(b, b), dot(a, b));
    let (long, other) = (aa.near().sqrt(), bb.near().sqrt());
    if long.min(other) <= ASKEW * whole || ab.near().abs() <= ASKEW * long * other {
        return false;
    }
    let zeta = (bb - aa) / (ab + ab);
    let size = Twofold::ONE / (zeta.abs() + (Twofold::ONE + zeta * zeta).sqrt());
    let tangent = if zeta.near() < 0.0 { -size } else { size };
    let cosine = Twofold::ONE / (Twofold::ONE + tangent * tangent).sqrt();
    let sine = cosine * tangent;
    for (x, y) in a.iter_mut().zip(b) {
        (*x, *y) = (cosine * *x - sine * *y, sine * *x + cosine * *y);
    }
    true
}

/// The values of a table, largest first; there are as many as the smaller of rows and columns.
pub fn values(rows: usize, cols: usize, table: &[f64]) -> Vec<Twofold> {
    assert_eq!(table.len(), rows * cols, "length of the table");
    let (long, many) = (rows.max(cols), rows.min(cols));
    let entry = |line: usize, at: usize| match rows < cols {
        true => table[line * cols + at],
        false => table[at * cols + line],
    };
    let mut columns: Vec<Vec<Twofold>> = (0..many)
        .map(|line| (0..long).map(|at| entry(line, at).into()).collect())
        .collect();
    let whole = table.iter().map(|x| x * x).sum::<f64>().sqrt();
    let mut round = || {
        let mut turned = false;
        for p in 0..many {
            let (before, behind) = columns.split_at_mut(p + 1);
            for other in behind {
                turned |= turn(&mut before[p], other, whole);
            }
        }
        turned
    };
    assert!(
        (0..ROUNDS).any(|_| !round()),
        "columns still askew after {ROUNDS} rounds"
    );
    let mut values: Vec<Twofold> = columns.iter().map(|line| dot(line, line).sqrt()).collect();
    values.sort_by(|a, b| b.partial_cmp(a).expect("finite values"));
    values
}

/// How far these numbers, their magnitudes put in order of size, are from the values: the largest difference, as a part
/// of the largest value.
pub fn off(numbers: &[f64], values: &[Twofold]) -> f64 {
    assert_eq!(numbers.len(), values.len(), "as many numbers as values");
    let mut sizes: Vec<f64> = numbers.iter().map(|x| x.abs()).collect();
    sizes.sort_by(|a, b| b.total_cmp(a));
    let differences = sizes
        .iter()
        .zip(values)
        .map(|(&size, &value)| (Twofold::from(size) - value).near().abs());
    match differences.fold(0.0, f64::max) {
        0.0 => 0.0,
        most => most / values[0].near(),
    }
}
