//! The strongest part of a split, asked of the readings themselves (docs/GUIDE.md, "The formulas").

use crate::tables::Shape;

fn length(numbers: impl Iterator<Item = f64>) -> f64 {
    numbers.map(|x| x * x).sum::<f64>().sqrt()
}

/// The miss and what is left over, both as parts of the strength.
#[derive(Clone, Copy, Debug)]
pub struct Strongest {
    pub miss: f64,
    pub left: f64,
}

impl Strongest {
    /// Of the strongest part (s, u, v) of the split of the readings T: the length of T v - s u and T' u - s v together,
    /// and of all that it leaves over.
    pub fn of(
        readings: &[f64],
        matrix: &[f64],
        (us, vs): (&[f64], &[f64]),
        (rows, cols): Shape,
    ) -> Strongest {
        let value = |k: usize| matrix[k * cols + k];
        let larger = |a: &usize, b: &usize| value(*a).abs().total_cmp(&value(*b).abs());
        let k = (0..rows.min(cols)).max_by(larger).expect("a value");
        let s = value(k);
        let (u, v) = (|i: usize| us[i * rows + k], |j: usize| vs[j * cols + k]);
        let at = |i: usize, j: usize| readings[i * cols + j];
        let by_station = |i| (0..cols).map(|j| at(i, j) * v(j)).sum::<f64>() - s * u(i);
        let by_pass = |j| (0..rows).map(|i| at(i, j) * u(i)).sum::<f64>() - s * v(j);
        let miss = length((0..rows).map(by_station).chain((0..cols).map(by_pass)));
        let left =
            length((0..rows * cols).map(|at| readings[at] - s * u(at / cols) * v(at % cols)));
        Strongest {
            miss: miss / s.abs(),
            left: left / s.abs(),
        }
    }

    /// Whether it is a part of the readings.
    pub fn found(self) -> bool {
        self.miss <= 1e-10
    }

    /// Whether the readings confirm it: it is a part of them, and no other is stronger.
    pub fn confirmed(self) -> bool {
        self.found() && self.left < 1.0
    }
}
