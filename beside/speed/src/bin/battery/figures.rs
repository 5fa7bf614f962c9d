//! Medians, lines of least squares, correlations; and numbers as text.

/// The number below which this part of them lies.
pub fn quantile(mut numbers: Vec<f64>, part: f64) -> f64 {
    numbers.sort_by(f64::total_cmp);
    numbers[((numbers.len() - 1) as f64 * part).round() as usize]
}

pub fn median(numbers: Vec<f64>) -> f64 {
    quantile(numbers, 0.5)
}

/// Sums of squares and products about the means.
struct Sums {
    means: (f64, f64),
    xx: f64,
    xy: f64,
    yy: f64,
}

fn sums(points: &[(f64, f64)]) -> Sums {
    let mean =
        |part: fn(&(f64, f64)) -> f64| points.iter().map(part).sum::<f64>() / points.len() as f64;
    let means = (mean(|point| point.0), mean(|point| point.1));
    let mut sums = Sums {
        means,
        xx: 0.0,
        xy: 0.0,
        yy: 0.0,
    };
    for (x, y) in points {
        let (x, y) = (x - means.0, y - means.1);
        sums.xx += x * x;
        sums.xy += x * y;
        sums.yy += y * y;
    }
    sums
}

/// Pearson's correlation of the points' two numbers.
pub fn correlation(points: &[(f64, f64)]) -> f64 {
    let sums = sums(points);
    sums.xy / (sums.xx * sums.yy).sqrt()
}

/// fixed + each x, by least squares.
pub struct Line {
    pub fixed: f64,
    pub each: f64,
    /// Which part of the spread of y it accounts for: R^2.
    pub told: f64,
    /// How far a point lies off the line at most, of what the line says.
    pub off: f64,
}

impl Line {
    pub fn through(points: &[(f64, f64)]) -> Line {
        let sums = sums(points);
        let mut line = Line {
            fixed: 0.0,
            each: sums.xy / sums.xx,
            told: correlation(points).powi(2),
            off: 0.0,
        };
        line.fixed = sums.means.1 - line.each * sums.means.0;
        let off = |&(x, y): &(f64, f64)| (y / line.at(x) - 1.0).abs();
        line.off = points.iter().map(off).fold(0.0, f64::max);
        line
    }

    pub fn at(&self, x: f64) -> f64 {
        self.fixed + self.each * x
    }
}

/// A whole number with a comma before each three digits.
pub fn whole(number: f64) -> String {
    let digits = format!("{number:.0}");
    let mut text = String::new();
    for (at, digit) in digits.chars().enumerate() {
        if at > 0 && (digits.len() - at) % 3 == 0 {
            text.push(',');
        }
        text.push(digit);
    }
    text
}

/// A number from 0 on to three digits, or all that stand before the point.
pub fn three(number: f64) -> String {
    match number {
        ..9.995 => format!("{number:.2}"),
        ..99.95 => format!("{number:.1}"),
        _ => whole(number),
    }
}

/// So many of a hundred.
pub fn share(part: f64) -> String {
    format!("{:.0} %", 100.0 * part)
}
