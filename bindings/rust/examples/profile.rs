//! Splits the survey of samples/leaking-stopping.csv and prints what an app would show of it. No sign
//! has to be chosen: (-u, -v) for (u, v), or (-u, -s) for (u, s), gives the same profile and drift.
use merotunki::{Instrument, Refusal, Table, Unordered};

const PASSES: usize = 6;
const READINGS: [f64; 12 * PASSES] = [
    2.45, 2.56, 2.51, 2.37, 2.40, 2.29, 2.63, 2.56, 2.49, 2.47, 2.47, 2.48, 2.47, 2.38, 2.29, 2.39,
    2.36, 2.20, 2.36, 2.25, 2.27, 2.21, 2.16, 2.12, 2.48, 2.48, 2.33, 2.38, 2.31, 2.24, 2.52, 2.65,
    2.47, 2.49, 2.54, 2.44, 1.77, 1.73, 1.80, 1.69, 1.70, 1.72, 1.68, 1.73, 1.67, 1.65, 1.65, 1.64,
    1.66, 1.59, 1.61, 1.58, 1.56, 1.53, 1.80, 1.81, 1.82, 1.76, 1.72, 1.68, 1.89, 1.88, 1.87, 1.79,
    1.84, 1.78, 1.73, 1.71, 1.68, 1.69, 1.71, 1.64,
];

fn dot<'a>(a: impl IntoIterator<Item = &'a f64>, b: &[f64]) -> f64 {
    a.into_iter().zip(b).map(|(a, b)| a * b).sum()
}

/// The length of (T v - s u, T' u - s v), T being the readings: next to 0 where (s, u, v) is a part.
fn miss(s: f64, u: &[f64], v: &[f64]) -> f64 {
    let column = |j: usize| READINGS[j..].iter().step_by(PASSES);
    let stations = READINGS.chunks(PASSES).zip(u).map(|(row, u)| dot(row, v) - s * u);
    let passes = (0..PASSES).map(|j| dot(column(j), u) - s * v[j]);
    stations.chain(passes).map(|off| off * off).sum::<f64>().sqrt()
}

/// Where the greatest magnitude stands.
fn largest(a: &[f64]) -> usize {
    (1..a.len()).fold(0, |at, i| if a[i].abs() > a[at].abs() { i } else { at })
}

fn main() -> Result<(), Refusal> {
    let mut entries = READINGS;
    let mut table = Table::new(&mut entries, 12, PASSES)?;
    let mut values = [0.0; PASSES];
    // in order the strongest is the first; of a run that stopped or is quiet the values stand on the
    // diagonal
    let (report, factors, k, settled) = match table.split_in_order_by(&mut values, Instrument::Vane)
    {
        Ok((report, factors)) => (report, factors, 0, true),
        Err(Unordered { refusal: Refusal::NotSettled, run: Some((report, factors)) }) => {
            values.iter_mut().zip(table.values()).for_each(|(to, value)| *to = value);
            (report, factors, largest(&values), false)
        }
        Err(unordered) => return Err(unordered.refusal),
    };
    println!("{report}");
    if READINGS.iter().all(|&x| x == 0.0) {
        println!("Calm: no air moved at any station. There is nothing to split.");
        return Ok(());
    }
    let share = |k: usize| 100.0 * values[k] * values[k] / dot(&READINGS, &READINGS);
    let s = values[k];
    let u: Vec<f64> = factors.over_stations(k).into_iter().flatten().collect();
    let v: Vec<f64> = factors.over_passes(k).into_iter().flatten().collect();
    // the formulas: of station i, of pass j, of the reading at i * PASSES + j
    let mean = v.iter().sum::<f64>() / PASSES as f64;
    let profile = |i: usize| s * u[i] * mean;
    let drift = |j: usize| 100.0 * (v[j] / mean - 1.0);
    let residual = |at: usize| READINGS[at] - s * u[at / PASSES] * v[at % PASSES];
    let rest: Vec<f64> = (0..READINGS.len()).map(residual).collect();
    let (left, all) = (dot(&rest, &rest).sqrt(), dot(table.entries(), table.entries()));
    let usable = [all, share(k), left, mean.recip()].iter().all(|x| x.is_finite());
    let confirmed = miss(s, &u, &v) <= 1e-10 * s.abs() && left < s.abs();
    if !usable || (!settled && !confirmed) {
        println!("no split to show");
        return Ok(());
    }
    for k in if settled { 0..PASSES } else { k..k + 1 } {
        println!("strength {:7.4}, share {:7.4} %", values[k].abs(), share(k));
    }
    let word = if confirmed { "confirm" } else { "do not confirm" };
    println!("the readings {word} the strongest part");
    (0..u.len()).for_each(|i| println!("station {i:2}: profile {:.2} m/s", profile(i)));
    (0..PASSES).for_each(|j| println!("pass {j}: drift {:+.2} %", drift(j)));
    let (at, rms) = (largest(&rest), left / (rest.len() as f64).sqrt());
    let (most, station, pass) = (rest[at], at / PASSES, at % PASSES);
    print!("left over: largest {most:+.4} m/s, station {station} in pass {pass}; ");
    println!("root mean square {rms:.4} m/s");
    Ok(())
}
