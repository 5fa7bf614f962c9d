//! pairs [COUNT [SEED [THREADS]]]: COUNT drawn pairs of runs (200,000 where none is given) that differ in
//! how U and V begin, of the proved library beside the original, every bit, and the law of pairs on the
//! replies of both. Pair N of a seed is always the same one, whatever the threads. `pairs only SEED N`
//! makes that one pair alone.
//! Ends with status 1 at the first difference, and tells a small pair that is wrong, too, or else the pair
//! itself. At the end it prints what was met.

use beside::kinds::Sizes;
use beside::pairs::{COUNTS, drawn};
use beside::run::Run;
use runs::lots::{self, all, ended, met, number};
use runs::pairs::{check, smaller};
use std::process::ExitCode;
use std::time::Instant;

struct Counts {
    counts: [u64; COUNTS.len()],
    shapes: Vec<u64>,
}

impl lots::Counts for Counts {
    fn new() -> Counts {
        Counts {
            counts: [0; COUNTS.len()],
            shapes: vec![0; 48 * 48],
        }
    }

    fn join(&mut self, other: &Counts) {
        let add = |to: &mut [u64], from: &[u64]| to.iter_mut().zip(from).for_each(|(a, b)| *a += b);
        add(&mut self.counts, &other.counts);
        add(&mut self.shapes, &other.shapes);
    }
}

impl Counts {
    fn print(&self) {
        for ((name, _), many) in COUNTS.iter().zip(self.counts) {
            println!("{name}: {}", met(many));
        }
        let shapes = self.shapes.iter().filter(|&&pairs| pairs > 0).count();
        println!("shapes {shapes} of 2304");
    }
}

/// Pair `number`, or what is wrong with it.
fn one(seed: u64, number: u64, counts: &mut Counts) -> Result<(), String> {
    let pair = drawn(seed, number, Sizes::All);
    let Run { rows, cols, .. } = pair.runs[0];
    let seen = check(&pair).map_err(|wrong| {
        let place = format!("pair {number} of seed {seed}, {rows} x {cols}\n{wrong}");
        match smaller(seed, &wrong) {
            Some((least, still)) => {
                format!(
                    "{place}\na small pair that is wrong, too:\n{}{still}",
                    least.told()
                )
            }
            None => format!("{place}\n{}", pair.told()),
        }
    })?;
    for (to, many) in counts.counts.iter_mut().zip(seen) {
        *to += many;
    }
    counts.shapes[(rows - 1) * 48 + cols - 1] += 1;
    Ok(())
}

fn told() -> Result<(), String> {
    let words: Vec<String> = std::env::args().skip(1).collect();
    if words.first().is_some_and(|word| word == "only") {
        let (seed, pair) = (number(&words, 1, 1)?, number(&words, 2, 0)?);
        print!("{}", drawn(seed, pair, Sizes::All).told());
        one(seed, pair, &mut lots::Counts::new())?;
        println!("no difference");
        return Ok(());
    }
    let (count, seed) = (number(&words, 0, 200_000)?, number(&words, 1, 1)?);
    let threads = number(&words, 2, lots::threads())?;
    let start = Instant::now();
    let counts: Counts = all((count, "pairs"), threads, |number, counts| {
        one(seed, number, counts)
    })?;
    counts.print();
    println!(
        "seed {seed}: {count} pairs, 0 differ, {:.0} seconds",
        start.elapsed().as_secs_f64()
    );
    Ok(())
}

fn main() -> ExitCode {
    ended(told())
}
