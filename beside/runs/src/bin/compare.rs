//! compare [COUNT [SEED [THREADS]]]: COUNT drawn runs (10,000,000 where none is given) of the proved
//! library beside the original, every bit, and the laws on the same inputs. Run N of a seed is always
//! the same one, whatever the threads. `compare only SEED N` makes that one run alone.
//! Ends with status 1 at the first difference, printed as the smallest case that is found from it.

use beside::kinds::{Sizes, TABLES, drawn};
use beside::readings::{self, COUNTS};
use beside::run::Run;
use beside::{Report, quiet, rotations};
use runs::lots::{self, all, ended, met, number};
use runs::{ASKED, MEETINGS, Seen, check, shrunk};
use std::process::ExitCode;
use std::time::Instant;

#[derive(Clone)]
struct Counts {
    runs: u64,
    calls: u64,
    numbers: [u64; 11],
    /// Of the runs that are refused by 8.
    bad: [u64; COUNTS.len()],
    /// Refused by another number, with bad readings as well.
    before: u64,
    words: [u64; 4],
    /// Of the runs that have not settled.
    corners: [u64; quiet::COUNTS.len()],
    /// By word, and with a NaN or an infinity afterwards.
    tables: [[u64; 5]; TABLES.len()],
    shapes: Vec<u64>,
    greater: u64,
    /// Stopped with as many passes as the bound allows.
    reached: u64,
    nan: u64,
    infinite: u64,
    passes: u64,
    drops: u64,
    most: u64,
    /// All of them, those of (0, b), and the most in a run.
    rotations: [u64; 3],
    /// Of the runs that are accepted.
    turned: [u64; rotations::COUNTS.len()],
    ordered: u64,
    meetings: [u64; MEETINGS.len()],
    by_profile: u64,
    asked: [u64; ASKED.len()],
}

impl lots::Counts for Counts {
    fn new() -> Counts {
        Counts {
            runs: 0,
            calls: 0,
            numbers: [0; 11],
            bad: [0; COUNTS.len()],
            before: 0,
            words: [0; 4],
            corners: [0; quiet::COUNTS.len()],
            tables: [[0; 5]; TABLES.len()],
            shapes: vec![0; 48 * 48],
            greater: 0,
            reached: 0,
            nan: 0,
            infinite: 0,
            passes: 0,
            drops: 0,
            most: 0,
            rotations: [0; 3],
            turned: [0; rotations::COUNTS.len()],
            ordered: 0,
            meetings: [0; MEETINGS.len()],
            by_profile: 0,
            asked: [0; ASKED.len()],
        }
    }

    fn join(&mut self, other: &Counts) {
        self.runs += other.runs;
        self.calls += other.calls;
        let add = |to: &mut [u64], from: &[u64]| to.iter_mut().zip(from).for_each(|(a, b)| *a += b);
        add(&mut self.numbers, &other.numbers);
        add(&mut self.bad, &other.bad);
        self.before += other.before;
        add(&mut self.words, &other.words);
        add(&mut self.corners, &other.corners);
        add(&mut self.shapes, &other.shapes);
        add(&mut self.meetings, &other.meetings);
        add(&mut self.asked, &other.asked);
        add(&mut self.turned, &other.turned);
        add(&mut self.rotations[..2], &other.rotations[..2]);
        self.rotations[2] = self.rotations[2].max(other.rotations[2]);
        for (to, from) in self.tables.iter_mut().zip(&other.tables) {
            add(to, from);
        }
        self.greater += other.greater;
        self.reached += other.reached;
        self.nan += other.nan;
        self.infinite += other.infinite;
        self.passes += other.passes;
        self.drops += other.drops;
        self.most = self.most.max(other.most);
        self.ordered += other.ordered;
        self.by_profile += other.by_profile;
    }
}

impl Counts {
    fn add(&mut self, seen: &Seen, run: &Run, table: usize) {
        let &Run { rows, cols, .. } = run;
        let Report {
            number,
            word,
            passes,
            drops,
            ..
        } = seen.report;
        self.runs += 1;
        self.calls += seen.calls;
        self.numbers[number as usize] += 1;
        self.words[word as usize] += 1;
        let place = if number == 0 { word as usize } else { 0 };
        self.tables[table][place] += 1;
        if number == 0 {
            self.shapes[(rows - 1) * 48 + cols - 1] += 1;
        } else if number == 8 {
            let seen = readings::Seen::of(rows, cols, &run.matrix);
            for (many, (_, is)) in self.bad.iter_mut().zip(COUNTS) {
                *many += u64::from(is(&seen));
            }
        } else {
            self.before += u64::from(run.matrix.iter().any(|x| !x.is_finite()));
        }
        self.greater += u64::from(seen.greater);
        self.reached += u64::from(seen.reached);
        self.nan += u64::from(seen.nan && number == 0);
        self.infinite += u64::from(seen.infinite && number == 0);
        self.tables[table][4] += u64::from((seen.nan || seen.infinite) && number == 0);
        self.passes += passes;
        self.drops += drops;
        self.most = self.most.max(passes);
        if let Some(corner) = &seen.corner {
            for (many, (_, is)) in self.corners.iter_mut().zip(quiet::COUNTS) {
                *many += u64::from(is(corner));
            }
        }
        if let Some(turned) = &seen.turned {
            let [all, zeros, most] = &mut self.rotations;
            *all += turned.many();
            *zeros += turned.zeros();
            *most = turned.many().max(*most);
            for (many, (_, is)) in self.turned.iter_mut().zip(rotations::COUNTS) {
                *many += u64::from(is(turned));
            }
        }
        if let Some(order) = &seen.order {
            self.ordered += 1;
            for (many, (_, met)) in self.meetings.iter_mut().zip(MEETINGS) {
                *many += u64::from(met(order));
            }
        }
        if let Some(asked) = &seen.asked {
            self.by_profile += 1;
            for (many, (_, is)) in self.asked.iter_mut().zip(ASKED) {
                *many += u64::from(is(asked));
            }
        }
    }

    fn print(&self) {
        println!(
            "{} runs, {} calls of the library, each with one of the original",
            self.runs, self.calls
        );
        println!(
            "accepted {}: settled {}, stopped {}, quiet {}",
            self.numbers[0],
            self.words[1],
            self.words[2],
            met(self.words[3])
        );
        for (many, (name, _)) in self.corners.iter().zip(quiet::COUNTS) {
            println!("  {name}: {}", met(*many));
        }
        // In the order in which they count; there is no 9.
        for number in (1..8).chain([10, 8]) {
            println!("refused {number}: {}", self.numbers[number]);
        }
        for (many, (name, _)) in self.bad.iter().zip(COUNTS) {
            println!("  {name}: {}", met(*many));
        }
        println!(
            "refused 1 to 7 or 10, with bad readings as well: {}",
            met(self.before)
        );
        println!(
            "passes {} in all, {} of them drops, {} the most in a run",
            self.passes, self.drops, self.most
        );
        let [all, zeros, most] = self.rotations;
        println!("rotations {all} in all, {zeros} of them of (0, b), {most} the most in a run");
        for (many, (name, _)) in self.turned.iter().zip(rotations::COUNTS) {
            println!("  {name}: {}", met(*many));
        }
        println!(
            "accepted with a NaN afterwards {}, with an infinity {}",
            self.nan, self.infinite
        );
        println!("settled and run again at a greater limit {}", self.greater);
        println!(
            "runs with drops, and as many passes as the bound allows {}",
            self.reached
        );
        let shapes = self.shapes.iter().filter(|&&runs| runs > 0).count();
        let least = self.shapes.iter().min().unwrap_or(&0);
        println!("shapes accepted {shapes} of 2304, each at least {least} times");
        println!("ordered calls {}", self.ordered);
        for (many, (name, _)) in self.meetings.iter().zip(MEETINGS) {
            println!("  {name}: {}", met(*many));
        }
        println!("runs by a profile {}", met(self.by_profile));
        for (many, (name, _)) in self.asked.iter().zip(ASKED) {
            println!("  {name}: {}", met(*many));
        }
        println!(
            "{:28}{:>10}{:>10}{:>10}{:>10}{:>16}",
            "table", "settled", "stopped", "quiet", "refused", "NaN or infinity"
        );
        for (name, [refused, settled, stopped, quiet, strange]) in TABLES.iter().zip(self.tables) {
            println!("{name:28}{settled:>10}{stopped:>10}{quiet:>10}{refused:>10}{strange:>16}");
        }
    }
}

/// A limit above the run's own, for the law of greater limits; for one run in four.
fn greater(seed: u64, number: u64) -> Option<usize> {
    let mixed = (seed ^ number).wrapping_mul(0x9E37_79B9_7F4A_7C15) >> 33;
    let limit = [101, 150, 1_000, 100_000][(mixed >> 2) as usize % 4];
    (mixed % 4 == 0).then_some(limit)
}

/// Run `number`, or what is wrong with it.
fn one(seed: u64, number: u64, counts: &mut Counts) -> Result<(), String> {
    let (run, table) = drawn(seed, number, Sizes::All);
    let limit = greater(seed, number);
    match check(&run, limit) {
        Ok(seen) => {
            counts.add(&seen, &run, table);
            Ok(())
        }
        Err(wrong) => {
            let least = shrunk(&run, limit);
            let still = check(&least, limit).err().unwrap_or_default();
            Err(format!(
                "run {number} of seed {seed}, {} x {}, {}\n{wrong}the smallest case found from it:\n{}{still}",
                run.rows,
                run.cols,
                TABLES[table],
                least.told()
            ))
        }
    }
}

fn told() -> Result<(), String> {
    let words: Vec<String> = std::env::args().skip(1).collect();
    if words.first().is_some_and(|word| word == "only") {
        let (seed, run) = (number(&words, 1, 1)?, number(&words, 2, 0)?);
        print!("{}", drawn(seed, run, Sizes::All).0.told());
        one(seed, run, &mut lots::Counts::new())?;
        println!("no difference");
        return Ok(());
    }
    let (count, seed) = (number(&words, 0, 10_000_000)?, number(&words, 1, 1)?);
    let threads = number(&words, 2, lots::threads())?;
    let start = Instant::now();
    let counts: Counts = all((count, "runs"), threads, |number, counts| {
        one(seed, number, counts)
    })?;
    counts.print();
    println!(
        "seed {seed}: {count} runs, 0 differ, {:.0} seconds",
        start.elapsed().as_secs_f64()
    );
    Ok(())
}

fn main() -> ExitCode {
    ended(told())
}
