//! The word of a run that has not settled: by tables with one thing in them, each of which a slip would
//! tell wrong, and by real runs, and that the drawn and the stored runs show all of it.

use beside::kinds::{Sizes, drawn, with_settings};
use beside::quiet::{COUNTS, Corner, couplings, word, zero};
use beside::run::{Call, Run};
use beside::survey::split;
use beside::texts::{all as texts, met};
use beside::vectors::{stored, told, wrong};
use beside::{Report, Settings, cases};

const SHAPES: [(usize, usize); 6] = [(5, 5), (6, 5), (48, 5), (5, 6), (5, 48), (2, 2)];

const LEAST: f64 = f64::from_bits(1);

/// Numbers that are not zero: the smallest of either sign, the largest subnormal one, ordinary ones,
/// infinities and NaNs.
fn others() -> [f64; 9] {
    let below = f64::MIN_POSITIVE.next_down();
    let nan = f64::from_bits(0x7FF0_0000_0000_0001);
    [
        LEAST,
        -LEAST,
        below,
        1.0,
        -1e-300,
        f64::INFINITY,
        f64::NEG_INFINITY,
        nan,
        -f64::NAN,
    ]
}

/// A table of zeros with one other entry.
fn with(rows: usize, cols: usize, (i, j): (usize, usize), x: f64) -> Vec<f64> {
    let mut table = vec![0.0; rows * cols];
    table[i * cols + j] = x;
    table
}

/// Row and column of coupling k: right of the diagonal, or below it where there are more columns.
fn coupling(rows: usize, cols: usize, k: usize) -> (usize, usize) {
    if cols > rows { (k + 1, k) } else { (k, k + 1) }
}

#[test]
fn zeros_of_either_sign_and_nothing_else() {
    assert!(zero(0.0) && zero(-0.0));
    for x in others() {
        assert!(!zero(x), "{x:e}");
    }
}

#[test]
fn a_range_of_one_is_settled() {
    for (rows, cols) in [(1, 1), (1, 4), (4, 1), (3, 3), (2, 3)] {
        for x in [0.0, -0.0, 1.0, f64::NAN] {
            let table = vec![x; rows * cols];
            assert_eq!(word(rows, cols, &table, 1), Report::SETTLED);
        }
    }
}

#[test]
fn zeros_are_quiet() {
    for (rows, cols) in SHAPES {
        for range in 2..=rows.min(cols) {
            for x in [0.0, -0.0] {
                let table = vec![x; rows * cols];
                assert_eq!(word(rows, cols, &table, range), Report::QUIET);
            }
            // One -0 among them.
            for k in 0..range - 1 {
                let table = with(rows, cols, coupling(rows, cols, k), -0.0);
                assert_eq!(word(rows, cols, &table, range), Report::QUIET);
            }
        }
    }
}

/// Each coupling by itself, the first and the last too, and each number by itself.
#[test]
fn one_coupling_alone_is_seen() {
    for (rows, cols) in SHAPES {
        for range in 2..=rows.min(cols) {
            for k in 0..range - 1 {
                for x in others() {
                    let table = with(rows, cols, coupling(rows, cols, k), x);
                    let told = word(rows, cols, &table, range);
                    assert_eq!(
                        told,
                        Report::STOPPED,
                        "{rows} x {cols}, {range}, {k}, {x:e}"
                    );
                }
            }
        }
    }
}

/// Every other place of the table by itself: the diagonal, across it, behind the corner, tails.
#[test]
fn nothing_but_the_couplings_inside_counts() {
    for (rows, cols) in SHAPES {
        for range in 2..=rows.min(cols) {
            let inside: Vec<_> = (0..range - 1).map(|k| coupling(rows, cols, k)).collect();
            let places = (0..rows).flat_map(|i| (0..cols).map(move |j| (i, j)));
            for place in places.filter(|place| !inside.contains(place)) {
                for x in [1.0, LEAST, f64::NAN] {
                    let told = word(rows, cols, &with(rows, cols, place, x), range);
                    assert_eq!(told, Report::QUIET, "{rows} x {cols}, {range}, {place:?}");
                }
            }
        }
    }
}

/// The entries themselves, by their places in the table.
#[test]
fn the_couplings_by_place() {
    let numbered = |rows: usize, cols: usize| -> Vec<f64> {
        let entry = |at: usize| (at / cols * 10 + at % cols) as f64;
        (0..rows * cols).map(entry).collect()
    };
    let of = |rows, cols, range| couplings(rows, cols, &numbered(rows, cols), range);
    assert_eq!(of(4, 4, 4), [1.0, 12.0, 23.0]);
    assert_eq!(of(4, 4, 2), [1.0]);
    assert_eq!(of(6, 3, 3), [1.0, 12.0]);
    assert_eq!(of(3, 6, 3), [10.0, 21.0]);
    assert_eq!(of(3, 4, 2), [10.0]);
    assert_eq!(of(3, 4, 1), []);
}

/// Runs of the original: the table, its form, the limit, and the report that it ends with.
#[test]
fn real_runs() {
    let most = f64::MAX;
    let default = Settings::DEFAULT;
    let runs: [(usize, usize, &[f64], usize, &str); 16] = [
        (2, 2, &[0.0; 4], 3, "quiet 3 3 0 2 6"),
        (2, 2, &[0.0; 4], 100, "quiet 100 100 0 2 200"),
        (2, 2, &[0.0; 4], 0, "quiet 0 0 0 2 0"),
        (2, 2, &[2.0, 0.0, 0.0, 1.0], 0, "quiet 0 0 0 2 0"),
        (2, 2, &[2.0, 0.0, 0.0, 1.0], 1, "settled 1 0 1 1 0"),
        (2, 3, &[0.0, 0.0, 0.0, -0.0, 0.0, 0.0], 0, "quiet 0 0 0 2 0"),
        (
            2,
            3,
            &[0.0, 1e-22, 0.0, 0.0, 0.0, 0.0],
            0,
            "quiet 0 0 0 2 0",
        ),
        (2, 2, &[0.5, -0.5, 0.0, -1.0], 1, "quiet 1 1 0 2 2"),
        (2, 2, &[0.5, -0.5, 0.0, -1.0], 0, "stopped 0 0 0 2 0"),
        (2, 2, &[0.0, LEAST, 0.0, 0.0], 0, "stopped 0 0 0 2 0"),
        (2, 2, &[most; 4], 0, "stopped 0 0 0 2 0"),
        (
            2,
            3,
            &[0.0, 0.0, 0.0, LEAST, 0.0, 0.0],
            0,
            "stopped 0 0 0 2 0",
        ),
        (2, 2, &[0.0, 1.0, 0.0, 1.0], 100, "stopped 100 100 0 2 200"),
        (1, 3, &[0.0; 3], 0, "settled 0 0 0 1 0"),
        (
            3,
            3,
            &[0.0, 0.0, 0.0, 0.0, 0.0, 1e-13, 0.0, 0.0, 1.0],
            2,
            "quiet 3 2 1 2 4",
        ),
        (
            3,
            3,
            &[0.0, 0.0, 0.0, 0.0, 0.0, 1e-13, 0.0, 0.0, 1.0],
            0,
            "stopped 0 0 0 3 0",
        ),
    ];
    for (rows, cols, matrix, limit, says) in runs {
        let settings = Settings { limit, ..default };
        let case = cases::case(rows, cols, matrix, settings);
        assert_eq!(case.answer().unwrap().report.to_string(), says);
        // 12 is the ordered call's for both words, with the run's own.
        let run = Run::from(case);
        let (kept, ordered) = (run.reply(Call::Accumulating), run.reply(Call::Ordered));
        let number = if kept.report.range == 1 { 0 } else { 12 };
        assert_eq!(
            ordered.report,
            Report {
                number,
                ..kept.report
            }
        );
    }
}

fn counted(counts: &mut [u64; COUNTS.len()], run: &Run) {
    let reply = run.reply(run.call.min(Call::Accumulating));
    if let Some(corner) = Corner::of(run, &reply) {
        for (many, (_, is)) in counts.iter_mut().zip(COUNTS) {
            *many += u64::from(is(&corner));
        }
    }
}

/// Quiet runs and near misses of every kind are drawn.
#[test]
fn every_kind_is_drawn() {
    let mut counts = [0; COUNTS.len()];
    for number in 0..100_000 {
        counted(&mut counts, &drawn(1, number, Sizes::UpTo(12)).0);
    }
    for ((name, _), many) in COUNTS.iter().zip(counts) {
        // An infinity alone is rare.
        let least = if *name == "  an infinity" { 1 } else { 10 };
        assert!(many >= least, "{name}: {many}");
    }
}

/// And stored, but for a coupling that is infinite alone.
#[test]
fn every_kind_is_stored() {
    let mut counts = [0; COUNTS.len()];
    for run in stored() {
        counted(&mut counts, &run);
    }
    for ((name, _), many) in COUNTS.iter().zip(counts) {
        assert!(many >= 1 || *name == "  an infinity", "{name}: {many}");
    }
    let quiet = |run: &&Run| {
        told(run)
            .ordered
            .is_some_and(|reply| (reply.report.number, reply.report.word) == (12, Report::QUIET))
    };
    assert!(stored().iter().filter(quiet).count() >= 20);
}

/// Among what is wrong on purpose `quiet` and `stopped` are exchanged, in both forms.
#[test]
fn the_words_are_told_wrong() {
    for lower in [false, true] {
        for (own, other) in [
            (Report::QUIET, Report::STOPPED),
            (Report::STOPPED, Report::QUIET),
        ] {
            let such = wrong().into_iter().any(|(run, said)| {
                let right = told(&run);
                let reports = [(right.first.report.word, said.first.report.word)];
                (run.cols > run.rows) == lower && reports.contains(&(own, other))
            });
            assert!(such);
        }
    }
}

#[test]
fn surveys_that_end_quiet() {
    let zeros = "0000000000000000 0000000000000000\n";
    let text = format!("1\n7 2 2\n{zeros}{zeros}");
    let answer = format!("7 quiet 100 100 0 2 200\n{zeros}{zeros}");
    assert_eq!(split(text.as_bytes()), answer);
    let many = |word: &str| {
        let says = |text: &&Vec<u8>| split(text).lines().any(|line| line.contains(word));
        texts().iter().filter(says).count()
    };
    assert!(many(" quiet ") >= 10 && many(" stopped ") >= 10);
    let [.., settled, stopped, quiet] = met(1, 2_000);
    assert!(settled >= 500 && stopped >= 100 && quiet >= 50);
}

/// What is measured on the original of quiet runs at other limits.
mod limits {
    use super::*;
    use beside::run::alike;

    fn at(limit: usize) -> Settings {
        Settings {
            limit,
            ..Settings::DEFAULT
        }
    }

    fn plain(rows: usize, cols: usize, matrix: &[f64], limit: usize) -> (Report, Vec<f64>) {
        let answer = cases::case(rows, cols, matrix, at(limit)).answer().unwrap();
        (answer.report, answer.matrix)
    }

    /// Zeros from 2 x 2 on are quiet at every limit: each pass is a sweep, and the table stays zeros.
    #[test]
    fn zeros_stay_quiet() {
        for (rows, cols) in (2..=7).flat_map(|rows| (2..=7).map(move |cols| (rows, cols))) {
            for x in [0.0, -0.0] {
                for limit in [0, 1, 2, 3, 99, 100, 1_000] {
                    let (report, matrix) = plain(rows, cols, &vec![x; rows * cols], limit);
                    let card = rows.min(cols);
                    let turns = 2 * (card - 1) * limit;
                    let says = format!("quiet {limit} {limit} 0 {card} {turns}");
                    assert_eq!(report.to_string(), says);
                    assert!(matrix.into_iter().all(zero));
                }
            }
        }
    }

    /// The bounds of the test for a drop, inside the corner.
    fn bounds(cols: usize, matrix: &[f64], range: usize) -> Vec<f64> {
        let value = |k: usize| matrix[k * (cols + 1)].abs();
        let Settings {
            tolerance,
            absolute,
            ..
        } = Settings::DEFAULT;
        let bound = |k: usize| ((value(k) + value(k + 1)) * tolerance).min(absolute);
        (0..range - 1).map(bound).collect()
    }

    /// Where all of them are above zero a quiet run lacks nothing but passes: with one more for each
    /// coupling it settles, and the table is the same. At the default limit no quiet run was so: each has
    /// a bound that is zero, mostly between two zeros of the diagonal, and none settles at a greater one.
    #[test]
    fn what_a_quiet_run_lacks() {
        let (mut lacking, mut never) = (0, 0);
        for number in 0..40_000 {
            let (mut run, _) = with_settings(3, number, Sizes::UpTo(6));
            run.call = Call::Plain;
            run.settings = at(match number % 2 {
                0 => 100,
                _ => run.settings.limit.min(100),
            });
            let left = run.reply(Call::Plain);
            if left.report.word != Report::QUIET {
                continue;
            }
            let range = left.report.range as usize;
            let bounds = bounds(run.cols, &left.matrix, range);
            if bounds.iter().all(|&bound| bound > 0.0) {
                assert!(run.settings.limit < 100);
                run.settings.limit += range - 1;
                let later = run.reply(Call::Plain);
                assert_eq!(later.report.word, Report::SETTLED, "{}", run.told());
                assert_eq!(later.report.sweeps, left.report.sweeps);
                assert!(alike(&later.matrix, &left.matrix));
                lacking += 1;
            } else if run.settings.limit == 100 {
                run.settings.limit = 400;
                let later = run.reply(Call::Plain);
                assert_ne!(later.report.word, Report::SETTLED, "{}", run.told());
                never += 1;
            }
        }
        assert!(lacking >= 50 && never >= 500, "{lacking} {never}");
    }

    /// Quiet at a limit is not quiet at every greater one: a sweep that finds two zeros side by side
    /// exchanges lines, and what stood across the diagonal becomes a coupling.
    #[test]
    fn quiet_does_not_stand() {
        let table = [0.0, -LEAST, 2.0 * LEAST, 0.0, 0.0, -LEAST];
        let words = [0, 1, 2].map(|limit| plain(2, 3, &table, limit).0.word);
        assert_eq!(words, [Report::QUIET, Report::STOPPED, Report::QUIET]);
    }

    /// Nor is the table: values change places, though every coupling is zero all the time.
    #[test]
    fn values_change_places() {
        let mut table = vec![0.0; 16];
        (table[0], table[5]) = (2.5, 1.0);
        let diagonal = |limit: usize| {
            let (report, matrix) = plain(4, 4, &table, limit);
            assert_eq!(report.word, Report::QUIET);
            (
                report.range,
                [0, 5, 10, 15].map(|at: usize| matrix[at].abs()),
            )
        };
        assert_eq!(diagonal(0), (4, [2.5, 1.0, 0.0, 0.0]));
        assert_eq!(diagonal(100), (3, [2.5, 0.0, 0.0, 1.0]));
    }
}
