//! The four profiles, the runs under them, and that the program `profiles` prints what it says.

use beside::by_profile::{of_kind, of_table};
use beside::profiles::PROFILES;
use beside::run::identity;
use beside::tables::{FEW_PASSES, FIRST_PASS, KINDS, NOISE_3, NOISE_MILLIONTH, Shape, drawn};
use beside::{Report, Settings, run};
use std::process::Command;

#[test]
fn profiles_are_those_that_were_asked_for() {
    let asked = [
        ("vane", 100, 50, 1e-10, 1e-12),
        ("hot wire", 200, 50, 1e-12, 1e-13),
        ("ultrasonic", 400, 100, 1e-13, 1e-14),
        ("smoke tube", 50, 25, 1e-6, 1e-8),
    ];
    let told = PROFILES.map(|(name, settings)| {
        assert_eq!(settings.floor, Settings::DEFAULT.floor, "{name}");
        let Settings {
            limit,
            credit,
            tolerance,
            absolute,
            ..
        } = settings;
        (name, limit, credit, tolerance, absolute)
    });
    assert_eq!(told, asked);
    assert_eq!(PROFILES[0].1, Settings::DEFAULT);
}

/// The length of T v - s u and T' u - s v, s being the largest on the diagonal, by plain loops.
fn missed(readings: &[f64], (rows, cols): Shape, settings: &Settings) -> f64 {
    let (mut matrix, mut u, mut v) = (readings.to_vec(), identity(rows), identity(cols));
    run(rows, cols, &mut matrix, Some((&mut u, &mut v)), settings);
    let (mut k, mut s) = (0, 0.0f64);
    for i in 0..rows.min(cols) {
        if matrix[i * cols + i].abs() > s.abs() {
            (k, s) = (i, matrix[i * cols + i]);
        }
    }
    let mut squares = 0.0;
    for i in 0..rows {
        let mut left = -s * u[i * rows + k];
        for j in 0..cols {
            left += readings[i * cols + j] * v[j * cols + k];
        }
        squares += left * left;
    }
    for j in 0..cols {
        let mut left = -s * v[j * cols + k];
        for i in 0..rows {
            left += readings[i * cols + j] * u[i * rows + k];
        }
        squares += left * left;
    }
    squares.sqrt() / s.abs()
}

/// Of every kind and shape a few tables: the report is that of a plain call with the profile's settings, a distance is
/// told exactly where it settled, the values are good to 1e-13, and the miss is found by other loops, too. Where a table
/// with air did not settle, its strongest part is confirmed unless the first pass reads zero throughout.
#[test]
fn runs_are_those_of_the_settings() {
    let mut words = [[0; 4]; 4];
    for (name, table) in KINDS {
        for shape in FEW_PASSES {
            for readings in drawn(table, shape, 3) {
                let rows = readings.len() / shape.1;
                let four = of_table(&readings, shape.1);
                for ((run_of, (_, settings)), words) in four.iter().zip(PROFILES).zip(&mut words) {
                    let mut matrix = readings.clone();
                    let report = run(rows, shape.1, &mut matrix, None, &settings);
                    assert_eq!(run_of.report, report, "{name}");
                    words[report.word as usize] += 1;
                    let settled = report.word == Report::SETTLED;
                    assert_eq!(run_of.settled(), settled);
                    assert_eq!(run_of.off.is_some(), settled);
                    let air = readings.iter().any(|&reading| reading != 0.0);
                    if air && !settled && !run_of.strongest.confirmed() {
                        let first = readings.iter().step_by(shape.1);
                        assert!(first.copied().all(|x| x == 0.0), "{name}");
                    }
                    if settled {
                        assert!(run_of.off.is_some_and(|off| off < 1e-13), "{name}");
                        let missed = missed(&readings, (rows, shape.1), &settings);
                        let apart = (run_of.strongest.miss - missed).abs();
                        assert!(apart < 1e-14, "{name}: {apart:e}");
                    }
                }
            }
        }
    }
    for words in words {
        assert!(words[1..].iter().all(|&many| many > 0), "{words:?}");
    }
}

/// What the tables tell most plainly.
#[test]
fn what_is_known_of_the_profiles() {
    for four in of_kind(NOISE_3, (12, 6), 20) {
        assert!(four.iter().all(|run| run.settled()));
    }
    for four in of_kind(FIRST_PASS, (12, 6), 20) {
        assert!(four.iter().all(|run| run.report.word == Report::STOPPED));
    }
    for four in of_kind(NOISE_MILLIONTH, (20, 10), 20) {
        let stopped = four.map(|run| run.report.word == Report::STOPPED);
        assert_eq!(stopped[..3], [true; 3]);
    }
}

fn printed(draws: &str) -> String {
    let program = Command::new(env!("CARGO_BIN_EXE_profiles"))
        .arg(draws)
        .output()
        .expect("the program profiles");
    assert!(program.status.success());
    String::from_utf8(program.stdout).expect("text")
}

fn middle<T: Copy + Ord>(mut numbers: Vec<T>) -> (T, T) {
    numbers.sort();
    (numbers[numbers.len() / 2], *numbers.last().expect("one"))
}

/// The program's tables by kind and its table of tables that did not settle, counted again from plain calls; and it
/// prints the same twice.
#[test]
fn the_program_prints_what_was_counted() {
    let text = printed("2");
    assert_eq!(printed("2"), text);
    let tables: Vec<Vec<&str>> = text
        .trim_end()
        .split("\n\n")
        .map(|table| table.lines().collect())
        .collect();
    let sizes: Vec<usize> = tables.iter().map(|table| table.len() - 2).collect();
    assert_eq!(sizes, [19, 9, 4, 19, 7, 7, 2, 7, 7]);
    for table in &tables {
        assert!(table[0].ends_with("| vane | hot wire | ultrasonic | smoke tube |"));
    }
    let mut settled_under = [const { Vec::new() }; 4];
    for (at, (name, table)) in KINDS.into_iter().enumerate() {
        let (mut words, mut work) = (Vec::new(), Vec::new());
        for ((_, settings), settled_under) in PROFILES.iter().zip(&mut settled_under) {
            let (mut ended, mut passes, mut rotations) = ([0.0; 4], Vec::new(), Vec::new());
            for shape in FEW_PASSES {
                for mut matrix in drawn(table, shape, 2) {
                    let rows = matrix.len() / shape.1;
                    let report = run(rows, shape.1, &mut matrix, None, settings);
                    ended[report.word as usize] += 1.0;
                    settled_under.push(report.word == Report::SETTLED);
                    if report.word == Report::SETTLED {
                        passes.push(report.passes);
                        rotations.push(report.rotations);
                    }
                }
            }
            let [settled, stopped, quiet] =
                [1, 2, 3].map(|word| (ended[word] / 14.0 * 1000.0f64).round() / 10.0);
            words.push(format!("{settled}, {stopped}, {quiet}"));
            work.push(if passes.is_empty() {
                "-".to_string()
            } else {
                let ((p, most), (r, largest)) = (middle(passes), middle(rotations));
                format!("{p} ({most}); {r} ({largest})")
            });
        }
        assert_eq!(
            tables[0][at + 2],
            format!("| {name} | {} |", words.join(" | "))
        );
        assert_eq!(
            tables[3][at + 2],
            format!("| {name} | {} |", work.join(" | "))
        );
    }
    for (one, (name, _)) in PROFILES.iter().enumerate() {
        let left: Vec<usize> = (0..settled_under[one].len())
            .filter(|&at| !settled_under[one][at])
            .collect();
        let many = |other: usize| left.iter().filter(|&&at| settled_under[other][at]).count();
        let mut cells = [0, 1, 2, 3].map(|other| many(other).to_string());
        cells[one] = "-".to_string();
        let line = format!("| {name}, {} | {} |", left.len(), cells.join(" | "));
        assert_eq!(tables[2][one + 2], line);
    }
}
