//! What the program `limits` prints: both calls at the bounds of what they accept, and with two faults at a time, by the
//! rules' table and the original. The cases stand a second time in crates/limits/src/main.rt.

use crate::Settings;
use crate::run::{Call, Run, Start};
use crate::text::hex;

/// A case is a name; rows and columns; how long the matrix is, and for the accumulating call U and V; the matrix's first
/// and fourth entry; limit and tolerance.
const CASES: &str = "\
plain 48 x 48; 48 48; 2304; 1 1; 0 1e-10
plain 49 x 48; 49 48; 2352; 1 1; 0 1e-10
plain 48 x 49; 48 49; 2352; 1 1; 0 1e-10
full 48 x 48; 48 48; 2304 2304 2304; 1 1; 0 1e-10
full 49 x 48; 49 48; 2352 2401 2304; 1 1; 0 1e-10
full 48 x 49; 48 49; 2352 2304 2401; 1 1; 0 1e-10
plain limit 0; 2 2; 4; 2 1; 0 1e-10
plain limit 0 on zeros; 2 2; 4; 0 0; 0 1e-10
plain limit 100000; 2 2; 4; 2 1; 100000 1e-10
plain limit 100001; 2 2; 4; 2 1; 100001 1e-10
plain 4 x 4, limit 1; 4 4; 16; 2 1; 1 1e-10
plain 4 x 4, limit 100000; 4 4; 16; 2 1; 100000 1e-10
full limit 0; 2 2; 4 4 4; 2 1; 0 1e-10
full limit 0 on zeros; 2 2; 4 4 4; 0 0; 0 1e-10
full limit 100000; 2 2; 4 4 4; 2 1; 100000 1e-10
full limit 100001; 2 2; 4 4 4; 2 1; 100001 1e-10
full 4 x 4, limit 1; 4 4; 16 16 16; 2 1; 1 1e-10
full 4 x 4, limit 100000; 4 4; 16 16 16; 2 1; 100000 1e-10
plain table one short; 2 2; 3; 2 1; 0 1e-10
plain table one long; 2 2; 5; 2 1; 0 1e-10
full table one short; 2 2; 3 4 4; 2 1; 0 1e-10
full table one long; 2 2; 5 4 4; 2 1; 0 1e-10
full U one short; 2 2; 4 3 4; 2 1; 0 1e-10
full U one long; 2 2; 4 5 4; 2 1; 0 1e-10
full V one short; 2 2; 4 4 3; 2 1; 0 1e-10
full V one long; 2 2; 4 4 5; 2 1; 0 1e-10
1 and 2; 0 49; 0 0 2401; 2 1; 0 1e-10
2 and 3; 49 1; 48 2401 1; 2 1; 0 1e-10
3 and 4; 2 2; 3 3 4; 2 1; 0 1e-10
4 and 5; 2 2; 4 3 3; 2 1; 0 1e-10
5 and 6; 2 2; 4 4 3; 2 1; 100001 1e-10
6 and 7; 2 2; 4 4 4; 2 1; 100001 -1
7 and 8; 2 2; 4 4 4; 2 inf; 0 -1
8 alone; 2 2; 4 4 4; 2 inf; 0 1e-10
8 in row 1; 2 3; 6 4 9; 2 inf; 0 1e-10
8 twice; 2 3; 6 4 9; -inf inf; 0 1e-10
plain 3 and 6; 2 2; 3; 2 1; 100001 1e-10
";

/// Zeros, but for the first and the fourth.
fn table(many: usize, first: f64, fourth: f64) -> Vec<f64> {
    let entry = |at: usize| match at {
        0 => first,
        3 => fourth,
        _ => 0.0,
    };
    (0..many).map(entry).collect()
}

/// The run of a case's parts, but for its name.
fn run_of(parts: &[&str]) -> Run {
    let count = |word: &str| -> usize { word.parse().expect("a count") };
    let number = |word: &str| -> f64 { word.parse().expect("a number") };
    let words = |part: &str| -> Vec<String> { part.split(' ').map(str::to_string).collect() };
    let [sizes, long, entries, settings] = parts else {
        panic!("five parts a case");
    };
    let (sizes, settings) = (words(sizes), words(settings));
    let (long, entries) = (words(long), words(entries));
    let factor = |at: usize| long.get(at).map_or(0, |word| count(word));
    Run {
        rows: count(&sizes[0]),
        cols: count(&sizes[1]),
        settings: Settings {
            limit: count(&settings[0]),
            tolerance: number(&settings[1]),
            ..Settings::DEFAULT
        },
        profile: None,
        call: match long.len() {
            3 => Call::Accumulating,
            _ => Call::Plain,
        },
        matrix: table(count(&long[0]), number(&entries[0]), number(&entries[1])),
        start: Start::Given(table(factor(1), 1.0, 1.0), table(factor(2), 1.0, 1.0)),
        values: Vec::new(),
    }
}

/// The entries that are not +0, each with its place and its bits, in lower-case hex as the kit prints them.
fn shown(name: char, list: &[f64]) -> String {
    let entries = list.iter().enumerate().filter(|(_, x)| x.to_bits() != 0);
    let entries: String = entries
        .map(|(place, &x)| format!(" {place}:{}", hex(x).to_lowercase()))
        .collect();
    format!("  {name}{entries}\n")
}

/// What is printed of a case.
fn line(case: &str) -> String {
    let parts: Vec<&str> = case.split("; ").collect();
    let run = run_of(&parts[1..]);
    let reply = run.reply(run.call);
    let [number, row, column, bad, word, counts @ ..] = reply.report.words();
    let word = ["none", "settled", "stopped", "quiet"][word as usize];
    let counts = counts.map(|count| count.to_string()).join(" ");
    let mut text = format!(
        "{}: {number} {row} {column} {bad} {word} {counts}\n",
        parts[0]
    );
    text += &shown('b', &reply.matrix);
    if run.call.keeps() {
        text += &shown('u', &reply.u);
        text += &shown('v', &reply.v);
    }
    text
}

/// What the program prints.
pub fn printed() -> String {
    CASES.lines().map(line).collect()
}
