//! profiles [DRAWS]: what each of the four profiles makes of tables like a survey's: DRAWS (200 where none is given)
//! drawn tables of each kind and shape, the same ones that `rates` draws. Prints nine tables for docs/GUIDE.md, each
//! with a column for each profile: how many of a hundred settled, stopped and were quiet, of the shapes with few passes
//! by kind, and of surveys in square shapes; how many that did not settle under one settled under another; passes and rotations of those that settled, by kind, and of surveys by
//! shape; the same of those that did not settle; for how many of these the readings confirm the strongest part; and of
//! those that settled how far the values are from the reference's (`reference.rs`), and by how much the strongest part
//! misses the readings. A number in brackets is the largest, the one before it the median. With 200 draws it takes about
//! 15 seconds on one core.

use beside::Report;
use beside::by_profile::{Run, of_kind};
use beside::profiles::PROFILES;
use beside::tables::{
    CALM, FEW_PASSES, KINDS, Kind, NOISE_3, NOISE_HALF, NOISE_MILLIONTH, NOISE_TENTH, Shape,
    TWO_STATIONS,
};
use std::cmp::Ordering;

const SURVEYS: [Kind; 3] = [NOISE_3, NOISE_HALF, NOISE_TENTH];
const NOISY: [Kind; 4] = [NOISE_3, NOISE_HALF, NOISE_TENTH, NOISE_MILLIONTH];
const SQUARE: [Shape; 3] = [(16, 16), (30, 30), (48, 48)];

/// What is drawn of a kind and shape, with its four runs for each table.
struct Lot {
    kind: &'static str,
    shape: Shape,
    runs: Vec<[Run; 4]>,
}

/// A row's name and the runs it is made of.
type Row<'a> = (String, Vec<&'a [Run; 4]>);

fn row(name: impl ToString, lots: &[Lot], belongs: impl Fn(&Lot) -> bool) -> Row<'_> {
    let here = lots.iter().filter(|lot| belongs(lot));
    (name.to_string(), here.flat_map(|lot| &lot.runs).collect())
}

fn one_of(kinds: &[Kind], lot: &Lot) -> bool {
    kinds.iter().any(|(name, _)| lot.kind == *name)
}

fn told((rows, cols): Shape) -> String {
    format!("{rows} x {cols}")
}

fn any(_: &Run) -> bool {
    true
}

fn unsettled(run: &Run) -> bool {
    !run.settled()
}

fn print_heads(first: &str) {
    let heads = PROFILES.map(|(name, _)| name);
    println!("| {first} | {} |", heads.join(" | "));
    println!("|---|{}", "---|".repeat(heads.len()));
}

/// A line for each row, a cell for each profile, made of those of its runs that are asked for.
fn print_table(first: &str, rows: &[Row], asked: fn(&Run) -> bool, cell: fn(&[&Run]) -> String) {
    print_heads(first);
    for (name, runs) in rows {
        let cells = [0, 1, 2, 3].map(|profile| {
            let here = runs.iter().map(|four| &four[profile]);
            let here: Vec<&Run> = here.filter(|run| asked(run)).collect();
            match here.len() {
                0 => "-".to_string(),
                _ => cell(&here),
            }
        });
        println!("| {name} | {} |", cells.join(" | "));
    }
    println!();
}

/// How many tables that did not settle under one profile settled under each.
fn print_others(lots: &[Lot]) {
    print_heads("tables that did not settle");
    for (one, (name, _)) in PROFILES.iter().enumerate() {
        let tables = lots.iter().flat_map(|lot| &lot.runs);
        let left: Vec<&[Run; 4]> = tables.filter(|four| !four[one].settled()).collect();
        let cells = [0, 1, 2, 3].map(|other| match other == one {
            true => "-".to_string(),
            false => {
                let settled = left.iter().filter(|four| four[other].settled());
                settled.count().to_string()
            }
        });
        println!("| {name}, {} | {} |", left.len(), cells.join(" | "));
    }
    println!();
}

/// The median and, in brackets, the largest.
fn spread<T: Copy>(mut numbers: Vec<T>, order: fn(&T, &T) -> Ordering) -> (T, T) {
    numbers.sort_by(order);
    (numbers[numbers.len() / 2], numbers[numbers.len() - 1])
}

fn counts(numbers: impl Iterator<Item = u64>) -> String {
    let (median, most) = spread(numbers.collect(), u64::cmp);
    format!("{median} ({most})")
}

fn parts(numbers: impl Iterator<Item = f64>) -> String {
    let (median, most) = spread(numbers.collect(), f64::total_cmp);
    format!("{median:.1e} ({most:.1e})")
}

/// How many of a hundred settled, stopped and were quiet.
fn words(runs: &[&Run]) -> String {
    let share = |word: u64| {
        let many = runs.iter().filter(|run| run.report.word == word).count();
        (1000.0 * many as f64 / runs.len() as f64).round() / 10.0
    };
    let [settled, stopped, quiet] = [Report::SETTLED, Report::STOPPED, Report::QUIET].map(share);
    format!("{settled}, {stopped}, {quiet}")
}

/// Passes, and behind them rotations.
fn work(runs: &[&Run]) -> String {
    let passes = counts(runs.iter().map(|run| run.report.passes));
    let rotations = counts(runs.iter().map(|run| run.report.rotations));
    format!("{passes}; {rotations}")
}

/// How far the values are from the reference's.
fn off(runs: &[&Run]) -> String {
    parts(runs.iter().filter_map(|run| run.off))
}

/// The miss of the strongest part, and behind it of how many it is at most 1e-10.
fn miss(runs: &[&Run]) -> String {
    let found = runs.iter().filter(|run| run.strongest.found()).count();
    let misses = parts(runs.iter().map(|run| run.strongest.miss));
    format!("{misses}; {found} of {}", runs.len())
}

/// For how many of those that stopped the readings confirm the strongest part, and of those that are quiet.
fn confirmed(runs: &[&Run]) -> String {
    let of_word = |word: u64| {
        let here = runs.iter().filter(|run| run.report.word == word);
        let well = here.clone().filter(|run| run.strongest.confirmed());
        format!("{} of {}", well.count(), here.count())
    };
    [Report::STOPPED, Report::QUIET].map(of_word).join("; ")
}

/// What is drawn of these kinds in these shapes.
fn lots(kinds: &[Kind], shapes: &[Shape], draws: usize) -> Vec<Lot> {
    let lot = |kind: Kind, shape: Shape| Lot {
        kind: kind.0,
        shape,
        runs: of_kind(kind, shape, draws).collect(),
    };
    let of_shapes = |&kind: &Kind| shapes.iter().map(move |&shape| lot(kind, shape));
    kinds.iter().flat_map(of_shapes).collect()
}

fn main() {
    let draws = std::env::args()
        .nth(1)
        .map_or(200, |word| word.parse().expect("a number"));
    let few = lots(&KINDS, &FEW_PASSES, draws);
    let square = lots(&SURVEYS, &SQUARE, draws);
    let by_kind = |(name, _): Kind| row(name, &few, |lot| lot.kind == name);
    let by_shape = |belongs: fn(&Lot) -> bool| {
        FEW_PASSES.map(|shape| row(told(shape), &few, |lot| lot.shape == shape && belongs(lot)))
    };

    let kinds = KINDS.map(by_kind);
    let first = format!("tables, {} of all these shapes", draws * FEW_PASSES.len());
    print_table(&first, &kinds, any, words);
    let squares: Vec<Row> = square
        .chunks(1)
        .map(|one| {
            row(
                format!("{}, {}", told(one[0].shape), one[0].kind),
                one,
                |_| true,
            )
        })
        .collect();
    print_table("tables", &squares, any, words);
    print_others(&few);

    print_table("tables", &kinds, Run::settled, work);
    let surveys = by_shape(|lot| one_of(&SURVEYS, lot));
    print_table("surveys", &surveys, Run::settled, work);
    let full = by_shape(|lot| lot.kind != TWO_STATIONS.0);
    print_table("tables", &full, unsettled, work);
    let air = [
        row("few passes", &few, |lot| {
            !one_of(&[CALM, TWO_STATIONS], lot)
        }),
        row("square", &square, |_| true),
    ];
    print_table("tables with air", &air, unsettled, confirmed);

    let mut exact = NOISY.map(by_kind).to_vec();
    exact.push(row("these together", &few, |lot| one_of(&NOISY, lot)));
    exact.push(row("all kinds together", &few, |_| true));
    exact.push(row("surveys in square shapes", &square, |_| true));
    print_table("tables", &exact, Run::settled, off);
    print_table("tables", &exact, Run::settled, miss);
}
