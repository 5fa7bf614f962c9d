//! battery [--picture FILE] [TABLES [ROUNDS]]: how long the library's calls take by their rotations, on drawn tables of
//! many shapes and kinds (2,000 where none is given), always the same ones. Each is timed once a round, in ROUNDS rounds
//! (101), and of each the medians count. Prints for docs/GUIDE.md a table by shape for the accumulating call and one for
//! the plain call: the line time = fixed + each x rotations and, to hold beside `fixed`, what the call takes at limit 0;
//! then how time goes with rotations and with passes, and one long call. Writes the picture to FILE
//! (docs/pictures/battery.svg).

mod figures;
mod measure;
mod plot;

use figures::{Line, correlation, median, quantile, share, three, whole};
use measure::{Measured, SHAPES};
use merotunki::raw::Answer;
use std::{env, fs};

/// The most rotations that an allowed call can make: 2 x 47 for each of 100,000 + 1,000 x 46 passes.
const MOST: f64 = 13_724_000.0;

type Count = fn(&Measured) -> f64;
const ROTATIONS: Count = |table| table.answer.rotations as f64;
const PASSES: Count = |table| table.answer.passes as f64;
const FULL: Count = |table| table.full;
const PLAIN: Count = |table| table.plain;
const FULL_FORM: Count = |table| table.full_form;
const PLAIN_FORM: Count = |table| table.plain_form;

fn points(tables: &[&Measured], x: Count, y: Count) -> Vec<(f64, f64)> {
    tables.iter().map(|table| (x(table), y(table))).collect()
}

fn list(tables: &[&Measured], of: Count) -> Vec<f64> {
    tables.iter().map(|table| of(table)).collect()
}

/// The tables of a shape that are not flat, and those that are.
fn of_shape(tables: &[Measured], shape: usize) -> (Vec<&Measured>, Vec<&Measured>) {
    let all = tables.iter().filter(|table| table.shape == shape);
    all.partition(|table| !table.flat)
}

/// Prints the table by shape of a call, with what it takes at limit 0, and answers its lines.
fn by_shape(tables: &[Measured], call: &str, time: Count, form: Count) -> Vec<Line> {
    println!(
        "| {call} call | tables | rotations: median (least to most) | time, us: median | at limit 0 | fixed, us | each rotation, ns | R2 | farthest off | R2 by passes | flat tables | their time, of the line's: median (least to most) |"
    );
    println!("|---|---|---|---|---|---|---|---|---|---|---|---|");
    let row = |shape: usize| {
        let (airy, flat) = of_shape(tables, shape);
        let line = Line::through(&points(&airy, ROTATIONS, time));
        let by_passes = Line::through(&points(&airy, PASSES, time));
        let rotations = |part| whole(quantile(list(&airy, ROTATIONS), part));
        let of_line = |part| {
            let parts = flat
                .iter()
                .map(|table| time(table) / line.at(ROTATIONS(table)));
            share(quantile(parts.collect(), part))
        };
        let (rows, cols) = SHAPES[shape];
        println!(
            "| {rows} x {cols} | {} | {} ({} to {}) | {} | {} | {} | {:.0} | {:.3} | {} | {:.3} | {} | {} ({} to {}) |",
            airy.len(),
            rotations(0.5),
            rotations(0.0),
            rotations(1.0),
            three(median(list(&airy, time))),
            three(median(list(&airy, form))),
            three(line.fixed),
            1e3 * line.each,
            line.told,
            share(line.off),
            by_passes.told,
            flat.len(),
            of_line(0.5),
            of_line(0.0),
            of_line(1.0),
        );
        line
    };
    let lines = (0..SHAPES.len()).map(row).collect();
    println!();
    lines
}

/// Prints how the accumulating call's time goes with a count: over all tables, over those that are not flat, and of
/// these within one shape; and what one costs then, the whole call over the count, in nine tables of ten.
fn goes_with(tables: &[Measured], name: &str, count: Count) {
    let all: Vec<&Measured> = tables.iter().collect();
    let airy: Vec<&Measured> = tables.iter().filter(|table| !table.flat).collect();
    let within = |shape: usize| {
        let points = points(&of_shape(tables, shape).0, count, FULL);
        (correlation(&points), shape)
    };
    let shapes: Vec<(f64, usize)> = (0..SHAPES.len()).map(within).collect();
    let least = shapes.iter().min_by(|a, b| a.0.total_cmp(&b.0));
    let &(least, shape) = least.expect("a shape");
    let each = |part| {
        let each = airy
            .iter()
            .map(|table| 1e3 * FULL(table) / count(table).max(1.0));
        whole(quantile(each.collect(), part))
    };
    println!(
        "time with {name}: correlation {:.3} over all tables, {:.3} over those that are not flat; of these within one shape {:.3} (median of {} shapes), at least {least:.3} ({} x {}); the call takes {} to {} ns for each in nine tables of ten",
        correlation(&points(&all, count, FULL)),
        correlation(&points(&airy, count, FULL)),
        median(shapes.iter().map(|shape| shape.0).collect()),
        SHAPES.len(),
        SHAPES[shape].0,
        SHAPES[shape].1,
        each(0.05),
        each(0.95),
    );
}

/// Prints which part of the rotations are of (0, b): of the flat tables' and of the others'.
fn without_root(tables: &[Measured]) {
    let [flat, others] = [true, false].map(|flat| {
        let of = tables.iter().filter(|table| table.flat == flat);
        let zeros: u64 = of.clone().map(|table| table.zeros).sum();
        let rotations: u64 = of.map(|table| table.answer.rotations).sum();
        format!("{:.1} %", 100.0 * zeros as f64 / rotations as f64)
    });
    println!(
        "rotations of (0, b), which take no root: {flat} of the flat tables', {others} of the others'"
    );
}

/// Prints one long call, and what the greatest number of rotations would take at its pace.
fn long_call(tables: &[Measured]) {
    let Some((answer, times)) = measure::longest(tables, (48, 48)) else {
        return;
    };
    let rotations = answer.rotations as f64;
    let [full, plain] = times.map(|time| {
        format!(
            "{:.2} s, {:.0} ns each, at which {} take {:.2} s",
            time / 1e6,
            1e3 * time / rotations,
            whole(MOST),
            MOST * time / rotations / 1e6
        )
    });
    println!(
        "one 48 x 48 table at limit 100,000 and credit 1,000: passes {}, rotations {}; accumulating {full}; plain {plain}",
        whole(answer.passes as f64),
        whole(rotations)
    );
}

fn main() {
    let mut words: Vec<String> = env::args().skip(1).collect();
    let mut picture = "docs/pictures/battery.svg".to_string();
    if words.first().is_some_and(|word| word == "--picture") {
        picture = words.get(1).expect("--picture FILE").clone();
        words.drain(..2);
    }
    let number = |at: usize, usual: usize| {
        let given = words.get(at).map(|word| word.parse().expect("a number"));
        given.unwrap_or(usual)
    };
    let (many, rounds) = (number(0, 2_000), number(1, 101));
    let least = 20 * SHAPES.len();
    assert!(
        many >= least && rounds > 0,
        "at least {least} tables and one round"
    );
    let mut tables = measure::tables(many);
    measure::measure(&mut tables, rounds);

    let ended = |word: u64| {
        tables
            .iter()
            .filter(|table| table.answer.word == word)
            .count()
    };
    println!(
        "{} tables, {rounds} rounds: {} settled, {} stopped, {} quiet; {} are flat\n",
        whole(many as f64),
        ended(Answer::SETTLED),
        ended(Answer::STOPPED),
        ended(Answer::QUIET),
        tables.iter().filter(|table| table.flat).count()
    );
    let sizes = SHAPES.map(|(rows, cols)| (rows + cols) as f64);
    for (call, time, form) in [
        ("accumulating", FULL, FULL_FORM),
        ("plain", PLAIN, PLAIN_FORM),
    ] {
        let lines = by_shape(&tables, call, time, form);
        let each = sizes
            .into_iter()
            .zip(lines.iter().map(|line| 1e3 * line.each));
        let each = Line::through(&each.collect::<Vec<_>>());
        println!(
            "each rotation of the {call} call, over the shapes: {:.0} {} {:.2} x (rows + columns) ns, at most {} off\n",
            each.fixed,
            if each.each < 0.0 { '-' } else { '+' },
            each.each.abs(),
            share(each.off)
        );
    }
    goes_with(&tables, "rotations", ROTATIONS);
    goes_with(&tables, "passes", PASSES);
    without_root(&tables);
    println!();
    long_call(&tables);
    fs::write(&picture, plot::picture(&tables, rounds))
        .unwrap_or_else(|error| panic!("{picture}: {error}"));
    println!("\n{picture} is written");
}
