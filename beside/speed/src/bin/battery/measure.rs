//! The tables, and how long the library takes on each of them.

use crate::figures::median;
use beside::tables::{Draw, KINDS, Shape, drawn};
use beside::{Settings, walked};
use merotunki::raw::{self, Answer};
use speed::{choice, identity};
use std::collections::BTreeSet;
use std::hint::black_box;
use std::time::Instant;

/// As surveys have them, then square and nearly so, then with more passes than stations.
pub const SHAPES: [Shape; 15] = [
    (4, 3),
    (8, 5),
    (12, 6),
    (20, 5),
    (20, 10),
    (30, 4),
    (48, 3),
    (48, 6),
    (16, 16),
    (24, 24),
    (30, 30),
    (48, 24),
    (48, 48),
    (5, 8),
    (10, 20),
];

/// No pass is made with these.
const FORM_ALONE: Settings = Settings {
    limit: 0,
    ..Settings::DEFAULT
};

/// A drawn table and what was measured on it.
pub struct Measured {
    /// Which of the shapes it has.
    pub shape: usize,
    readings: Vec<f64>,
    /// Whether all readings are equal, or all zero but those of one station or of one pass.
    pub flat: bool,
    /// What both calls answer, every time.
    pub answer: Answer,
    /// How many of its rotations are of (0, b), which take no root, as the original tells.
    pub zeros: u64,
    /// Microseconds of the accumulating call and of the plain one, each the median of the rounds.
    pub full: f64,
    pub plain: f64,
    /// The same at limit 0: the checks and the bidiagonal form, without a rotation.
    pub full_form: f64,
    pub plain_form: f64,
}

/// So many tables, always the same ones: the shapes by turns, and within each shape the kinds.
pub fn tables(many: usize) -> Vec<Measured> {
    // Of a kind whose tables have another shape than they are asked for none is taken.
    let kinds = KINDS.map(|(_, table)| table);
    let fits = |kind: &usize| drawn(kinds[*kind], (4, 3), 1).all(|table| table.len() == 12);
    let fitting: Vec<usize> = (0..kinds.len()).filter(fits).collect();
    let each = many.div_ceil(SHAPES.len() * fitting.len());
    let mut lists = SHAPES.map(|shape| {
        let of_kind = |&kind: &usize| drawn(kinds[kind], shape, each);
        fitting.iter().map(of_kind).collect::<Vec<_>>()
    });
    let measured = |number: usize| {
        let (shape, kind) = (number % SHAPES.len(), number / SHAPES.len() % fitting.len());
        let readings = lists[shape][kind].next().expect("as many as are drawn");
        Measured {
            shape,
            flat: flat(&readings, SHAPES[shape].1),
            readings,
            answer: Answer::default(),
            zeros: 0,
            full: 0.0,
            plain: 0.0,
            full_form: 0.0,
            plain_form: 0.0,
        }
    };
    (0..many).map(measured).collect()
}

/// See [`Measured::flat`].
fn flat(readings: &[f64], cols: usize) -> bool {
    let equal = readings.iter().all(|&reading| reading == readings[0]);
    let live = (0..readings.len()).filter(|&at| readings[at] != 0.0);
    let stations: BTreeSet<usize> = live.clone().map(|at| at / cols).collect();
    let passes: BTreeSet<usize> = live.map(|at| at % cols).collect();
    equal || stations.len() == 1 || passes.len() == 1
}

/// What the call answers, and its microseconds.
fn timed(call: impl FnOnce() -> Answer) -> (Answer, f64) {
    let start = Instant::now();
    let answer = black_box(call());
    (answer, 1e6 * start.elapsed().as_secs_f64())
}

/// What both calls answer on the table, and the microseconds of the accumulating one and of the plain one.
/// Each is lent fresh copies, made before its time begins.
fn once(table: &Measured, settings: &Settings) -> (Answer, [f64; 2]) {
    let (rows, cols) = SHAPES[table.shape];
    let choice = choice(settings);
    let (mut u, mut v) = (identity(rows), identity(cols));
    let mut matrix = table.readings.clone();
    let factors = (&mut u[..], &mut v[..]);
    let (answer, full) = timed(|| raw::full_svd(&mut matrix, factors, rows, cols, choice));
    matrix.copy_from_slice(&table.readings);
    let (same, plain) = timed(|| raw::svd(&mut matrix, rows, cols, choice));
    assert_eq!(answer, same, "the two calls' answers");
    assert_eq!(answer.number, 0, "a table that is refused");
    (answer, [full, plain])
}

/// Any order of so many, drawn.
fn order(draw: &mut Draw, many: usize) -> Vec<usize> {
    let mut order: Vec<usize> = (0..many).collect();
    for at in (1..many).rev() {
        order.swap(at, (draw.part() * (at + 1) as f64) as usize);
    }
    order
}

/// Times every table once a round, in another order each round, so that what the machine does meanwhile falls on
/// all of them alike. A round before the first one warms up and counts for nothing.
pub fn measure(tables: &mut [Measured], rounds: usize) {
    for table in tables.iter_mut() {
        table.answer = once(table, &Settings::DEFAULT).0;
        let (rows, cols) = SHAPES[table.shape];
        let mut matrix = table.readings.clone();
        let (report, walked) = walked(rows, cols, &mut matrix, None, &Settings::DEFAULT);
        assert_eq!(
            report.words(),
            table.answer.words(),
            "the original's report"
        );
        table.zeros = walked.zeros;
    }
    for table in tables.iter() {
        let (rows, cols) = SHAPES[table.shape];
        let (sweeps, rotations) = (table.answer.sweeps, table.answer.rotations);
        let most = 2 * (rows.min(cols) as u64 - 1) * sweeps;
        assert!(
            (2 * sweeps..=most).contains(&rotations),
            "{rotations} rotations in {sweeps} sweeps"
        );
    }
    let mut times = vec![[const { Vec::new() }; 4]; tables.len()];
    let draw = &mut Draw(0);
    for _ in 0..rounds {
        for number in order(draw, tables.len()) {
            let (answer, spent) = once(&tables[number], &Settings::DEFAULT);
            assert_eq!(answer, tables[number].answer, "an answer that changes");
            let (answer, formed) = once(&tables[number], &FORM_ALONE);
            assert_eq!((answer.passes, answer.rotations), (0, 0), "at limit 0");
            for (times, spent) in times[number]
                .iter_mut()
                .zip(spent.into_iter().chain(formed))
            {
                times.push(spent);
            }
        }
    }
    for (table, times) in tables.iter_mut().zip(times) {
        [table.full, table.plain, table.full_form, table.plain_form] = times.map(median);
    }
}

/// A long call: what the table of the shape that stopped after most rotations answers at the greatest limit and credit
/// that are allowed, and the microseconds of its accumulating call and of its plain one, each the median of five.
pub fn longest(tables: &[Measured], shape: Shape) -> Option<(Answer, [f64; 2])> {
    let stopped = |table: &&Measured| {
        SHAPES[table.shape] == shape && !table.flat && table.answer.word == Answer::STOPPED
    };
    let settings = Settings {
        limit: 100_000,
        credit: 1_000,
        ..Settings::DEFAULT
    };
    let found = tables.iter().filter(stopped);
    let table = found.max_by_key(|table| table.answer.rotations)?;
    let (answer, _) = once(table, &settings);
    let (full, plain) = (0..5).map(|_| once(table, &settings).1.into()).unzip();
    Some((answer, [full, plain].map(median)))
}
