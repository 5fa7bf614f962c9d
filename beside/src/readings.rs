//! Bad readings, those that are infinite or NaN: what is told of a table that has some, written from the
//! rule alone; how they are drawn; and what tables with bad readings can be.

use crate::cases::Draw;

/// The station (row) and the pass (column) of the first bad reading, row by row and from 0, and how many
/// there are.
#[derive(Clone, Copy, Debug, PartialEq, Eq)]
pub struct Bad {
    pub row: u64,
    pub column: u64,
    pub many: u64,
}

/// Row and column of every bad reading, row by row. There is at least one column.
fn places(cols: usize, readings: &[f64]) -> Vec<(u64, u64)> {
    let mut places = Vec::new();
    for (row, station) in (0..).zip(readings.chunks(cols)) {
        for (column, reading) in (0..).zip(station) {
            if !reading.is_finite() {
                places.push((row, column));
            }
        }
    }
    places
}

/// What is told of a table with bad readings; none where all are good.
pub fn bad(cols: usize, readings: &[f64]) -> Option<Bad> {
    let places = places(cols, readings);
    let &(row, column) = places.first()?;
    let many = places.len() as u64;
    Some(Bad { row, column, many })
}

/// The infinities, and NaNs of unlike bits.
const PATTERNS: [u64; 6] = [
    0x7FF0_0000_0000_0000,
    0xFFF0_0000_0000_0000,
    0x7FF8_0000_0000_0000,
    0xFFF8_0000_0000_0001,
    0x7FF0_0000_0000_0001,
    0xFFFF_FFFF_FFFF_FFFF,
];

/// The readings with every choice of them made bad, at least one: each by itself, any two, and so on up
/// to all. Each place has a pattern of its own.
pub(crate) fn every_choice(readings: &[f64]) -> impl Iterator<Item = Vec<f64>> {
    let made = |choice: u64| {
        let mut list = readings.to_vec();
        for (at, &bits) in (0..list.len()).zip(PATTERNS.iter().cycle()) {
            if choice >> at & 1 == 1 {
                list[at] = f64::from_bits(bits);
            }
        }
        list
    };
    (1..1 << readings.len()).map(made)
}

/// Any bits of a NaN.
pub(crate) fn nan(draw: &mut Draw) -> f64 {
    f64::from_bits(draw.bits() & 0x800F_FFFF_FFFF_FFFF | 0x7FF0_0000_0000_0001)
}

/// A bad reading of the kind: an infinity, the usual NaN, any NaN, or one of these.
fn reading(draw: &mut Draw, kind: u64) -> f64 {
    match kind {
        0 => f64::INFINITY,
        1 => f64::NEG_INFINITY,
        2 => f64::NAN,
        3 => nan(draw),
        _ => {
            let kind = draw.below(4);
            reading(draw, kind)
        }
    }
}

/// Makes readings bad: one, two, some or all of them, or some in the last row or column alone. In half
/// of the tables they are of one kind.
pub(crate) fn spoil(draw: &mut Draw, cols: usize, readings: &mut [f64]) {
    let Some(last) = readings.len().checked_sub(1) else {
        return;
    };
    let cols = cols.clamp(1, readings.len());
    let any = |draw: &mut Draw| draw.below(last as u64 + 1) as usize;
    let one_in = |draw: &mut Draw, many: u64, such: &dyn Fn(usize) -> bool| -> Vec<usize> {
        let chosen = |at: &usize| such(*at) && draw.below(many) == 0;
        (0..=last).filter(chosen).collect()
    };
    let mut chosen = match draw.below(8) {
        0 | 1 => vec![any(draw)],
        2 => vec![any(draw), any(draw)],
        3 => one_in(draw, 8, &|_| true),
        4 => one_in(draw, 2, &|_| true),
        5 => one_in(draw, 1, &|_| true),
        6 => one_in(draw, 2, &|at| at + cols > last),
        _ => one_in(draw, 2, &|at| (last - at) % cols == 0),
    };
    if chosen.is_empty() {
        chosen.push(last);
    }
    let kind = draw.below(8);
    for at in chosen {
        readings[at] = reading(draw, kind);
    }
}

/// The bad readings of a table: their rows and columns, and what they are.
#[derive(Clone, Debug)]
pub struct Seen {
    rows: u64,
    cols: u64,
    places: Vec<(u64, u64)>,
    bad: Vec<f64>,
}

impl Seen {
    /// Of a table that is `rows` x `cols`.
    pub fn of(rows: usize, cols: usize, readings: &[f64]) -> Seen {
        let bad = readings.iter().copied().filter(|x| !x.is_finite());
        Seen {
            rows: rows as u64,
            cols: cols as u64,
            places: places(cols, readings),
            bad: bad.collect(),
        }
    }

    fn several(&self) -> bool {
        self.places.len() > 1
    }

    fn nans(&self) -> impl Iterator<Item = &f64> {
        self.bad.iter().filter(|x| x.is_nan())
    }
}

/// What a table with bad readings can be, and which of them are so.
pub const COUNTS: [(&str, fn(&Seen) -> bool); 12] = [
    ("one bad reading", |seen| !seen.several()),
    ("more than one", |seen| seen.several()),
    ("in unlike rows and unlike columns", |seen| {
        let (rows, columns): (Vec<u64>, Vec<u64>) = seen.places.iter().copied().unzip();
        let unlike = |list: Vec<u64>| list.iter().any(|at| *at != list[0]);
        unlike(rows) && unlike(columns)
    }),
    ("all of several", |seen| {
        seen.several() && seen.places.len() as u64 == seen.rows * seen.cols
    }),
    ("in the last of several rows alone", |seen| {
        let last = |place: &(u64, u64)| place.0 + 1 == seen.rows;
        seen.rows > 1 && seen.places.iter().all(last)
    }),
    ("in the last of several columns alone", |seen| {
        let last = |place: &(u64, u64)| place.1 + 1 == seen.cols;
        seen.cols > 1 && seen.places.iter().all(last)
    }),
    ("none in the first row and the first column", |seen| {
        seen.places.iter().all(|place| place.0 > 0 && place.1 > 0)
    }),
    ("+infinity alone", |seen| {
        seen.bad.iter().all(|x| *x == f64::INFINITY)
    }),
    ("-infinity alone", |seen| {
        seen.bad.iter().all(|x| *x == f64::NEG_INFINITY)
    }),
    ("NaNs alone", |seen| seen.nans().count() == seen.bad.len()),
    ("NaNs of unlike bits", |seen| {
        let mut nans = seen.nans();
        let first = nans.next().map(|x| x.to_bits());
        nans.any(|x| Some(x.to_bits()) != first)
    }),
    ("infinities of both signs and NaNs", |seen| {
        let has = |x: f64| seen.bad.contains(&x);
        has(f64::INFINITY) && has(f64::NEG_INFINITY) && seen.nans().next().is_some()
    }),
];
