//! The word of an accepted run, written a second time from the rule alone: `settled` where one entry of
//! the diagonal is left, `quiet` where more are left and every coupling among them is zero, `stopped`
//! else. The original has no word: it leaves a table and a range, and both are looked at here when its
//! run is over. And what the corner that a run leaves can be, for those who count what they met.

use crate::Report;
use crate::run::{Reply, Run};
use std::num::FpCategory;

/// +0 and -0, and nothing else: no NaN, no subnormal number.
pub fn zero(x: f64) -> bool {
    x.classify() == FpCategory::Zero
}

/// Where the couplings stand: below the diagonal, where there are more columns than rows, or else right
/// of it.
fn coupled(rows: usize, cols: usize, (i, j): (usize, usize)) -> bool {
    if cols > rows { i == j + 1 } else { j == i + 1 }
}

/// The entries of a table whose row and column are so, row by row.
fn entries(cols: usize, table: &[f64], such: impl Fn(usize, usize) -> bool) -> Vec<f64> {
    let places = (0..table.len()).filter(|at| such(at / cols, at % cols));
    places.map(|at| table[at]).collect()
}

/// The couplings inside the live corner: those among the first `range` rows and columns.
pub fn couplings(rows: usize, cols: usize, table: &[f64], range: usize) -> Vec<f64> {
    entries(cols, table, |i, j| {
        i.max(j) < range && coupled(rows, cols, (i, j))
    })
}

/// The word of a run that left this table and so much of the diagonal live.
pub fn word(rows: usize, cols: usize, table: &[f64], range: usize) -> u64 {
    if range == 1 {
        Report::SETTLED
    } else if couplings(rows, cols, table, range).into_iter().all(zero) {
        Report::QUIET
    } else {
        Report::STOPPED
    }
}

/// The live corner that a run leaves, more than one row and column of it, and what stands beside it.
#[derive(Clone, Debug)]
pub struct Corner {
    word: u64,
    limit: usize,
    range: usize,
    /// How large it was when the run began.
    card: usize,
    lower: bool,
    /// Its couplings and its diagonal.
    inside: Vec<f64>,
    diagonal: Vec<f64>,
    /// The entries inside it on the other side of the diagonal.
    across: Vec<f64>,
    /// Those inside it that are not on the diagonal and not beside it.
    tails: Vec<f64>,
    /// The couplings that do not lie inside it: that at its end and those behind.
    behind: Vec<f64>,
}

impl Corner {
    /// Of the reply to a run; none where it was refused before or has settled.
    pub fn of(run: &Run, reply: &Reply) -> Option<Corner> {
        let &Run { rows, cols, .. } = run;
        let (word, range) = (reply.report.word, reply.report.range as usize);
        if range < 2 {
            return None;
        }
        let limit = run.chosen()?.limit;
        let of = |such: &dyn Fn(usize, usize) -> bool| entries(cols, &reply.matrix, such);
        let card = rows.min(cols);
        let within = |i: usize, j: usize| i.max(j) < range;
        let beside = |i: usize, j: usize| coupled(rows, cols, (i, j));
        Some(Corner {
            word,
            limit,
            range,
            card,
            lower: cols > rows,
            inside: couplings(rows, cols, &reply.matrix, range),
            diagonal: of(&|i, j| i == j && i < range),
            across: of(&|i, j| within(i, j) && beside(j, i)),
            tails: of(&|i, j| within(i, j) && i.abs_diff(j) > 1),
            behind: of(&|i, j| i.max(j) < card && !within(i, j) && beside(i, j)),
        })
    }

    pub fn quiet(&self) -> bool {
        self.word == Report::QUIET
    }

    /// Stopped for one coupling alone: its place among the couplings inside, and what it is.
    pub fn miss(&self) -> Option<(usize, f64)> {
        let mut live = (0..).zip(&self.inside).filter(|(_, x)| !zero(**x));
        let (place, &x) = live.next()?;
        (self.word == Report::STOPPED && live.next().is_none()).then_some((place, x))
    }

    /// Stopped for one coupling alone, which is so.
    fn missed(&self, such: impl Fn(usize, f64) -> bool) -> bool {
        self.miss().is_some_and(|(place, x)| such(place, x))
    }

    fn last(&self) -> usize {
        self.inside.len() - 1
    }
}

fn minus(x: &f64) -> bool {
    zero(*x) && x.is_sign_negative()
}

fn live(x: &f64) -> bool {
    !zero(*x)
}

/// What such a corner can be, and which of them are so.
pub const COUNTS: [(&str, fn(&Corner) -> bool); 26] = [
    ("quiet, upper form", |corner| {
        corner.quiet() && !corner.lower
    }),
    ("quiet, lower form", |corner| corner.quiet() && corner.lower),
    ("quiet, range 2", |corner| {
        corner.quiet() && corner.range == 2
    }),
    ("quiet, range 3 and more", |corner| {
        corner.quiet() && corner.range > 2
    }),
    ("quiet, after a drop", |corner| {
        corner.quiet() && corner.range < corner.card
    }),
    ("quiet, limit 0", |corner| {
        corner.quiet() && corner.limit == 0
    }),
    ("quiet, a coupling of +0", |corner| {
        corner.quiet() && !corner.inside.iter().all(minus)
    }),
    ("quiet, a coupling of -0", |corner| {
        corner.quiet() && corner.inside.iter().any(minus)
    }),
    ("quiet, zeros on the diagonal alone", |corner| {
        corner.quiet() && !corner.diagonal.iter().any(live)
    }),
    ("quiet, no zero on the diagonal", |corner| {
        corner.quiet() && corner.diagonal.iter().all(live)
    }),
    ("quiet, a NaN or an infinity on the diagonal", |corner| {
        corner.quiet() && !corner.diagonal.iter().all(|x| x.is_finite())
    }),
    ("quiet, upper, across the diagonal not zero", |corner| {
        corner.quiet() && !corner.lower && corner.across.iter().any(live)
    }),
    ("quiet, lower, across the diagonal not zero", |corner| {
        corner.quiet() && corner.lower && corner.across.iter().any(live)
    }),
    ("quiet, a row tail not zero", |corner| {
        corner.quiet() && corner.tails.iter().any(live)
    }),
    ("quiet, the coupling at its end not zero", |corner| {
        corner.quiet() && corner.behind.first().is_some_and(live)
    }),
    ("quiet, a coupling behind its end not zero", |corner| {
        corner.quiet() && corner.behind.iter().skip(1).any(live)
    }),
    ("stopped for one coupling alone", |corner| {
        corner.miss().is_some()
    }),
    ("  upper form", |corner| corner.missed(|_, _| !corner.lower)),
    ("  lower form", |corner| corner.missed(|_, _| corner.lower)),
    ("  the only one", |corner| {
        corner.missed(|_, _| corner.range == 2)
    }),
    ("  the first of several", |corner| {
        corner.missed(|place, _| place == 0 && corner.range > 2)
    }),
    ("  the last of several", |corner| {
        corner.missed(|place, _| place == corner.last() && corner.range > 2)
    }),
    ("  one between", |corner| {
        corner.missed(|place, _| place > 0 && place < corner.last())
    }),
    ("  a subnormal number", |corner| {
        corner.missed(|_, x| x.is_subnormal())
    }),
    ("  a NaN", |corner| corner.missed(|_, x| x.is_nan())),
    ("  an infinity", |corner| {
        corner.missed(|_, x| x.is_infinite())
    }),
];
