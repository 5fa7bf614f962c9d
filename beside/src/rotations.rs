//! How many rotations a run computes. The original's own calls of `implicit_givens_rotation` are counted
//! as they are made (record.rs). What the rule says of their number stands here a second time, from the
//! ranges at the sweeps, which are recorded by themselves; then what a run's rotations can be, for those
//! who count what they met, and what a slip would tell in place of their number.

use crate::run::{Reply, Run};
use crate::{Report, Walked};

/// No accepted run makes more: 2 x 47 in each of 100,000 + 46 x 1,000 passes.
pub const MOST: u64 = 2 * 47 * (100_000 + 46 * 1_000);

/// The rotations of a run, and what their number depends on.
#[derive(Clone, Copy, Debug)]
pub struct Turned {
    report: Report,
    walked: Walked,
    /// How many values there are.
    card: u64,
    lower: bool,
}

impl Turned {
    /// Of a reply to a run and what is recorded of the original's walk; none where no run was made.
    pub fn of(run: &Run, reply: &Reply, walked: Walked) -> Option<Turned> {
        let made = reply.report.word != 0;
        made.then(|| Turned {
            report: reply.report,
            walked,
            card: run.rows.min(run.cols) as u64,
            lower: run.cols > run.rows,
        })
    }

    /// What the report tells.
    pub fn many(&self) -> u64 {
        self.report.rotations
    }

    /// How many of them are of (0, b).
    pub fn zeros(&self) -> u64 {
        self.walked.zeros
    }

    /// Whether their number is what the rule says: 2 x (r - 1) in a sweep over r and none in a drop, and
    /// so never more than 2 x (c - 1) in a sweep.
    pub fn right(&self) -> bool {
        let sweeps = self.report.sweeps;
        let bound = 2 * (self.card - 1) * sweeps;
        self.many() == 2 * (self.walked.ranges - sweeps) && self.many() <= bound.min(MOST)
    }

    /// The sweeps are over more than one range.
    fn several(&self) -> bool {
        self.walked.ranges > self.walked.last * self.report.sweeps
    }
}

/// A thing that is told of a run's rotations, by name.
type Of<T> = (&'static str, fn(&Turned) -> T);

/// What the rotations of a run can be, and which of them are so.
pub const COUNTS: [Of<bool>; 12] = [
    ("no rotation", |turned| turned.many() == 0),
    ("no rotation, more than one value", |turned| {
        turned.many() == 0 && turned.card > 1
    }),
    ("no rotation, drops", |turned| {
        turned.many() == 0 && turned.report.drops > 0
    }),
    ("rotations, upper form", |turned| {
        turned.many() > 0 && !turned.lower
    }),
    ("rotations, lower form", |turned| {
        turned.many() > 0 && turned.lower
    }),
    ("rotations, and no drop", |turned| {
        turned.many() > 0 && turned.report.drops == 0
    }),
    ("rotations, and drops", |turned| {
        turned.many() > 0 && turned.report.drops > 0
    }),
    ("rotations over c alone, c above 2", |turned| {
        turned.many() > 0 && turned.card > 2 && turned.walked.last == turned.card
    }),
    ("rotations over more than one range", |turned| {
        turned.several()
    }),
    ("rotations, none of (0, b)", |turned| {
        turned.many() > 0 && turned.zeros() == 0
    }),
    ("rotations, some of (0, b)", |turned| {
        turned.zeros() > 0 && turned.zeros() < turned.many()
    }),
    ("rotations, all of (0, b)", |turned| {
        turned.zeros() > 0 && turned.zeros() == turned.many()
    }),
];

/// Numbers that a slip would tell. On some runs one of them is the right one all the same.
pub const SLIPS: [Of<u64>; 13] = [
    ("none", |_| 0),
    ("one more", |turned| turned.many() + 1),
    ("a drop counts one", |turned| {
        turned.many() + turned.report.drops
    }),
    ("a drop counts as a sweep over what it leaves", |turned| {
        // The ranges that the drops leave: from that at the end up to c - 1.
        let left = turned.report.range..turned.card;
        turned.many() + left.map(|range| 2 * (range - 1)).sum::<u64>()
    }),
    ("r - 1 in a sweep", |turned| turned.many() / 2),
    ("2 x r in a sweep", |turned| {
        turned.many() + 2 * turned.report.sweeps
    }),
    ("the last of each sweep left out", |turned| {
        turned.many() - turned.report.sweeps
    }),
    ("the steps of each sweep alone", |turned| {
        turned.many() - 2 * turned.report.sweeps
    }),
    ("U's turns again", |turned| turned.many() / 2 * 3),
    ("U's and V's turns again", |turned| 2 * turned.many()),
    ("the last sweep left out", |turned| {
        turned.many() - 2 * turned.walked.last.saturating_sub(1)
    }),
    ("those of (0, b) left out", |turned| {
        turned.many() - turned.zeros()
    }),
    ("every sweep over c", |turned| {
        2 * (turned.card - 1) * turned.report.sweeps
    }),
];

/// Rows, columns and readings.
pub type Table = (usize, usize, &'static [f64]);

/// Tables whose rotations every slip counts wrong, in the upper and in the lower form, with the default
/// settings. They settle after sweeps over four, three and two; some of their rotations are of (0, b).
pub const SHOWING: [Table; 2] = [
    (
        4,
        4,
        &[
            0.0, 0.0, 0.0, 0.0, 0.0, 3.0, 3.0, 0.0, 0.0, 0.0, 1.0, 1.0, 0.0, 0.0, 0.0, 3.0,
        ],
    ),
    (
        4,
        5,
        &[
            2.0, 0.0, 0.0, 0.0, 0.0, 1.0, 3.0, 0.0, 0.0, 0.0, 0.0, 1.0, 2.0, 0.0, 0.0, 0.0, 0.0,
            1.0, 3.0, 0.0,
        ],
    ),
];

/// Tables that make rotations and settle, with a value that is infinite: after them the ordered call
/// answers 13 with the run's count.
pub const INFINITE: [Table; 2] = [
    (
        4,
        3,
        &[
            2.0,
            1.0,
            0.0,
            1.0,
            3.0,
            0.0,
            0.0,
            0.0,
            f64::MAX,
            0.0,
            0.0,
            f64::MAX,
        ],
    ),
    (
        3,
        4,
        &[
            2.0,
            1.0,
            0.0,
            0.0,
            1.0,
            3.0,
            0.0,
            0.0,
            0.0,
            0.0,
            f64::MAX,
            -f64::MAX,
        ],
    ),
];

/// The numbers of the slips that are wrong for this run, each once, with the slip's name.
pub fn slips(turned: &Turned) -> Vec<(&'static str, u64)> {
    let mut wrong: Vec<(&str, u64)> = Vec::new();
    for (name, slip) in SLIPS {
        let many = slip(turned);
        if many != turned.many() && wrong.iter().all(|&(_, other)| other != many) {
            wrong.push((name, many));
        }
    }
    wrong
}
