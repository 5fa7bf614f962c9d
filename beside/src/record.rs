//! What a run is given besides its arguments (the credit and the floor, constants in the original)
//! and what it tells besides its matrices (the counts of the walk). One run at a time and thread.

use std::cell::Cell;

#[derive(Clone, Copy)]
pub struct Record {
    credit: usize,
    floor: f64,
    pub passes: u64,
    pub sweeps: u64,
    pub drops: u64,
    /// Calls of `implicit_givens_rotation`, and those of them whose first argument is 0.
    pub rotations: u64,
    pub zeros: u64,
    /// The range at each sweep, all of them added up, and that at the last one.
    pub ranges: u64,
    pub last: u64,
    /// The range when the walk ended; none where no walk was made.
    pub left: Option<usize>,
}

impl Record {
    const fn new(credit: usize, floor: f64) -> Record {
        Record {
            credit,
            floor,
            passes: 0,
            sweeps: 0,
            drops: 0,
            rotations: 0,
            zeros: 0,
            ranges: 0,
            last: 0,
            left: None,
        }
    }
}

thread_local! {
    static RECORD: Cell<Record> = const { Cell::new(Record::new(0, 0.0)) };
}

fn change(change: impl FnOnce(&mut Record)) {
    RECORD.with(|cell| {
        let mut record = cell.get();
        change(&mut record);
        cell.set(record);
    });
}

/// Starts a run.
pub fn begin(credit: usize, floor: f64) {
    RECORD.set(Record::new(credit, floor));
}

/// What the run has told so far.
pub fn end() -> Record {
    RECORD.get()
}

/// In the original `MAX_ITERS >> 1`.
pub fn credit() -> usize {
    RECORD.get().credit
}

/// In the original `EPSILON`.
pub fn floor() -> f64 {
    RECORD.get().floor
}

pub fn pass() {
    change(|record| record.passes += 1);
}

/// A sweep over the range begins. Its rotations count for themselves.
pub fn sweep(range: usize) {
    change(|record| {
        record.sweeps += 1;
        record.ranges += range as u64;
        record.last = range as u64;
    });
}

/// A rotation is computed, whatever it then turns: that of (a, b).
pub fn rotation(a: f64) {
    if cfg!(feature = "uncounted") {
        return;
    }
    change(|record| {
        record.rotations += 1;
        record.zeros += u64::from(a == 0.0);
    });
}

pub fn drop() {
    change(|record| record.drops += 1);
}

pub fn left(range: usize) {
    change(|record| record.left = Some(range));
}
