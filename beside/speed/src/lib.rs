//! What both measures hand to the library.

use beside::Settings;
use merotunki::raw;

/// The identity of a size, row by row.
pub fn identity(size: usize) -> Vec<f64> {
    let entry = |at: usize| f64::from(at.is_multiple_of(size + 1));
    (0..size * size).map(entry).collect()
}

/// The settings as the library's crate takes them.
pub fn choice(s: &Settings) -> raw::Choice {
    raw::Choice {
        limit: s.limit as u64,
        credit: s.credit as u64,
        tolerance: s.tolerance,
        absolute: s.absolute,
        floor: s.floor,
    }
}
