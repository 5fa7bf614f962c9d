//! The proved singular value split of a survey's table of readings.
//!
//! Stations are the rows, passes are the columns. The split tells the roadway's own profile from the
//! fan's drift: U goes with the stations (row 4 of U is station 4), V with the passes.
//!
//! ```
//! use merotunki::{Instrument, Report, Table};
//!
//! let mut readings = [2.0, 0.0, 0.0, 1.0]; // 2 stations, 2 passes, station by station
//! let mut table = Table::new(&mut readings, 2, 2)?;
//! let (report, factors) = table.split_full_by(Instrument::Vane)?;
//! assert_eq!(report, Report::Settled { passes: 1, sweeps: 0, drops: 1, rotations: 0 });
//! assert_eq!(table.values().collect::<Vec<_>>(), [-2.0, 1.0]);
//! assert_eq!(factors.station(0), Some(&[-1.0, 0.0][..]));
//! assert_eq!(factors.station(2), None);
//! # Ok::<(), merotunki::Refusal>(())
//! ```
//!
//! [`Table::split_in_order_by`] puts the values in order of size, largest first.
//!
//! The surveyor picks the [`Instrument`], and the library has the settings for it. Where others are
//! wanted, each split is there with [`Settings`], too: [`Table::split`], [`Table::split_full`] and
//! [`Table::split_in_order`].
//!
//! Every check of sizes, lengths, settings and readings is the proved library's own; this crate asks
//! it and does no arithmetic. The library has no heap, no global state and no locks, so tables may be
//! split on several threads at once. It takes the thread's floating point to be as Rust has it: round
//! to nearest, subnormal numbers kept. Where the library that was linked lays its structs out otherwise
//! than this crate is written for ([`raw::LAYOUT`]), making settings or a table panics and says so.
#![deny(missing_docs, unsafe_code)]

mod answer;
mod instrument;
mod outcome;
#[allow(unsafe_code)]
pub mod raw;
mod settings;
mod table;

pub use instrument::Instrument;
pub use outcome::{Refusal, Report};
pub use settings::Settings;
pub use table::{Factors, Table, Unordered};

/// The most stations and the most passes that a table may have.
pub const MOST: usize = 48;

/// The double nearest to the root of `x`. -0, +0 and infinity stay; below zero and NaN give NaN.
///
/// ```
/// assert_eq!(merotunki::square_root(2.0).to_bits(), 0x3FF6_A09E_667F_3BCD);
/// assert!(merotunki::square_root(-1.0).is_nan());
/// ```
pub fn square_root(x: f64) -> f64 {
    raw::square_root(x)
}
