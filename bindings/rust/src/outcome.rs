//! What a call comes to: a report or a refusal.

use crate::raw::Answer;
use std::fmt;

/// How a split's run ended. The passes are those of the method's walk, not the survey's; each is a
/// sweep or a drop. Rotations are what the sweeps compute: [`Report::rotations`] has them whatever the
/// word.
#[derive(Clone, Copy, Debug, PartialEq, Eq)]
#[allow(missing_docs)]
pub enum Report {
    /// Every coupling was found negligible. The answer is the same at every greater limit.
    Settled { passes: u64, sweeps: u64, drops: u64, rotations: u64 },
    /// The limit ran out before, and a coupling that is left is not 0. `range`, above 1, is how much of
    /// the diagonal was still live; tables near rank 1 often end so. Show the values with that in mind.
    Stopped { passes: u64, sweeps: u64, drops: u64, range: u64, rotations: u64 },
    /// The limit ran out before, and every coupling that is left is +0 or -0: nothing was left to work
    /// out, but the method's own test did not call it done. It is no failure, and not final: at a
    /// greater limit the answer can be another. A table of zeros ends so: show "Calm: no air moved at any
    /// station. There is nothing to split." Of another one show "Quiet: nothing is left to work out, but
    /// the values are not final."
    Quiet { passes: u64, sweeps: u64, drops: u64, range: u64, rotations: u64 },
}

impl Report {
    /// Rotations computed by the sweeps: 2 x (r - 1) by a sweep over a range of r values, none by a drop.
    /// A call's time goes with them rather than with its passes. One counts once, with U and V or without. At
    /// most 2 x (c - 1) x sweeps, c being the smaller of the survey's stations and passes; never above
    /// 13,724,000.
    ///
    /// ```
    /// use merotunki::{Refusal, Settings, Table};
    ///
    /// let mut calm = [0.0; 48 * 48];
    /// let report = Table::new(&mut calm, 48, 48)?.split(&Settings::default())?;
    /// assert_eq!(report.rotations(), 2 * 47 * 100); // 100 sweeps over all of the 48 values
    /// # Ok::<(), Refusal>(())
    /// ```
    pub fn rotations(&self) -> u64 {
        let (Report::Settled { rotations, .. }
        | Report::Stopped { rotations, .. }
        | Report::Quiet { rotations, .. }) = *self;
        rotations
    }
}

impl fmt::Display for Report {
    fn fmt(&self, f: &mut fmt::Formatter<'_>) -> fmt::Result {
        match self {
            Report::Settled { passes, .. } => write!(f, "settled, passes {passes}"),
            Report::Stopped { passes, range, .. } => {
                write!(f, "stopped, passes {passes}, range left {range}")
            }
            Report::Quiet { passes, range, .. } => {
                write!(f, "quiet, passes {passes}, range left {range}")
            }
        }
    }
}

/// Why a call was refused, first reason first. Nothing has been written then, but for `NotSettled` and
/// `Value`, which the splits in order alone give ([`Table::split_in_order`](crate::Table::split_in_order)
/// and that by instrument), after the run.
///
/// ```
/// use merotunki::{Refusal, Settings, Table};
///
/// let mut readings = [1.5, 2.0, f64::NAN, f64::INFINITY];
/// let refusal = Table::new(&mut readings, 2, 2)?.split(&Settings::default()).unwrap_err();
/// assert_eq!(refusal, Refusal::Reading { station: 1, pass: 0, bad: 2 });
/// assert_eq!(refusal.number(), 8);
/// assert_eq!(refusal.to_string(), "Station 1, pass 0: no usable reading, and 1 more.");
/// # Ok::<(), Refusal>(())
/// ```
#[derive(Clone, Copy, Debug, PartialEq, Eq)]
pub enum Refusal {
    /// 1: no stations or no passes.
    Empty,
    /// 2: more than 48 stations or passes.
    Large,
    /// 3: the number of readings is not stations times passes.
    Length,
    /// 4: U is for another number of stations. A [`Table`](crate::Table) never gives it, since it makes
    /// U itself; it stands here as the library's number.
    Stations,
    /// 5: V is for another number of passes. A [`Table`](crate::Table) never gives it either.
    Passes,
    /// 11: the list of values has not as many entries as there are values, the smaller of stations and
    /// passes.
    List,
    /// 6: a limit above 100,000 or a credit above 1,000.
    Count,
    /// 7: a tolerance, absolute bound or floor that is not allowed.
    Bound,
    /// 10: there is no such profile. Only calls by profile number have it, in the place of 6 and 7. A
    /// [`Table`](crate::Table) never gives it, since every [`Instrument`](crate::Instrument) has a
    /// profile; it stands here as the library's number.
    Profile,
    /// 8: a reading that is infinite or NaN. Station and pass, counted from 0, are those of the first
    /// such one, station by station.
    Reading {
        /// Its station.
        station: usize,
        /// Its pass.
        pass: usize,
        /// How many such readings the whole table has, this one too.
        bad: usize,
    },
    /// 12: the run did not settle, so that its values are not final. It stopped or is quiet, as its
    /// [`Report`] says.
    NotSettled,
    /// 13: the run settled, and a value is infinite or NaN.
    Value,
}

// Every number but that of `Reading`, with its text.
const PLAIN: [(u64, Refusal, &str); 11] = [
    (1, Refusal::Empty, "The table has no stations or no passes."),
    (2, Refusal::Large, "The table has more than 48 stations or more than 48 passes."),
    (3, Refusal::Length, "The readings do not fill the table's stations and passes."),
    (4, Refusal::Stations, "The factors are for a table with another number of stations."),
    (5, Refusal::Passes, "The factors are for a table with another number of passes."),
    (11, Refusal::List, "The list of values is for a table with another number of values."),
    (6, Refusal::Count, "The limit is above 100000 or the credit is above 1000."),
    (7, Refusal::Bound, "A bound is below zero or no number, or the floor is not above zero."),
    (10, Refusal::Profile, "There is no such profile."),
    (12, Refusal::NotSettled, "The run did not settle: its values are not final."),
    (13, Refusal::Value, "A value of the split is not a usable number."),
];

impl Refusal {
    // Its row of `PLAIN`; none where it is a `Reading`.
    fn plain(&self) -> Option<&'static (u64, Refusal, &'static str)> {
        PLAIN.iter().find(|(_, refusal, _)| refusal == self)
    }

    /// The library's number for it: 1 to 8, 10 to 13.
    pub fn number(&self) -> u64 {
        self.plain().map_or(8, |(number, ..)| *number)
    }

    // Whether it came after the run.
    pub(crate) fn after_run(&self) -> bool {
        matches!(self, Refusal::NotSettled | Refusal::Value)
    }
}

impl fmt::Display for Refusal {
    fn fmt(&self, f: &mut fmt::Formatter<'_>) -> fmt::Result {
        match self {
            Refusal::Reading { station, pass, bad } => {
                write!(f, "Station {station}, pass {pass}: no usable reading")?;
                if *bad > 1 {
                    write!(f, ", and {} more", bad - 1)?;
                }
                f.write_str(".")
            }
            other => other.plain().map_or(Ok(()), |(.., text)| f.write_str(text)),
        }
    }
}

impl std::error::Error for Refusal {}

// The report of an answer to a run. The library has no other words than these three then.
pub(crate) fn report(answer: Answer) -> Report {
    let Answer { word, passes, sweeps, drops, range, rotations, .. } = answer;
    match word {
        Answer::SETTLED => Report::Settled { passes, sweeps, drops, rotations },
        Answer::STOPPED => Report::Stopped { passes, sweeps, drops, range, rotations },
        Answer::QUIET => Report::Quiet { passes, sweeps, drops, range, rotations },
        other => unreachable!("the library has no word {other} for a run"),
    }
}

// What the answer says. The library has no other numbers than 0, 8 and those of `PLAIN`.
pub(crate) fn outcome(answer: Answer) -> Result<Report, Refusal> {
    let Answer { number, row, column, bad, .. } = answer;
    match PLAIN.iter().find(|(listed, ..)| *listed == number) {
        Some((_, refusal, _)) => Err(*refusal),
        None if number == 0 => Ok(report(answer)),
        None => Err(Refusal::Reading {
            station: row as usize,
            pass: column as usize,
            bad: bad as usize,
        }),
    }
}

#[cfg(test)]
mod tests {
    use super::*;

    // Each word has its report, and a word that there is not is taken for none of them.
    #[test]
    fn words() {
        let told =
            |word| report(Answer { word, passes: 4, range: 2, rotations: 6, ..Answer::default() });
        let said = |word| told(word).to_string();
        assert_eq!(said(Answer::SETTLED), "settled, passes 4");
        assert_eq!(said(Answer::STOPPED), "stopped, passes 4, range left 2");
        assert_eq!(said(Answer::QUIET), "quiet, passes 4, range left 2");
        for word in [Answer::SETTLED, Answer::STOPPED, Answer::QUIET] {
            assert_eq!(told(word).rotations(), 6);
        }
        for word in [0, 4, u64::MAX] {
            assert!(std::panic::catch_unwind(|| said(word)).is_err());
        }
    }
}
