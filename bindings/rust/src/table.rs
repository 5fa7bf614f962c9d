//! A table of readings, and U and V.

use crate::instrument::Instrument;
use crate::outcome::{Refusal, Report, outcome, report};
use crate::raw::{self, Answer, Choice};
use crate::settings::Settings;
use std::fmt;

/// A table of readings with its sizes, checked when it is made: 1 to 48 stations, 1 to 48 passes, and
/// as many readings as that. It borrows the readings, since the app already holds them: nothing is
/// copied, and a split writes its result where they stood. Keep a copy where they are still wanted.
///
/// ```
/// use merotunki::{Instrument, Refusal, Report, Table};
///
/// let mut readings = [3.0, 4.0]; // 2 stations, 1 pass
/// let report = Table::new(&mut readings, 2, 1)?.split_by(Instrument::Vane)?;
/// assert_eq!(report, Report::Settled { passes: 0, sweeps: 0, drops: 0, rotations: 0 });
/// assert_eq!(readings, [-5.0, 0.0]);
/// assert_eq!(Table::new(&mut readings, 2, 2).unwrap_err(), Refusal::Length);
/// # Ok::<(), Refusal>(())
/// ```
#[derive(Debug)]
pub struct Table<'a> {
    entries: &'a mut [f64],
    stations: usize,
    passes: usize,
}

impl<'a> Table<'a> {
    /// The table of these readings, station by station: that of station i in pass j stands at
    /// `i * passes + j`. Refuses unfit sizes and lengths; a split looks at the readings.
    pub fn new(readings: &'a mut [f64], stations: usize, passes: usize) -> Result<Self, Refusal> {
        // The library checks sizes and length before the limit. With a limit that it refuses, `Count`
        // says that they are fit, and nothing is written.
        let unfit = Choice { limit: u64::MAX, ..raw::defaults() };
        match outcome(raw::svd(readings, stations, passes, unfit)) {
            Err(Refusal::Count) => Ok(Table { entries: readings, stations, passes }),
            Err(refusal) => Err(refusal),
            Ok(_) => unreachable!("a limit above 100,000 is refused"),
        }
    }

    /// Splits the table where it stands. Refuses only `Reading`.
    pub fn split(&mut self, settings: &Settings) -> Result<Report, Refusal> {
        outcome(raw::svd(self.entries, self.stations, self.passes, settings.choice()))
    }

    /// Splits the table where it stands, by instrument: [`Table::split`] with the instrument's settings.
    pub fn split_by(&mut self, instrument: Instrument) -> Result<Report, Refusal> {
        outcome(raw::profile_svd(self.entries, self.stations, self.passes, instrument.number()))
    }

    /// Splits the table where it stands and hands out U and V; table and report are those of
    /// [`Table::split`]. Refuses only `Reading`, and then hands out nothing.
    ///
    /// The factors are new ones for each split, begun as the library's identity. To multiply on from
    /// factors of one's own there is [`raw::full_svd`] alone.
    ///
    /// ```
    /// use merotunki::{Refusal, Settings, Table};
    ///
    /// let mut readings = [3.0, 4.0]; // 2 stations, 1 pass
    /// let mut table = Table::new(&mut readings, 2, 1)?;
    /// let (_, factors) = table.split_full(&Settings::default())?;
    /// assert_eq!(table.entries(), [-5.0, 0.0]);
    /// let u: Vec<f64> = factors.over_stations(0).unwrap().collect();
    /// assert!((u[0] + 0.6).abs() < 1e-15 && (u[1] + 0.8).abs() < 1e-15);
    /// # Ok::<(), Refusal>(())
    /// ```
    pub fn split_full(&mut self, settings: &Settings) -> Result<(Report, Factors), Refusal> {
        let (stations, passes) = (self.stations, self.passes);
        let mut factors = Factors::begun(stations, passes);
        let answer =
            raw::full_svd(self.entries, factors.lent(), stations, passes, settings.choice());
        outcome(answer).map(|report| (report, factors))
    }

    /// The split with U and V by instrument: [`Table::split_full`] with the instrument's settings.
    ///
    /// ```
    /// use merotunki::{Instrument, Refusal, Table};
    ///
    /// let split = |instrument: Instrument| -> Result<String, Refusal> {
    ///     let mut readings = [1.0, 1e-9, 0.0, 1.0]; // 2 stations, 2 passes
    ///     let (report, _) = Table::new(&mut readings, 2, 2)?.split_full_by(instrument)?;
    ///     Ok(format!("{instrument}: {report}, rotations {}", report.rotations()))
    /// };
    /// assert_eq!(split(Instrument::Vane)?, "vane: settled, passes 2, rotations 2");
    /// assert_eq!(split(Instrument::SmokeTube)?, "smoke tube: settled, passes 1, rotations 0");
    /// # Ok::<(), Refusal>(())
    /// ```
    pub fn split_full_by(&mut self, instrument: Instrument) -> Result<(Report, Factors), Refusal> {
        let (stations, passes, profile) = (self.stations, self.passes, instrument.number());
        let mut factors = Factors::begun(stations, passes);
        let answer = raw::profile_full_svd(self.entries, factors.lent(), stations, passes, profile);
        outcome(answer).map(|report| (report, factors))
    }

    /// Splits the table where it stands, as [`Table::split_full`] does, and puts the values in order
    /// of size. `values`, with as many entries as there are values (the smaller of stations and
    /// passes), then holds their magnitudes, largest first, equal ones in the order of the diagonal.
    /// Column k of U and column k of V go with `values[k]`; where the value was below zero or -0, its
    /// column of U is negated. The table is left as [`Table::split_full`] leaves it, so
    /// [`Table::values`] still has the diagonal, in no order and of either sign.
    ///
    /// Refuses `List` and `Reading`, and then nothing has been written. After the run it refuses
    /// `NotSettled` and `Value`: then `values` is as it was, the table is as the run leaves it, and
    /// [`Unordered::run`] has the run's report, U and V.
    ///
    /// ```
    /// use merotunki::{Refusal, Report, Settings, Table};
    ///
    /// let mut readings = [1.0, 0.0, 0.0, 2.0]; // 2 stations, 2 passes
    /// let mut table = Table::new(&mut readings, 2, 2)?;
    /// let mut values = [0.0; 2];
    /// let (_, factors) = table.split_in_order(&mut values, &Settings::default())?;
    /// assert_eq!(values, [2.0, 1.0]);
    /// assert_eq!(factors.over_stations(0).unwrap().collect::<Vec<_>>(), [0.0, 1.0]);
    /// assert_eq!(table.values().collect::<Vec<_>>(), [-1.0, 2.0]);
    ///
    /// let mut zeros = [0.0; 4];
    /// let mut table = Table::new(&mut zeros, 2, 2)?;
    /// let unordered = table.split_in_order(&mut values, &Settings::default()).unwrap_err();
    /// assert_eq!(unordered.refusal, Refusal::NotSettled);
    /// assert!(matches!(unordered.run, Some((Report::Quiet { range: 2, .. }, _))));
    /// # Ok::<(), Refusal>(())
    /// ```
    #[allow(clippy::result_large_err)] // what is handed out where it is accepted is as large
    pub fn split_in_order(
        &mut self,
        values: &mut [f64],
        settings: &Settings,
    ) -> Result<(Report, Factors), Unordered> {
        let (stations, passes, choice) = (self.stations, self.passes, settings.choice());
        let mut factors = Factors::begun(stations, passes);
        let answer =
            raw::ordered_svd(self.entries, factors.lent(), values, stations, passes, choice);
        ordered(answer, factors)
    }

    /// The split in order by instrument: [`Table::split_in_order`] with the instrument's settings.
    ///
    /// ```
    /// use merotunki::{Instrument, Refusal, Table};
    ///
    /// let mut readings = [1.0, 0.0, 0.0, 2.0]; // 2 stations, 2 passes
    /// let mut table = Table::new(&mut readings, 2, 2)?;
    /// let mut values = [0.0; 2];
    /// let (_, factors) = table.split_in_order_by(&mut values, Instrument::Ultrasonic)?;
    /// assert_eq!(values, [2.0, 1.0]);
    /// assert_eq!(factors.over_stations(0).unwrap().collect::<Vec<_>>(), [0.0, 1.0]);
    /// # Ok::<(), Refusal>(())
    /// ```
    #[allow(clippy::result_large_err)] // as above
    pub fn split_in_order_by(
        &mut self,
        values: &mut [f64],
        instrument: Instrument,
    ) -> Result<(Report, Factors), Unordered> {
        let (stations, passes, profile) = (self.stations, self.passes, instrument.number());
        let mut factors = Factors::begun(stations, passes);
        let lent = factors.lent();
        let answer =
            raw::profile_ordered_svd(self.entries, lent, values, stations, passes, profile);
        ordered(answer, factors)
    }

    /// The values, as the method leaves them on the diagonal: in no order and of either sign.
    pub fn values(&self) -> impl Iterator<Item = f64> {
        self.entries.iter().step_by(self.passes + 1).copied().take(self.stations.min(self.passes))
    }

    /// All entries, station by station.
    pub fn entries(&self) -> &[f64] {
        self.entries
    }
}

// What the answer of an ordered call says, with the U and V that it was lent.
#[allow(clippy::result_large_err)] // as above
fn ordered(answer: Answer, factors: Factors) -> Result<(Report, Factors), Unordered> {
    match outcome(answer) {
        Ok(report) => Ok((report, factors)),
        Err(refusal) => {
            let run = refusal.after_run().then(|| (report(answer), factors));
            Err(Unordered { refusal, run })
        }
    }
}

// The library's identity of that many rows.
fn identity(n: usize) -> Vec<f64> {
    let mut a = vec![0.0; n * n];
    assert_eq!(raw::identity(&mut a, n), 0, "a table's sizes are fit");
    a
}

/// Why [`Table::split_in_order`] or [`Table::split_in_order_by`] put no values in order.
#[derive(Clone, Debug, PartialEq)]
pub struct Unordered {
    /// The refusal.
    pub refusal: Refusal,
    /// With `NotSettled` and `Value`, which come after the run, what [`Table::split_full`] would have
    /// handed out: the report, U and V. None with the others.
    pub run: Option<(Report, Factors)>,
}

impl fmt::Display for Unordered {
    fn fmt(&self, f: &mut fmt::Formatter<'_>) -> fmt::Result {
        self.refusal.fmt(f)
    }
}

impl std::error::Error for Unordered {}

impl From<Unordered> for Refusal {
    fn from(unordered: Unordered) -> Self {
        unordered.refusal
    }
}

/// U (stations x stations) and V (passes x passes) of one split. They cannot be made otherwise nor
/// changed. As [`Table::split_full`] hands them out, the readings were U x entries x (V transposed),
/// but for rounding; as [`Table::split_in_order`] does, their columns have moved with the values. The
/// splits by instrument are the same.
///
/// A station's row of U and a pass's row of V are [`Factors::station`] and [`Factors::pass`]. What
/// belongs to value k are the columns k: [`Factors::over_stations`] and [`Factors::over_passes`].
#[derive(Clone, Debug, PartialEq)]
pub struct Factors {
    u: Vec<f64>,
    v: Vec<f64>,
    stations: usize,
    passes: usize,
}

impl Factors {
    // As they are before a split: the library's identities.
    fn begun(stations: usize, passes: usize) -> Self {
        Factors { u: identity(stations), v: identity(passes), stations, passes }
    }

    fn lent(&mut self) -> (&mut [f64], &mut [f64]) {
        (&mut self.u, &mut self.v)
    }

    fn row(&self, side: usize, row: usize) -> Option<&[f64]> {
        let part = raw::row(&self.u, &self.v, self.stations, self.passes, side, row);
        let from = if side == 0 { &self.u } else { &self.v };
        if part.length == 0 {
            None
        } else {
            from.get(part.start as usize..(part.start + part.length) as usize)
        }
    }

    /// Row `station` of U; none where there is no such station.
    pub fn station(&self, station: usize) -> Option<&[f64]> {
        self.row(0, station)
    }

    /// Row `pass` of V; none where there is no such pass.
    pub fn pass(&self, pass: usize) -> Option<&[f64]> {
        self.row(1, pass)
    }

    /// Column `k` of U, one entry for each station: times value k and the mean of
    /// [`Factors::over_passes`] it is the profile that value k holds. None where U has no such column;
    /// U has as many as there are stations, and those past the values belong to none.
    pub fn over_stations(&self, k: usize) -> Option<impl ExactSizeIterator<Item = f64> + Clone> {
        column(&self.u, self.stations, k)
    }

    /// Column `k` of V, one entry for each pass: against its mean it is the drift that value k holds.
    /// None where V has no such column.
    pub fn over_passes(&self, k: usize) -> Option<impl ExactSizeIterator<Item = f64> + Clone> {
        column(&self.v, self.passes, k)
    }
}

// Column k of a square of n rows.
fn column(a: &[f64], n: usize, k: usize) -> Option<impl ExactSizeIterator<Item = f64> + Clone> {
    (k < n).then(|| a[k..].iter().step_by(n).copied())
}
