//! The settings of a split.

use crate::outcome::{Refusal, outcome};
use crate::raw::{self, Choice, ProfileAnswer};

/// Settings that the library allows: there are no others. They start as the defaults (limit 100, credit
/// 50, tolerance 1e-10, absolute 1e-12, floor 1e-21), and each change is checked, by name, so that no
/// two numbers can be confused. An app whose surveyors pick an [`Instrument`](crate::Instrument) needs
/// none.
///
/// ```
/// use merotunki::{Refusal, Settings};
///
/// let settings = Settings::default().with_limit(500)?.with_tolerance(1e-9)?;
/// assert_eq!((settings.limit(), settings.credit()), (500, 50));
/// assert_eq!(settings.with_limit(100_001), Err(Refusal::Count));
/// assert_eq!(settings.with_floor(0.0), Err(Refusal::Bound));
/// # Ok::<(), Refusal>(())
/// ```
#[derive(Clone, Copy, Debug, PartialEq)]
pub struct Settings(Choice);

impl Default for Settings {
    fn default() -> Self {
        Settings(raw::defaults())
    }
}

impl Settings {
    // The library checks the settings when it splits, so it is given a table of one zero to split.
    fn checked(choice: Choice) -> Result<Self, Refusal> {
        outcome(raw::svd(&mut [0.0], 1, 1, choice)).map(|_| Settings(choice))
    }

    // Those of a profile that there is.
    pub(crate) fn of_profile(profile: usize) -> Self {
        let ProfileAnswer { number, limit, credit, tolerance, absolute, floor } =
            raw::profile(profile);
        assert_eq!(number, 0, "an instrument has a profile");
        Settings(Choice { limit, credit, tolerance, absolute, floor })
    }

    /// With another limit, at most 100,000: the walk stops when its counter, one a pass, gets there.
    pub fn with_limit(self, limit: u64) -> Result<Self, Refusal> {
        Self::checked(Choice { limit, ..self.0 })
    }

    /// With another credit, at most 1,000: what a drop takes off the counter.
    pub fn with_credit(self, credit: u64) -> Result<Self, Refusal> {
        Self::checked(Choice { credit, ..self.0 })
    }

    /// With another tolerance, finite and not below zero: a coupling is negligible only below this
    /// share of its neighbours on the diagonal.
    pub fn with_tolerance(self, tolerance: f64) -> Result<Self, Refusal> {
        Self::checked(Choice { tolerance, ..self.0 })
    }

    /// With another absolute bound, finite and not below zero: a coupling is negligible only below
    /// it, too.
    pub fn with_absolute(self, absolute: f64) -> Result<Self, Refusal> {
        Self::checked(Choice { absolute, ..self.0 })
    }

    /// With another floor, finite and above zero: what is smaller is not reflected.
    pub fn with_floor(self, floor: f64) -> Result<Self, Refusal> {
        Self::checked(Choice { floor, ..self.0 })
    }

    /// The limit.
    pub fn limit(&self) -> u64 {
        self.0.limit
    }

    /// The credit.
    pub fn credit(&self) -> u64 {
        self.0.credit
    }

    /// The tolerance.
    pub fn tolerance(&self) -> f64 {
        self.0.tolerance
    }

    /// The absolute bound.
    pub fn absolute(&self) -> f64 {
        self.0.absolute
    }

    /// The floor.
    pub fn floor(&self) -> f64 {
        self.0.floor
    }

    pub(crate) fn choice(&self) -> Choice {
        self.0
    }
}
