//! The instruments of a survey, each with a profile of its own in the library.

use crate::settings::Settings;
use std::fmt;

/// The instrument that the readings were taken with. The surveyor picks it, and the split is made with
/// the settings that the library has for it: nobody sees tolerances. A wrong profile number cannot be
/// written. All have the default floor, 1e-21.
///
/// ```
/// use merotunki::{Instrument, Refusal, Report, Settings, Table};
///
/// let mut readings = [3.0, 4.0]; // 2 stations, 1 pass
/// let report = Table::new(&mut readings, 2, 1)?.split_by(Instrument::HotWire)?;
/// assert_eq!(report, Report::Settled { passes: 0, sweeps: 0, drops: 0, rotations: 0 });
/// assert_eq!(Instrument::HotWire.settings().limit(), 200);
/// assert_eq!(Instrument::Vane.settings(), Settings::default());
/// let names: Vec<&str> = Instrument::ALL.iter().map(|instrument| instrument.name()).collect();
/// assert_eq!(names, ["vane", "hot wire", "ultrasonic", "smoke tube"]);
/// # Ok::<(), Refusal>(())
/// ```
#[derive(Clone, Copy, Debug, PartialEq, Eq, Hash)]
pub enum Instrument {
    /// Limit 100, credit 50, tolerance 1e-10, absolute 1e-12: the default settings. At most 2,400 passes
    /// and 225,600 rotations in a table of 48 x 48.
    Vane = 1,
    /// Limit 200, credit 50, tolerance 1e-12, absolute 1e-13. At most 2,500 passes and 235,000 rotations.
    HotWire = 2,
    /// Limit 400, credit 100, tolerance 1e-13, absolute 1e-14. At most 5,000 passes and 470,000 rotations.
    Ultrasonic = 3,
    /// Limit 50, credit 25, tolerance 1e-6, absolute 1e-8. At most 1,200 passes and 112,800 rotations.
    SmokeTube = 4,
}

impl Instrument {
    /// All of them, by their numbers.
    pub const ALL: [Instrument; 4] =
        [Instrument::Vane, Instrument::HotWire, Instrument::Ultrasonic, Instrument::SmokeTube];

    /// The number of its profile: 1 to 4.
    pub fn number(self) -> usize {
        self as usize
    }

    /// What it is called: `vane`, `hot wire`, `ultrasonic`, `smoke tube`.
    pub fn name(self) -> &'static str {
        match self {
            Instrument::Vane => "vane",
            Instrument::HotWire => "hot wire",
            Instrument::Ultrasonic => "ultrasonic",
            Instrument::SmokeTube => "smoke tube",
        }
    }

    /// The library's own settings for it. A split by the instrument is the split with these.
    pub fn settings(self) -> Settings {
        Settings::of_profile(self.number())
    }
}

/// Its name.
impl fmt::Display for Instrument {
    fn fmt(&self, f: &mut fmt::Formatter<'_>) -> fmt::Result {
        f.write_str(self.name())
    }
}
