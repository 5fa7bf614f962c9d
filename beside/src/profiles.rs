//! The four profiles, one for each instrument: profile number n, from 1 on, is entry n - 1.

use crate::Settings;

const fn settings(limit: usize, credit: usize, tolerance: f64, absolute: f64) -> Settings {
    Settings {
        limit,
        credit,
        tolerance,
        absolute,
        floor: 1e-21,
    }
}

pub const PROFILES: [(&str, Settings); 4] = [
    ("vane", settings(100, 50, 1e-10, 1e-12)),
    ("hot wire", settings(200, 50, 1e-12, 1e-13)),
    ("ultrasonic", settings(400, 100, 1e-13, 1e-14)),
    ("smoke tube", settings(50, 25, 1e-6, 1e-8)),
];

/// The name and the settings of the profile of this number, if there is one.
pub fn profile(number: usize) -> Option<(&'static str, Settings)> {
    PROFILES.get(number.checked_sub(1)?).copied()
}
