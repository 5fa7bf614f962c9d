//! Drawn tables under each of the four profiles: how each run ended, how much it worked, and how exact it is. The
//! program `profiles` prints what comes of them.

use crate::order::diagonal;
use crate::profiles::PROFILES;
use crate::reference::{off, values};
use crate::run::identity;
use crate::strongest::Strongest;
use crate::tables::{Kind, Shape, drawn};
use crate::{Report, run};

/// A run of one table under one profile.
#[derive(Clone, Copy, Debug)]
pub struct Run {
    pub report: Report,
    /// How far its values are from the reference's, as a part of the largest; where it settled.
    pub off: Option<f64>,
    pub strongest: Strongest,
}

impl Run {
    pub fn settled(&self) -> bool {
        self.report.word == Report::SETTLED
    }
}

/// The runs of one table, U and V from the identity, by profile.
pub fn of_table(readings: &[f64], cols: usize) -> [Run; 4] {
    let rows = readings.len() / cols;
    let mut exact = None;
    PROFILES.map(|(_, settings)| {
        let (mut matrix, mut u, mut v) = (readings.to_vec(), identity(rows), identity(cols));
        let lent = Some((&mut u[..], &mut v[..]));
        let report = run(rows, cols, &mut matrix, lent, &settings);
        let settled = report.word == Report::SETTLED;
        let mut distance = || {
            let exact = exact.get_or_insert_with(|| values(rows, cols, readings));
            off(&diagonal(rows, cols, &matrix), exact)
        };
        Run {
            report,
            off: settled.then(&mut distance),
            strongest: Strongest::of(readings, &matrix, (&u, &v), (rows, cols)),
        }
    })
}

/// The runs of the drawn tables of a kind and shape.
pub fn of_kind((_, table): Kind, shape: Shape, draws: usize) -> impl Iterator<Item = [Run; 4]> {
    drawn(table, shape, draws).map(move |readings| of_table(&readings, shape.1))
}
