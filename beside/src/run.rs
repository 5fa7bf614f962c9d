//! One call as an app could make it, fit or not, and the reply that it must get: refused by the rules'
//! table, or else what the original does, for the ordered call with the values in order.

use crate::profiles::profile;
use crate::readings::{Bad, bad};
use crate::text::{hex, hexes};
use crate::{Report, Settings, Walked, order, walked};
use std::fmt::Write;

/// The library's calls. A run of one of them can be made by those before it, too: they are lent less.
#[derive(Clone, Copy, Debug, PartialEq, Eq, PartialOrd, Ord)]
pub enum Call {
    Plain,
    /// With U and V.
    Accumulating,
    /// With U, V and the list of values.
    Ordered,
}

impl Call {
    pub fn name(self) -> &'static str {
        ["plain", "accumulating", "ordered"][self as usize]
    }

    /// Whether the call is lent U and V.
    pub fn keeps(self) -> bool {
        self >= Call::Accumulating
    }

    /// Whether the call can answer this number.
    pub fn has(self, number: u64) -> bool {
        match number {
            4 | 5 => self.keeps(),
            11..=13 => self == Call::Ordered,
            _ => true,
        }
    }
}

/// What U and V hold when the accumulating call begins.
#[derive(Clone, Debug)]
pub enum Start {
    Identity,
    Given(Vec<f64>, Vec<f64>),
}

/// Any sizes, any settings or any profile's number, and lists of any length.
#[derive(Clone, Debug)]
pub struct Run {
    pub rows: usize,
    pub cols: usize,
    /// Not looked at where the run is made by a profile's number.
    pub settings: Settings,
    /// The number by which the run is made in place of settings.
    pub profile: Option<usize>,
    /// The call that is lent the most; those before it are made as well.
    pub call: Call,
    pub matrix: Vec<f64>,
    /// The identity only where rows and columns are from 1 to 48.
    pub start: Start,
    /// The list of values as the ordered call is lent it.
    pub values: Vec<f64>,
}

/// The report and the lists as they are left; those that the call is not lent are empty.
#[derive(Clone, Debug)]
pub struct Reply {
    pub report: Report,
    pub matrix: Vec<f64>,
    pub u: Vec<f64>,
    pub v: Vec<f64>,
    pub values: Vec<f64>,
}

impl Reply {
    /// Another value of one bit of a word of the report.
    pub fn flip(&mut self, word: usize, bit: usize) {
        let mut words = self.report.words();
        words[word] ^= 1 << bit;
        self.report = words.into();
    }
}

/// The same float, every NaN counted as one.
pub fn same(a: f64, b: f64) -> bool {
    a.to_bits() == b.to_bits() || (a.is_nan() && b.is_nan())
}

/// The same floats.
pub fn alike(a: &[f64], b: &[f64]) -> bool {
    a.len() == b.len() && a.iter().zip(b).all(|(&a, &b)| same(a, b))
}

/// The same bits, NaNs too.
pub fn untouched(a: &[f64], b: &[f64]) -> bool {
    a.len() == b.len() && a.iter().zip(b).all(|(a, b)| a.to_bits() == b.to_bits())
}

/// A list of values before anything is written to it. No magnitude is below zero.
pub fn unwritten(length: usize) -> Vec<f64> {
    vec![-1.0; length]
}

/// The identity of this size, row by row.
pub fn identity(size: usize) -> Vec<f64> {
    let entry = |at: usize| if at % (size + 1) == 0 { 1.0 } else { 0.0 };
    (0..size * size).map(entry).collect()
}

/// The number that refuses these settings, if one does.
fn unfit(settings: &Settings) -> Option<u64> {
    let &Settings {
        limit,
        credit,
        tolerance,
        absolute,
        floor,
    } = settings;
    if limit > 100_000 || credit > 1_000 {
        return Some(6);
    }
    let bound = |value: f64| value.is_finite() && value >= 0.0;
    if !bound(tolerance) || !bound(absolute) || !floor.is_finite() || floor <= 0.0 {
        return Some(7);
    }
    None
}

impl Run {
    /// U and V as the accumulating call is lent them.
    pub fn factors(&self) -> (Vec<f64>, Vec<f64>) {
        match &self.start {
            Start::Identity => (identity(self.rows), identity(self.cols)),
            Start::Given(u, v) => (u.clone(), v.clone()),
        }
    }

    /// The settings of the run, its own or the profile's; none where there is no such profile.
    pub fn chosen(&self) -> Option<Settings> {
        match self.profile {
            None => Some(self.settings),
            Some(number) => profile(number).map(|(_, settings)| settings),
        }
    }

    /// The report of the refusal that the rules ask for before the call's run.
    pub fn refusal(&self, call: Call) -> Option<Report> {
        let refused = |number: u64| {
            Some(Report {
                number,
                ..Report::default()
            })
        };
        let (rows, cols) = (self.rows, self.cols);
        if rows == 0 || cols == 0 {
            return refused(1);
        }
        if rows > 48 || cols > 48 {
            return refused(2);
        }
        if self.matrix.len() != rows * cols {
            return refused(3);
        }
        if let (true, Start::Given(u, v)) = (call.keeps(), &self.start) {
            if u.len() != rows * rows {
                return refused(4);
            }
            if v.len() != cols * cols {
                return refused(5);
            }
        }
        if call == Call::Ordered && self.values.len() != rows.min(cols) {
            return refused(11);
        }
        let unfit = match self.profile {
            Some(number) => profile(number).is_none().then_some(10),
            None => unfit(&self.settings),
        };
        if let Some(number) = unfit {
            return refused(number);
        }
        let Bad { row, column, many } = bad(cols, &self.matrix)?;
        Some(Report {
            number: 8,
            row,
            column,
            bad: many,
            ..Report::default()
        })
    }

    /// The lists as the call is lent them, with a report that says nothing.
    pub fn lent(&self, call: Call) -> Reply {
        let (u, v) = if call.keeps() {
            self.factors()
        } else {
            Default::default()
        };
        let values = if call == Call::Ordered {
            self.values.clone()
        } else {
            Vec::new()
        };
        Reply {
            report: Report::default(),
            matrix: self.matrix.clone(),
            u,
            v,
            values,
        }
    }

    /// The reply that the call must get.
    pub fn reply(&self, call: Call) -> Reply {
        self.walked(call).0
    }

    /// The same, and what else is recorded of the original's walk; nothing where the call is refused
    /// before its run.
    pub fn walked(&self, call: Call) -> (Reply, Walked) {
        if call == Call::Ordered {
            let (kept, record) = self.walked(Call::Accumulating);
            return (self.ordered(&kept), record);
        }
        if let Some(refused) = self.refused(call) {
            return (refused, Walked::default());
        }
        let settings = self.chosen().expect("a profile that there is");
        let mut reply = self.lent(call);
        let uv = call.keeps().then_some((&mut reply.u[..], &mut reply.v[..]));
        let record;
        (reply.report, record) = walked(self.rows, self.cols, &mut reply.matrix, uv, &settings);
        (reply, record)
    }

    /// The reply that the ordered call must get, from the one that the accumulating call gets.
    pub fn ordered(&self, kept: &Reply) -> Reply {
        self.refused(Call::Ordered)
            .unwrap_or_else(|| order::ordered(self.rows, self.cols, kept, &self.values))
    }

    /// The reply of a call that is refused before its run: the lists as they are lent.
    fn refused(&self, call: Call) -> Option<Reply> {
        Some(Reply {
            report: self.refusal(call)?,
            ..self.lent(call)
        })
    }

    /// The run in words: sizes and settings or profile, then the table as survey text where it is one, then U
    /// and V, then the list of values.
    pub fn told(&self) -> String {
        let mut text = format!("{} call, {} x {}, ", self.call.name(), self.rows, self.cols);
        if let Some(number) = self.profile {
            let name = profile(number).map_or("there is none", |(name, _)| name);
            let _ = write!(text, "profile {number} ({name})");
        } else {
            let Settings {
                limit,
                credit,
                tolerance,
                absolute,
                floor,
            } = self.settings;
            let _ = write!(
                text,
                "limit {limit}, credit {credit}, tolerance {tolerance:e} ({}), absolute {absolute:e} ({}), floor {floor:e} ({})",
                hex(tolerance),
                hex(absolute),
                hex(floor)
            );
        }
        text.push('\n');
        if self.matrix.len() == self.rows.wrapping_mul(self.cols) && self.cols > 0 {
            let _ = writeln!(text, "1\n1 {} {}", self.rows, self.cols);
            for row in self.matrix.chunks(self.cols) {
                let _ = writeln!(text, "{}", hexes(row));
            }
        } else {
            let _ = writeln!(
                text,
                "{} readings: {}",
                self.matrix.len(),
                hexes(&self.matrix)
            );
        }
        match &self.start {
            _ if !self.call.keeps() => {}
            Start::Identity => text += "U and V: the identity\n",
            Start::Given(u, v) => {
                let _ = writeln!(text, "U: {}\nV: {}", hexes(u), hexes(v));
            }
        }
        if self.call == Call::Ordered {
            let _ = writeln!(
                text,
                "list of {}: {}",
                self.values.len(),
                hexes(&self.values)
            );
        }
        text
    }
}
