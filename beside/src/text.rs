//! Cases and answers as lines of text. A float is 16 upper-case hex digits of its bits; every NaN
//! is written as 7FF8000000000000. README.md gives the two lines.

use crate::{Report, Settings, run};
use std::fmt;

#[derive(Clone, Debug)]
pub struct Case {
    pub rows: usize,
    pub cols: usize,
    pub settings: Settings,
    pub matrix: Vec<f64>,
    /// U and V, for the accumulating call.
    pub uv: Option<(Vec<f64>, Vec<f64>)>,
}

pub struct Answer {
    pub report: Report,
    pub matrix: Vec<f64>,
    pub uv: Option<(Vec<f64>, Vec<f64>)>,
}

/// The digits of one float.
pub fn hex(value: f64) -> String {
    let bits = if value.is_nan() {
        0x7FF8_0000_0000_0000
    } else {
        value.to_bits()
    };
    format!("{bits:016X}")
}

/// The digits of floats in a row; two rows read alike exactly when they are the same numbers.
pub fn hexes(values: &[f64]) -> String {
    values
        .iter()
        .map(|&value| hex(value))
        .collect::<Vec<_>>()
        .join(" ")
}

/// The same with the bits that each NaN has.
pub fn patterns(values: &[f64]) -> String {
    values
        .iter()
        .map(|value| format!("{:016X}", value.to_bits()))
        .collect::<Vec<_>>()
        .join(" ")
}

fn float(digits: &str) -> Result<f64, String> {
    let legal = |byte: u8| byte.is_ascii_digit() || (b'A'..=b'F').contains(&byte);
    if digits.len() != 16 || !digits.bytes().all(legal) {
        return Err(format!("`{digits}` is not 16 upper-case hex digits"));
    }
    u64::from_str_radix(digits, 16)
        .map(f64::from_bits)
        .map_err(|error| error.to_string())
}

fn floats(part: &str, count: usize, what: &str) -> Result<Vec<f64>, String> {
    let values = part.split(' ').map(float).collect::<Result<Vec<_>, _>>()?;
    if values.len() == count {
        Ok(values)
    } else {
        Err(format!("{what} has {} entries, not {count}", values.len()))
    }
}

fn count(digits: &str) -> Result<usize, String> {
    digits
        .parse()
        .map_err(|_| format!("`{digits}` is not a count"))
}

impl Case {
    /// Reads the line of a case.
    pub fn read(line: &str) -> Result<Case, String> {
        let parts: Vec<&str> = line.split(" | ").collect();
        let [head, matrix, u, v] = parts[..] else {
            return Err(format!("{} parts, not 4", parts.len()));
        };
        let words: Vec<&str> = head.split(' ').collect();
        let [rows, cols, limit, credit, tolerance, absolute, floor] = words[..] else {
            return Err(format!("{} numbers before the matrix, not 7", words.len()));
        };
        let (rows, cols) = (count(rows)?, count(cols)?);
        if rows == 0 || cols == 0 {
            return Err("no rows or no columns".to_string());
        }
        Ok(Case {
            rows,
            cols,
            settings: Settings {
                limit: count(limit)?,
                credit: count(credit)?,
                tolerance: float(tolerance)?,
                absolute: float(absolute)?,
                floor: float(floor)?,
            },
            matrix: floats(matrix, rows * cols, "the matrix")?,
            uv: match (u, v) {
                ("-", "-") => None,
                _ => Some((floats(u, rows * rows, "U")?, floats(v, cols * cols, "V")?)),
            },
        })
    }

    /// Runs the case. With U and V it is also run plain; that matrix and report then are the same
    /// is part of what is answered for.
    pub fn answer(&self) -> Result<Answer, String> {
        let mut matrix = self.matrix.clone();
        let report = run(self.rows, self.cols, &mut matrix, None, &self.settings);
        let mut uv = self.uv.clone();
        if let Some((u, v)) = &mut uv {
            let mut beside = self.matrix.clone();
            let full = run(
                self.rows,
                self.cols,
                &mut beside,
                Some((u, v)),
                &self.settings,
            );
            if full != report || hexes(&beside) != hexes(&matrix) {
                return Err(format!(
                    "plain and accumulating call differ: {report} | {} and {full} | {}",
                    hexes(&matrix),
                    hexes(&beside)
                ));
            }
        }
        Ok(Answer { report, matrix, uv })
    }
}

/// Matrix, U and V as the last three parts of a line.
fn tables(
    f: &mut fmt::Formatter,
    matrix: &[f64],
    uv: &Option<(Vec<f64>, Vec<f64>)>,
) -> fmt::Result {
    match uv {
        Some((u, v)) => write!(f, " | {} | {} | {}", hexes(matrix), hexes(u), hexes(v)),
        None => write!(f, " | {} | - | -", hexes(matrix)),
    }
}

impl fmt::Display for Case {
    fn fmt(&self, f: &mut fmt::Formatter) -> fmt::Result {
        let Settings {
            limit,
            credit,
            tolerance,
            absolute,
            floor,
        } = self.settings;
        write!(f, "{} {} {limit} {credit}", self.rows, self.cols)?;
        write!(f, " {} {} {}", hex(tolerance), hex(absolute), hex(floor))?;
        tables(f, &self.matrix, &self.uv)
    }
}

impl fmt::Display for Report {
    fn fmt(&self, f: &mut fmt::Formatter) -> fmt::Result {
        let word = match self.word {
            Report::SETTLED => "settled",
            Report::STOPPED => "stopped",
            Report::QUIET => "quiet",
            _ => "none",
        };
        write!(
            f,
            "{word} {} {} {} {} {}",
            self.passes, self.sweeps, self.drops, self.range, self.rotations
        )
    }
}

impl fmt::Display for Answer {
    fn fmt(&self, f: &mut fmt::Formatter) -> fmt::Result {
        write!(f, "{}", self.report)?;
        tables(f, &self.matrix, &self.uv)
    }
}
