//! The survey text and what `split` prints of it, written from its rules alone: lines are cut off
//! one by one, and each reading is what the standard library makes of its words.

use crate::readings::{Bad, bad};
use crate::text::hex;
use crate::{Settings, run};

/// A line has at most so many bytes before its LF.
const LONGEST: usize = 815;

/// The lines that are left, and the number of the next.
struct Lines<'a> {
    rest: &'a [u8],
    number: usize,
}

/// The number of a malformed line.
type Malformed = usize;

struct Entry {
    id: usize,
    rows: usize,
    cols: usize,
}

impl<'a> Lines<'a> {
    /// The next line as the rule reads it.
    fn next<T>(&mut self, rule: impl Fn(&'a str) -> Option<T>) -> Result<T, Malformed> {
        let number = self.number;
        let end = self.rest.iter().position(|&byte| byte == b'\n');
        let end = end.filter(|&end| end <= LONGEST).ok_or(number)?;
        let line = std::str::from_utf8(&self.rest[..end]).map_err(|_| number)?;
        self.rest = &self.rest[end + 1..];
        self.number += 1;
        rule(line).ok_or(number)
    }
}

/// From 1 to `most`, in decimal: exactly as the number would be written.
fn count(word: &str, most: usize) -> Option<usize> {
    let value = word.parse().ok()?;
    (word == format!("{value}") && (1..=most).contains(&value)).then_some(value)
}

fn entry(line: &str, before: &[Entry]) -> Option<Entry> {
    let words: Vec<&str> = line.split(' ').collect();
    let [id, rows, cols] = words[..] else {
        return None;
    };
    let entry = Entry {
        id: count(id, 65535)?,
        rows: count(rows, 48)?,
        cols: count(cols, 48)?,
    };
    let known = before.iter().any(|other| other.id == entry.id);
    (!known).then_some(entry)
}

/// A reading: exactly as its bits would be written.
fn reading(word: &str) -> Option<f64> {
    let bits = u64::from_str_radix(word, 16).ok()?;
    (word == format!("{bits:016X}")).then_some(f64::from_bits(bits))
}

fn row(line: &str, cols: usize) -> Option<Vec<f64>> {
    let readings: Option<Vec<f64>> = line.split(' ').map(reading).collect();
    readings.filter(|readings| readings.len() == cols)
}

/// What is printed of a survey.
fn survey(entry: &Entry, mut matrix: Vec<f64>) -> String {
    if let Some(Bad { row, column, many }) = bad(entry.cols, &matrix) {
        return format!("{} refused 8 {row} {column} {many}\n", entry.id);
    }
    let report = run(
        entry.rows,
        entry.cols,
        &mut matrix,
        None,
        &Settings::DEFAULT,
    );
    let mut text = format!("{} {report}\n", entry.id);
    for row in matrix.chunks(entry.cols) {
        let words: Vec<String> = row.iter().map(|&value| hex(value)).collect();
        text += &words.join(" ");
        text.push('\n');
    }
    text
}

/// Prints the surveys as they are complete, and answers the first malformed line.
fn surveys(text: &[u8], printed: &mut String) -> Result<(), Malformed> {
    let mut lines = Lines {
        rest: text,
        number: 1,
    };
    let many = lines.next(|line| count(line, 8))?;
    let mut contents = Vec::new();
    for _ in 0..many {
        let next = lines.next(|line| entry(line, &contents))?;
        contents.push(next);
    }
    for entry in &contents {
        let mut matrix = Vec::new();
        for _ in 0..entry.rows {
            matrix.extend(lines.next(|line| row(line, entry.cols))?);
        }
        *printed += &survey(entry, matrix);
    }
    if lines.rest.is_empty() {
        Ok(())
    } else {
        Err(lines.number)
    }
}

/// The whole of what `split` prints of these bytes.
pub fn split(text: &[u8]) -> String {
    let mut printed = String::new();
    if let Err(line) = surveys(text, &mut printed) {
        printed += &format!("refused 9 {line}\n");
    }
    printed
}
