//! What the ordered call does after the accumulating run: the values in order of size, and the columns
//! of U and V with them. The original has no such call. This is written from the rule alone, by Rust's
//! own stable sort.

use crate::Report;
use crate::run::Reply;

/// The entries (i, i) of a table of this shape.
pub fn diagonal(rows: usize, cols: usize, table: &[f64]) -> Vec<f64> {
    (0..rows.min(cols)).map(|i| table[i * cols + i]).collect()
}

/// The old positions in their new order: the largest magnitude first. A stable sort leaves equal ones
/// as they stand.
pub fn places(diagonal: &[f64]) -> Vec<usize> {
    let mut places: Vec<usize> = (0..diagonal.len()).collect();
    places.sort_by(|&i, &j| diagonal[j].abs().total_cmp(&diagonal[i].abs()));
    places
}

/// A square table whose column k is the old column `from[k]`, negated where the list says so. The
/// columns that the list does not reach stay.
fn moved(table: &[f64], size: usize, from: &[(usize, bool)]) -> Vec<f64> {
    let entry = |at: usize| match from.get(at % size) {
        Some(&(column, false)) => table[at - at % size + column],
        Some(&(column, true)) => -table[at - at % size + column],
        None => table[at],
    };
    (0..table.len()).map(entry).collect()
}

/// What becomes of the accumulating run's reply: 12 where it has not settled, 13 where a value is not
/// finite, or else the values in order. `values` is the list as it is lent.
pub fn ordered(rows: usize, cols: usize, run: &Reply, values: &[f64]) -> Reply {
    let diagonal = diagonal(rows, cols, &run.matrix);
    let with = |number: u64| Reply {
        report: Report {
            number,
            ..run.report
        },
        values: values.to_vec(),
        ..run.clone()
    };
    if run.report.word != Report::SETTLED {
        return with(12);
    }
    if !diagonal.iter().all(|value| value.is_finite()) {
        return with(13);
    }
    let places = places(&diagonal);
    let columns = |negate: bool| -> Vec<(usize, bool)> {
        let column = |&place: &usize| (place, negate && diagonal[place].is_sign_negative());
        places.iter().map(column).collect()
    };
    Reply {
        u: moved(&run.u, rows, &columns(true)),
        v: moved(&run.v, cols, &columns(false)),
        values: places.iter().map(|&place| diagonal[place].abs()).collect(),
        ..with(0)
    }
}
