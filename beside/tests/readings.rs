//! Bad readings: what is told of them, by every call and by `split`; that each kind of them is drawn and
//! stored; and that nothing is told of them where another number comes first.

use beside::kinds::{Sizes, drawn};
use beside::readings::{Bad, COUNTS, Seen, bad};
use beside::run::{Call, Run};
use beside::survey::split;
use beside::text::patterns;
use beside::texts::{drawn_text, met};
use beside::{Report, Settings, cases, refusals, vectors};

const CALLS: [Call; 3] = [Call::Plain, Call::Accumulating, Call::Ordered];

/// A table from words, a row each: `.` is a good reading, `+` and `-` the infinities, `n` and `s` NaNs.
fn table(words: &str) -> Run {
    let rows: Vec<&str> = words.split(' ').collect();
    let reading = |letter: char| match letter {
        '.' => 1.0,
        '+' => f64::INFINITY,
        '-' => f64::NEG_INFINITY,
        'n' => f64::NAN,
        _ => f64::from_bits(0xFFF0_0000_0000_0001),
    };
    let matrix: Vec<f64> = rows.concat().chars().map(reading).collect();
    let (many, long) = (rows.len(), rows[0].len());
    Run::from(cases::case(many, long, &matrix, Settings::DEFAULT))
}

/// The report of a refusal by 8.
fn refused(row: usize, column: usize, bad: usize) -> Report {
    Report {
        number: 8,
        row: row as u64,
        column: column as u64,
        bad: bad as u64,
        ..Report::default()
    }
}

/// The table as survey text, and what `split` prints of it.
fn printed(run: &Run) -> String {
    let mut text = format!("1\n12 {} {}\n", run.rows, run.cols);
    for row in run.matrix.chunks(run.cols) {
        text += &format!("{}\n", patterns(row));
    }
    split(text.as_bytes())
}

#[test]
fn the_first_and_how_many() {
    for (words, [row, column, many]) in [
        ("n", [0, 0, 1]),
        ("..+", [0, 2, 1]),
        (". . -", [2, 0, 1]),
        ("... ..s ...", [1, 2, 1]),
        // Row by row: a lower row counts before a lower column.
        ("..n n..", [0, 2, 2]),
        ("... .n. n..", [1, 1, 2]),
        // The last row and the last column alone, and all.
        ("... ... n.s", [2, 0, 2]),
        ("..- ..- ..-", [0, 2, 3]),
        ("+++ --- nsn", [0, 0, 9]),
        // All but the first.
        (".+ -n", [0, 1, 3]),
    ] {
        let run = table(words);
        for call in CALLS {
            assert_eq!(
                run.reply(call).report,
                refused(row, column, many),
                "{words}"
            );
        }
        let line = format!("12 refused 8 {row} {column} {many}\n");
        assert_eq!(printed(&run), line, "{words}");
    }
    assert_eq!(bad(2, &table(".. ..").matrix), None);
}

/// Each place of every small shape, alone and with all that stand after it, row by row.
#[test]
fn each_place() {
    for (rows, cols) in (1..=5).flat_map(|rows| (1..=5).map(move |cols| (rows, cols))) {
        let mut after = table(&vec![".".repeat(cols); rows].join(" "));
        let mut many = 0;
        for (row, column) in (0..rows)
            .rev()
            .flat_map(|row| (0..cols).rev().map(move |column| (row, column)))
        {
            let mut alone = table(&vec![".".repeat(cols); rows].join(" "));
            alone.matrix[row * cols + column] = f64::INFINITY;
            after.matrix[row * cols + column] = f64::NAN;
            many += 1;
            for call in CALLS {
                assert_eq!(alone.reply(call).report, refused(row, column, 1));
                assert_eq!(after.reply(call).report, refused(row, column, many));
            }
        }
        assert_eq!(many, rows * cols);
    }
}

/// What a report says of bad readings, held against the table: where the reading stands, that none stands
/// before it, and how many there are. No other number says anything.
fn holds(run: &Run, report: &Report) {
    let Report {
        number,
        row,
        column,
        bad,
        ..
    } = *report;
    if number != 8 {
        assert_eq!([row, column, bad], [0; 3], "{}", run.told());
        return;
    }
    let (row, column) = (row as usize, column as usize);
    assert!(row < run.rows && column < run.cols);
    let (before, from) = run.matrix.split_at(row * run.cols + column);
    assert!(before.iter().all(|x| x.is_finite()), "{}", run.told());
    assert!(!from[0].is_finite(), "{}", run.told());
    let many = from.iter().filter(|x| !x.is_finite()).count();
    assert_eq!(bad, many as u64, "{}", run.told());
}

#[test]
fn every_stored_reply_holds() {
    for run in vectors::stored() {
        let told = vectors::told(&run);
        holds(&run, &told.first.report);
        told.ordered
            .iter()
            .for_each(|reply| holds(&run, &reply.report));
    }
}

/// Each number before 8 meets bad readings that would be told of, in each call that has it; where 12 and
/// 13 would come after the run, 8 comes before it.
#[test]
fn other_numbers_meet_bad_readings() {
    let spoiled = |run: &Run| {
        let told = bad(2, &run.matrix);
        told.is_some_and(|Bad { row, column, many }| row > 0 && column > 0 && many > 1)
    };
    let runs = refusals::all();
    for call in CALLS {
        let before = [1, 2, 3, 4, 5, 11, 6, 7];
        for number in before.into_iter().filter(|&number| call.has(number)) {
            // The ordered call refuses what the accumulating one does.
            let listed = |of: Call| of == call || (of, call) == (Call::Accumulating, Call::Ordered);
            let mut such = runs
                .iter()
                .filter(|(of, told, run)| listed(*of) && *told == number && spoiled(run));
            let (_, _, run) = such.next().unwrap_or_else(|| panic!("{call:?} {number}"));
            let report = run.reply(call).report;
            let alone = Report {
                number,
                ..Report::default()
            };
            assert_eq!(report, alone);
        }
    }
    let ordered = |(call, told, _): &&(Call, u64, Run)| (*call, *told) == (Call::Ordered, 8);
    let mut after = [0, 0];
    for (_, _, run) in runs.iter().filter(ordered) {
        let mut good = run.clone();
        for x in good.matrix.iter_mut().filter(|x| !x.is_finite()) {
            *x = 0.0;
        }
        for (many, number) in after.iter_mut().zip([12, 13]) {
            *many += usize::from(good.reply(Call::Ordered).report.number == number);
        }
    }
    assert!(after.iter().all(|&many| many > 0), "{after:?}");
}

/// Each kind of bad readings is drawn, and so are bad readings that another number comes before.
#[test]
fn every_kind_is_drawn() {
    let mut counts = [0; COUNTS.len()];
    let mut before = 0;
    for number in 0..100_000 {
        let (run, _) = drawn(1, number, Sizes::UpTo(12));
        let Some(report) = run.refusal(Call::Accumulating) else {
            continue;
        };
        holds(&run, &report);
        if report.number == 8 {
            let seen = Seen::of(run.rows, run.cols, &run.matrix);
            for (many, (_, is)) in counts.iter_mut().zip(COUNTS) {
                *many += u64::from(is(&seen));
            }
        } else {
            before += u64::from(run.matrix.iter().any(|x| !x.is_finite()));
        }
    }
    for ((name, _), many) in COUNTS.iter().zip(counts) {
        assert!(many >= 10, "{name}: {many}");
    }
    assert!(before >= 100, "{before}");
}

/// In the drawn texts too, NaNs with their own bits.
#[test]
fn drawn_texts_have_bad_readings() {
    let [refused, several, ..] = met(1, 2_000);
    assert!(several >= 50 && refused >= several + 50);
    let usual = "7FF8000000000000";
    let strange = (0..2_000).any(|number| {
        let text = String::from_utf8_lossy(&drawn_text(1, number)).into_owned();
        let mut words = text.split([' ', '\n']);
        words.any(|word| word.len() == 16 && word.starts_with("7FF") && word[3..] > usual[3..])
    });
    assert!(strange);
}
