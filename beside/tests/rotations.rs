//! The number of rotations: the original's own calls, held against the ranges of its sweeps, on runs of
//! every kind; that the slips by which it could be told wrong are seen, and that the drawn and the stored
//! runs show all of it.

use beside::kinds::{Sizes, TABLES, drawn, with_settings};
use beside::reduction::matrix::francis::givens::implicit_givens_rotation;
use beside::rotations::{COUNTS, INFINITE, MOST, SHOWING, SLIPS, Turned, slips};
use beside::run::{Call, Run};
use beside::survey::split;
use beside::vectors::{stored, told, wrong};
use beside::{Report, Settings, Walked, cases, refusals, texts};

const CALLS: [Call; 3] = [Call::Plain, Call::Accumulating, Call::Ordered];

/// A run of all calls, from the identity.
fn run(rows: usize, cols: usize, matrix: &[f64], settings: Settings) -> Run {
    Run::from(cases::case(rows, cols, matrix, settings))
}

fn at(limit: usize) -> Settings {
    Settings {
        limit,
        ..Settings::DEFAULT
    }
}

/// The rotations of the run's first call; none where it is refused.
fn turned(run: &Run) -> Option<Turned> {
    let (reply, walked) = run.walked(run.call.min(Call::Accumulating));
    Turned::of(run, &reply, walked)
}

/// Drawn runs of every kind and size: the calls agree, and their number is that of the sweeps' ranges.
/// The largest is far from what the rule allows.
#[test]
fn drawn_runs_keep_the_rule() {
    let (mut kinds, mut most) = ([0; TABLES.len()], 0);
    for number in 0..60_000 {
        let (run, kind) = drawn(17, number, Sizes::All);
        let (plain, walked) = run.walked(Call::Plain);
        if run.call == Call::Ordered {
            let (kept, also) = run.walked(Call::Accumulating);
            let made = [&plain, &kept].map(|reply| reply.report.word != 0);
            if made == [true, true] {
                assert_eq!((kept.report, also), (plain.report, walked));
            }
            let Report {
                number, rotations, ..
            } = run.ordered(&kept).report;
            let same = [0, 12, 13].contains(&number);
            assert_eq!(rotations, if same { kept.report.rotations } else { 0 });
        }
        let Some(turned) = Turned::of(&run, &plain, walked) else {
            assert_eq!(plain.report.rotations, 0);
            continue;
        };
        assert!(turned.right(), "{}{:?}", run.told(), plain.report);
        if run.rows.min(run.cols) == 1 {
            assert_eq!((turned.many(), walked), (0, Walked::default()));
        }
        kinds[kind] += 1;
        most = most.max(turned.many());
    }
    assert!(kinds.iter().all(|&many| many > 500), "{kinds:?}");
    assert_eq!((most, MOST), (400_000, 13_724_000));
}

/// The same without the record: with credit 0 a limit greater by one is one pass more. A sweep over the
/// range that was left adds 2 x (range - 1), a drop nothing.
#[test]
fn pass_by_pass() {
    let (mut sweeps, mut drops) = ([0; 7], 0);
    for number in 0..4_000 {
        let (mut run, _) = with_settings(19, number, Sizes::UpTo(6));
        let call = run.call.min(Call::Accumulating);
        run.settings.credit = 0;
        let mut report = |limit: usize| {
            run.settings.limit = limit;
            run.reply(call).report
        };
        let mut before = report(0);
        assert_eq!(before.rotations, 0);
        for limit in 1..20 {
            let after = report(limit);
            if after.sweeps > before.sweeps {
                let more = 2 * (before.range - 1);
                assert_eq!(after.rotations, before.rotations + more);
                sweeps[before.range as usize] += 1;
            } else {
                assert_eq!(after.rotations, before.rotations);
                drops += after.drops - before.drops;
            }
            before = after;
        }
    }
    assert!(sweeps[2..].iter().all(|&many| many > 1_000), "{sweeps:?}");
    assert!(drops > 1_000, "{drops}");
}

/// Each sweep over a table of zeros computes rotations of (0, 0), which take no root: they count.
#[test]
fn rotations_of_zeros_count() {
    for (rows, cols) in [(2, 2), (2, 3), (3, 2), (5, 5), (4, 48), (48, 48)] {
        for limit in [0, 1, 3, 100] {
            let run = run(rows, cols, &vec![0.0; rows * cols], at(limit));
            let must = 2 * (rows.min(cols) - 1) * limit;
            for call in CALLS {
                let (reply, walked) = run.walked(call);
                let counts = [reply.report.rotations, walked.zeros];
                assert_eq!(counts, [must as u64; 2]);
            }
        }
    }
    // Some of them: the second table of the rules that stops.
    let (reply, walked) = run(2, 2, &[0.0, 1.0, 0.0, 1.0], at(100)).walked(Call::Plain);
    assert_eq!((reply.report.rotations, walked.zeros), (200, 100));
}

/// A drop makes none, and with one value there is no walk.
#[test]
fn drops_make_none() {
    let diagonal = |size: usize| -> Vec<f64> {
        let entry = |at: usize| if at / size == at % size { 1.0 } else { 0.0 };
        (0..size * size).map(entry).collect()
    };
    for size in [2, 3, 48] {
        let drops = size as u64 - 1;
        let report = run(size, size, &diagonal(size), at(100))
            .reply(Call::Ordered)
            .report;
        let says = format!("settled {drops} 0 {drops} 1 0");
        assert_eq!(report.to_string(), says);
    }
    for (rows, cols) in [(1, 1), (1, 48), (48, 1)] {
        let report = run(rows, cols, &[3.0; 48][..rows * cols], at(100))
            .reply(Call::Ordered)
            .report;
        assert_eq!(report.to_string(), "settled 0 0 0 1 0");
    }
}

/// The largest number that was seen of the original, on the table that makes most sweeps over c.
#[test]
fn the_largest() {
    let zeros = run(48, 48, &[0.0; 48 * 48], at(100_000));
    let report = zeros.reply(Call::Plain).report;
    assert_eq!(
        report.to_string(),
        "quiet 100000 100000 0 48 9400000",
        "2 x 47 in each sweep"
    );
    assert!(report.rotations < MOST);
}

/// 12 and 13 have the run's, every other refusal has none.
#[test]
fn refusals() {
    let mut after = [0, 0];
    for (call, number, run) in refusals::all() {
        let report = run.reply(call).report;
        let kept = run.reply(Call::Accumulating).report;
        match number {
            12 | 13 => {
                assert_eq!(report.rotations, kept.rotations);
                after[number as usize - 12] += usize::from(kept.rotations > 0);
            }
            0 => {}
            _ => assert_eq!(report.rotations, 0),
        }
    }
    assert!(after.iter().all(|&many| many > 1), "{after:?}");
    for (rows, cols, matrix) in INFINITE {
        let report = run(rows, cols, matrix, at(100)).reply(Call::Ordered).report;
        assert_eq!((report.number, report.rotations), (13, 2));
    }
}

/// A rotation that is computed outside of a run counts in none.
#[test]
fn nothing_else_counts() {
    let (rows, cols, matrix) = SHOWING[0];
    let report = || run(rows, cols, matrix, at(100)).reply(Call::Plain).report;
    let before = report();
    assert_eq!(implicit_givens_rotation(0.0, 2.0), (2.0, 0.0, 1.0));
    assert_eq!(report(), before);
}

/// The two tables, by every call and by `split`, and that every slip counts them wrong, each otherwise.
#[test]
fn the_slips() {
    let says: [(&str, &[u64]); 2] = [
        ("settled 8 5 3 1 22", &[4, 4, 3, 3, 2]),
        ("settled 10 7 3 1 34", &[4, 4, 4, 4, 3, 3, 2]),
    ];
    for ((rows, cols, matrix), (says, ranges)) in SHOWING.into_iter().zip(says) {
        let limited = |limit: usize| {
            let settings = Settings {
                credit: 0,
                ..at(limit)
            };
            run(rows, cols, matrix, settings).reply(Call::Plain).report
        };
        let swept = (0..20).filter(|&limit| limited(limit + 1).sweeps > limited(limit).sweeps);
        let found: Vec<u64> = swept.map(|limit| limited(limit).range).collect();
        assert_eq!(found, ranges);
        let run = run(rows, cols, matrix, at(100));
        for call in CALLS {
            assert_eq!(run.reply(call).report.to_string(), says);
        }
        let turned = turned(&run).unwrap();
        assert_eq!(slips(&turned).len(), SLIPS.len(), "{:?}", slips(&turned));
        assert!(turned.zeros() > 0 && turned.zeros() < turned.many());
    }
}

/// Among the stored runs that are wrong on purpose each slip is told in both forms, of the accumulating
/// call and of the ordered one, and nothing else is wrong with them; after 12 and 13, none.
#[test]
fn the_slips_are_stored() {
    let wrong = wrong();
    let only = |right: Report, said: Report| {
        let counted = Report {
            rotations: right.rotations,
            ..said
        };
        (counted == right && said != right).then_some(said.rotations)
    };
    let said = |of: &Run, number: u64| -> [Vec<u64>; 2] {
        let right = told(of);
        let mut found = [Vec::new(), Vec::new()];
        for (_, said) in wrong.iter().filter(|(run, _)| run.told() == of.told()) {
            found[0].extend(only(right.first.report, said.first.report));
            let [must, said] = [&right, said].map(|told| told.ordered.as_ref().unwrap());
            assert_eq!(must.report.number, number);
            found[1].extend(only(must.report, said.report));
        }
        found
    };
    for (rows, cols, matrix) in SHOWING {
        let run = run(rows, cols, matrix, at(100));
        let must: Vec<u64> = slips(&turned(&run).unwrap())
            .iter()
            .map(|slip| slip.1)
            .collect();
        assert_eq!(must.len(), SLIPS.len());
        assert_eq!(said(&run, 0), [must.clone(), must]);
    }
    for (number, rows, cols, matrix) in [
        (13, INFINITE[0].0, INFINITE[0].1, INFINITE[0].2),
        (13, INFINITE[1].0, INFINITE[1].1, INFINITE[1].2),
        (12, 3, 3, &[0.0; 9]),
    ] {
        let [kept, ordered] = said(&run(rows, cols, matrix, at(100)), number);
        assert!(kept.contains(&0) && ordered.contains(&0));
    }
}

/// The stored texts, each with its mark and its answer.
fn stored_texts() -> Vec<(u8, Vec<u8>, Vec<u8>)> {
    let bytes = texts::stored();
    let (mut rows, mut at) = (Vec::new(), 0);
    while let Some(head) = bytes.get(at..at + 16) {
        let size = |from: usize| -> Option<usize> {
            let digits = std::str::from_utf8(&head[from..from + 6]).ok()?;
            digits.parse().ok()
        };
        let (Some(text), Some(answer)) = (size(2), size(9)) else {
            break;
        };
        let middle = at + 16 + text;
        let Some(said) = bytes.get(middle..middle + answer) else {
            break;
        };
        rows.push((head[0], bytes[at + 16..middle].to_vec(), said.to_vec()));
        at = middle + answer;
    }
    rows
}

/// And among the texts, with the line as it was before it had the count, and with count and range
/// exchanged.
#[test]
fn the_slips_are_among_the_texts() {
    let rows = stored_texts();
    for (rows_of, cols, matrix) in SHOWING {
        let turned = turned(&run(rows_of, cols, matrix, at(100))).unwrap();
        let many = turned.many();
        let heads: Vec<String> = rows
            .iter()
            .filter(|(mark, text, answer)| {
                let right = split(text);
                let tail = |text: &str| text.split_once('\n').map(|(_, tail)| tail.to_string());
                let answer = String::from_utf8_lossy(answer);
                *mark == b'!'
                    && right.starts_with("7 settled ")
                    && right.lines().next().unwrap().ends_with(&format!(" {many}"))
                    && tail(&right) == tail(&answer)
            })
            .map(|(_, _, answer)| {
                let text = String::from_utf8_lossy(answer);
                text.lines().next().unwrap().to_string()
            })
            .collect();
        let must = |end: String| assert!(heads.iter().any(|head| head.ends_with(&end)), "{end}");
        for (_, other) in slips(&turned) {
            must(format!(" 3 1 {other}"));
        }
        must(" 3 1".into());
        must(format!(" 3 {many} 1"));
    }
}

fn counted(counts: &mut [u64; COUNTS.len()], run: &Run) {
    if let Some(turned) = turned(run) {
        assert!(turned.right(), "{}", run.told());
        for (many, (_, is)) in counts.iter_mut().zip(COUNTS) {
            *many += u64::from(is(&turned));
        }
    }
}

#[test]
fn every_kind_is_drawn() {
    let mut counts = [0; COUNTS.len()];
    for number in 0..20_000 {
        counted(&mut counts, &drawn(1, number, Sizes::UpTo(12)).0);
    }
    for ((name, _), many) in COUNTS.iter().zip(counts) {
        assert!(many >= 100, "{name}: {many}");
    }
}

#[test]
fn every_kind_is_stored() {
    let mut counts = [0; COUNTS.len()];
    let mut numbers = [0, 0];
    for run in stored() {
        counted(&mut counts, &run);
        let ordered = told(&run).ordered.map(|reply| reply.report);
        for (many, number) in numbers.iter_mut().zip([12, 13]) {
            let such = |report: &Report| report.number == number && report.rotations > 0;
            *many += u64::from(ordered.as_ref().is_some_and(such));
        }
    }
    for ((name, _), many) in COUNTS.iter().zip(counts) {
        assert!(many >= 10, "{name}: {many}");
    }
    assert!(numbers[0] >= 20 && numbers[1] >= 2, "{numbers:?}");
    // In the small cases, too, which the definitions are computed on.
    let mut counts = [0; COUNTS.len()];
    for case in cases::all() {
        counted(&mut counts, &Run::from(case));
    }
    for ((name, _), many) in COUNTS.iter().zip(counts) {
        assert!(many >= 5, "{name}: {many}");
    }
}
