//! The comparison itself: drawn runs agree, each kind of reply is met, and a reply that is wrong is seen.

use beside::by_number::{apart, stored};
use beside::kinds::{Sizes, drawn};
use beside::profiles::PROFILES;
use beside::refusals::NO_PROFILE;
use beside::rotations::{INFINITE, SHOWING, slips};
use beside::run::{Call, Run, Start, unwritten};
use beside::{Report, Settings, refusals};
use runs::{ASKED, MEETINGS, RARE, check, differs, library, shrunk, table_agrees};

fn run(rows: usize, cols: usize, matrix: &[f64]) -> Run {
    Run {
        rows,
        cols,
        settings: Settings::DEFAULT,
        profile: None,
        call: Call::Ordered,
        matrix: matrix.to_vec(),
        start: Start::Identity,
        values: unwritten(rows.min(cols)),
    }
}

#[test]
fn drawn_runs_agree() {
    let mut numbers = [0; 11];
    let mut meetings = [0; MEETINGS.len()];
    let mut by_profile = [0; ASKED.len()];
    for number in 0..4_000 {
        let (run, _) = drawn(99, number, Sizes::UpTo(8));
        let seen = check(&run, Some(1_000)).unwrap_or_else(|wrong| panic!("{wrong}{}", run.told()));
        numbers[seen.report.number as usize] += 1;
        for (many, (_, met)) in meetings.iter_mut().zip(MEETINGS) {
            *many += u64::from(seen.order.as_ref().is_some_and(met));
        }
        for (many, (_, is)) in by_profile.iter_mut().zip(ASKED) {
            *many += u64::from(seen.asked.as_ref().is_some_and(is));
        }
    }
    // There is no 9.
    let met = (0..numbers.len()).all(|number| (numbers[number] > 0) == (number != 9));
    assert!(met, "{numbers:?}");
    for (many, (name, _)) in by_profile.iter().zip(ASKED) {
        assert!(*many > 0, "{name}");
    }
    for (many, (name, _)) in meetings.iter().zip(MEETINGS) {
        assert!(*many > 0 || name == RARE, "{name}");
    }
}

/// The runs that are refused, at the bounds, and after which the ordered call has 12, 13 or an order.
#[test]
fn fixed_runs_agree() {
    let (_, is_rare) = MEETINGS
        .into_iter()
        .find(|(name, _)| *name == RARE)
        .unwrap();
    let mut rare = 0;
    for (call, told, run) in refusals::all().into_iter().chain(refusals::by_profile()) {
        let seen = check(&run, None).unwrap_or_else(|wrong| panic!("{wrong}{}", run.told()));
        assert_eq!(library(&run, call).report.number, told, "{}", run.told());
        rare += u64::from(seen.order.as_ref().is_some_and(is_rare));
    }
    assert!(rare > 1);
}

#[test]
fn the_readme_case() {
    let reply = library(&run(2, 1, &[3.0, 4.0]), Call::Ordered);
    let settled = Report {
        word: Report::SETTLED,
        range: 1,
        ..Report::default()
    };
    assert_eq!(reply.report, settled);
    assert_eq!(reply.matrix, [-5.0, 0.0]);
    assert_eq!(reply.values, [5.0]);
}

#[test]
fn a_refused_call_writes_nothing() {
    let mut unfit = run(2, 2, &[1.0, f64::NAN, 3.0, 4.0]);
    unfit.start = Start::Given(vec![f64::NAN; 4], vec![7.0; 4]);
    let reply = library(&unfit, Call::Ordered);
    let refused = Report {
        number: 8,
        row: 0,
        column: 1,
        bad: 1,
        ..Report::default()
    };
    assert_eq!(reply.report, refused);
    assert!(check(&unfit, None).is_ok());
}

/// Another value of a word of the report is told by the word's name: of a refusal with bad readings, and
/// of a run.
#[test]
fn each_word_of_the_report_is_seen() {
    let (x, inf) = (f64::NAN, f64::INFINITY);
    for run in [
        run(2, 3, &[1.0, 2.0, 3.0, 4.0, x, inf]),
        run(2, 3, &[1.0, 2.0, 3.0, 4.0, 5.0, 7.0]),
    ] {
        for call in [Call::Plain, Call::Accumulating, Call::Ordered] {
            let (got, must) = (library(&run, call), run.reply(call));
            assert_eq!(differs(&got, &must), None);
            for (word, name) in Report::NAMES.into_iter().enumerate() {
                let mut wrong = got.clone();
                wrong.flip(word, 0);
                let told = Some(format!("the report's {name}"));
                assert_eq!(differs(&wrong, &must), told);
            }
        }
    }
}

/// Runs that end quiet, and such as miss it by one coupling: the library's own words, by every call. The
/// other word in their place is seen.
#[test]
fn quiet_is_told() {
    let least = f64::from_bits(1);
    let most = f64::MAX;
    let runs: [(usize, usize, &[f64], usize, u64); 10] = [
        (2, 2, &[0.0; 4], 3, Report::QUIET),
        (2, 2, &[0.0, -0.0, 0.0, 0.0], 0, Report::QUIET),
        (2, 3, &[0.0, 0.0, 0.0, -0.0, 0.0, 0.0], 0, Report::QUIET),
        (2, 3, &[0.0, 1e-22, 0.0, 0.0, 0.0, 0.0], 0, Report::QUIET),
        (2, 2, &[0.5, -0.5, 0.0, -1.0], 1, Report::QUIET),
        (
            3,
            3,
            &[0.0, 0.0, 0.0, 0.0, 0.0, 1e-13, 0.0, 0.0, 1.0],
            2,
            Report::QUIET,
        ),
        (
            3,
            3,
            &[3.0, 1.0, 0.0, 0.0, 2.0, 0.0, 0.0, 0.0, 1.0],
            0,
            Report::STOPPED,
        ),
        (
            3,
            3,
            &[3.0, 0.0, 0.0, 0.0, 2.0, 1.0, 0.0, 0.0, 1.0],
            0,
            Report::STOPPED,
        ),
        (2, 3, &[0.0, 0.0, 0.0, least, 0.0, 0.0], 0, Report::STOPPED),
        (2, 2, &[most; 4], 0, Report::STOPPED),
    ];
    for (rows, cols, matrix, limit, word) in runs {
        let mut run = run(rows, cols, matrix);
        run.settings.limit = limit;
        let seen = check(&run, None).unwrap_or_else(|wrong| panic!("{wrong}{}", run.told()));
        assert_eq!(seen.corner.unwrap().quiet(), word == Report::QUIET);
        for call in [Call::Plain, Call::Accumulating, Call::Ordered] {
            let (got, must) = (library(&run, call), run.reply(call));
            let number = if call == Call::Ordered { 12 } else { 0 };
            assert_eq!((got.report.number, got.report.word), (number, word));
            let mut wrong = got.clone();
            wrong.report.word = Report::STOPPED + Report::QUIET - word;
            assert_eq!(differs(&wrong, &must).unwrap(), "the report's word");
        }
    }
}

/// The library's own count, by every call: each number that a slip would tell in its place is seen.
#[test]
fn rotations_are_told() {
    for (rows, cols, matrix) in SHOWING.into_iter().chain(INFINITE) {
        let run = run(rows, cols, matrix);
        let seen = check(&run, None).unwrap_or_else(|wrong| panic!("{wrong}{}", run.told()));
        let turned = seen.turned.unwrap();
        assert!(turned.right() && turned.many() > 0);
        for call in [Call::Plain, Call::Accumulating, Call::Ordered] {
            let (got, must) = (library(&run, call), run.reply(call));
            assert_eq!(got.report.rotations, turned.many());
            for (name, many) in slips(&turned) {
                let mut wrong = got.clone();
                wrong.report.rotations = many;
                let told = differs(&wrong, &must);
                assert_eq!(told.as_deref(), Some("the report's rotations"), "{name}");
            }
        }
    }
}

/// The library's own table is the table, and each call by a profile's number is the call with its settings.
/// An answer that is another profile's is seen.
#[test]
fn profiles_are_told() {
    let numbers = (0..300).chain(NO_PROFILE).chain([usize::MAX - 3, 1 << 32]);
    for number in numbers {
        assert!(table_agrees(number), "{number}");
    }
    for run in stored() {
        let seen = check(&run, Some(1_000)).unwrap_or_else(|wrong| panic!("{wrong}{}", run.told()));
        assert!(seen.asked.is_some());
    }
    for apart in apart() {
        let [one, other] = &apart.runs;
        for call in [apart.call, Call::Plain] {
            let got = [one, other].map(|run| library(run, call));
            let must = [one, other].map(|run| run.reply(call));
            for at in [0, 1] {
                assert_eq!(differs(&got[at], &must[at]), None);
                assert!(differs(&got[at], &must[1 - at]).is_some());
            }
        }
    }
    for number in 1..=PROFILES.len() {
        let run = Run {
            profile: Some(number),
            ..run(2, 1, &[3.0, 4.0])
        };
        assert_eq!(library(&run, Call::Ordered).values, [5.0]);
    }
}

/// 10 comes before 8 and after all else, carries no place and leaves everything as it was.
#[test]
fn no_such_profile() {
    let refused = |number: u64| Report {
        number,
        ..Report::default()
    };
    for number in NO_PROFILE {
        let mut unfit = run(2, 2, &[1.0, f64::NAN, 3.0, 4.0]);
        unfit.profile = Some(number);
        unfit.start = Start::Given(vec![f64::NAN; 4], vec![7.0; 4]);
        for call in [Call::Plain, Call::Accumulating, Call::Ordered] {
            assert_eq!(library(&unfit, call).report, refused(10));
        }
        assert!(check(&unfit, None).is_ok());
        unfit.values.clear();
        assert_eq!(library(&unfit, Call::Ordered).report, refused(11));
        assert_eq!(library(&unfit, Call::Accumulating).report, refused(10));
    }
}

/// Tables with bad readings in any places: the library's own reports.
#[test]
fn bad_readings_are_told() {
    for (matrix, told) in [
        ([1.0, 2.0, 3.0, 4.0, 5.0, f64::NAN], [1, 2, 1]),
        ([1.0, 2.0, f64::INFINITY, f64::NAN, 5.0, 6.0], [0, 2, 2]),
        (
            [1.0, 2.0, 3.0, f64::NEG_INFINITY, 5.0, -f64::NAN],
            [1, 0, 2],
        ),
        ([f64::INFINITY; 6], [0, 0, 6]),
    ] {
        for call in [Call::Plain, Call::Accumulating, Call::Ordered] {
            let report = library(&run(2, 3, &matrix), call).report;
            assert_eq!([report.row, report.column, report.bad], told);
            assert_eq!(report.number, 8);
        }
    }
}

/// What is right cannot be made simpler and wrong: the run comes back as it is.
#[test]
fn nothing_to_shrink() {
    let whole = run(3, 2, &[1.0, 2.0, 3.0, 4.0, 5.0, 6.0]);
    assert_eq!(shrunk(&whole, None).matrix, whole.matrix);
}
