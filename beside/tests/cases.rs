//! The fixed list of cases is what it is meant to be, and the laws of the walk hold on it.

use beside::cases::{MOST_PASSES, all};
use beside::text::{Case, hexes};
use beside::{Report, Settings};

#[test]
fn lines_read_back() {
    for case in all() {
        let line = case.to_string();
        assert_eq!(Case::read(&line).unwrap().to_string(), line);
    }
}

#[test]
fn malformed_lines_are_refused() {
    let head = "1 1 100 50 3DDB7CDFD9D7BDBB 3D719799812DEA11 3B92E3B40A0E9B4F";
    let one = "3FF0000000000000";
    assert!(Case::read(&format!("{head} | {one} | - | -")).is_ok());
    for wrong in [
        format!("{head} | {one}"),
        format!("{head} | {one} | - | {one}"),
        format!("{head} | {one} {one} | - | -"),
        format!("{head} | 3ff0000000000000 | - | -"),
        format!("{head} 1 | {one} | - | -"),
        format!("0 1 {} | {one} | - | -", &head[4..]),
        String::new(),
    ] {
        assert!(Case::read(&wrong).is_err(), "{wrong}");
    }
}

#[test]
fn fit_and_short() {
    for case in all() {
        assert!(
            case.matrix.iter().all(|reading| reading.is_finite()),
            "{case}"
        );
        let Settings {
            limit,
            credit,
            tolerance,
            absolute,
            floor,
        } = case.settings;
        assert!(limit <= 100_000 && credit <= 1_000, "{case}");
        assert!(tolerance.is_finite() && tolerance >= 0.0, "{case}");
        assert!(absolute.is_finite() && absolute >= 0.0, "{case}");
        assert!(floor.is_finite() && floor > 0.0, "{case}");
        assert!(
            case.answer().unwrap().report.passes <= MOST_PASSES,
            "{case}"
        );
    }
}

#[test]
fn counts() {
    for case in all() {
        let report = case.answer().unwrap().report;
        let card = case.rows.min(case.cols) as u64;
        assert_eq!(report.passes, report.sweeps + report.drops, "{case}");
        assert_eq!(report.drops, card - report.range, "{case}");
        let bound = match card {
            1 => 0,
            _ => case.settings.limit as u64 + case.settings.credit as u64 * (card - 2),
        };
        assert!(report.passes <= bound, "{case}");
        let turns = 2 * (card - 1) * report.sweeps;
        assert!(report.rotations <= turns, "{case}");
        assert!(report.drops > 0 || report.rotations == turns, "{case}");
    }
}

#[test]
fn settled_stays() {
    for mut case in all() {
        let before = case.answer().unwrap();
        if before.report.word == Report::SETTLED {
            case.settings.limit += 7;
            assert_eq!(
                case.answer().unwrap().to_string(),
                before.to_string(),
                "{case}"
            );
        }
    }
}

#[test]
fn much_is_shown() {
    let cases = all();
    let answers: Vec<_> = cases.iter().map(|case| case.answer().unwrap()).collect();
    for rows in 1..=4 {
        for cols in 1..=4 {
            assert!(
                cases
                    .iter()
                    .any(|case| (case.rows, case.cols) == (rows, cols))
            );
        }
    }
    let answers_with = |test: &dyn Fn(f64) -> bool| {
        answers
            .iter()
            .filter(|answer| answer.matrix.iter().any(|&x| test(x)))
            .count()
    };
    assert!(answers_with(&f64::is_nan) >= 3);
    assert!(answers_with(&f64::is_infinite) >= 1);
    assert!(answers_with(&f64::is_subnormal) >= 3);
    let walks = || answers.iter().filter(|answer| answer.report.passes > 0);
    assert!(
        walks()
            .filter(|answer| answer.report.word == Report::SETTLED)
            .count()
            >= 10
    );
    assert!(
        walks()
            .filter(|answer| answer.report.word == Report::STOPPED)
            .count()
            >= 10
    );
    assert!(walks().any(|answer| answer.report.drops > 0 && answer.report.range > 1));
    assert!(cases.iter().any(|case| case.uv.is_none()));
    let text = cases.iter().map(Case::to_string).collect::<String>();
    assert!(text.contains(&hexes(&[f64::NAN])) && text.contains(&hexes(&[f64::INFINITY])));
}
