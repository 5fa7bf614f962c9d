//! The ordered call's own part: the sort, what moves and is negated with it, the order of the refusals
//! with 11 among them, and the two numbers after the run.

use beside::cases::case;
use beside::order::{ordered, places};
use beside::run::{Call, Reply, Run, Start, unwritten};
use beside::{Report, Settings, refusals};

const SETTLED: Report = Report {
    number: 0,
    row: 0,
    column: 0,
    bad: 0,
    word: Report::SETTLED,
    passes: 3,
    sweeps: 2,
    drops: 1,
    range: 1,
    rotations: 4,
};

/// The bits of a list: -0 is not 0.
fn bits(list: &[f64]) -> Vec<u64> {
    list.iter().map(|x| x.to_bits()).collect()
}

/// What an accumulating run could leave: a 3 x 2 with these two on its diagonal.
fn left(report: Report, diagonal: [f64; 2]) -> Reply {
    Reply {
        report,
        matrix: vec![diagonal[0], f64::NAN, 0.0, diagonal[1], 0.0, f64::INFINITY],
        u: vec![1.0, 2.0, 3.0, 4.0, -0.0, 6.0, 7.0, f64::INFINITY, 9.0],
        v: vec![10.0, 20.0, 30.0, -40.0],
        values: Vec::new(),
    }
}

#[test]
fn the_largest_first_and_equal_ones_as_they_stand() {
    assert_eq!(places(&[]), []);
    let magnitudes = [1.0, -3.0, 3.0, -0.0, 0.0, 1.0, -3.0, 5e-324, f64::MAX];
    assert_eq!(places(&magnitudes), [8, 1, 2, 6, 0, 5, 7, 3, 4]);
}

/// By the rule itself: i comes before j exactly when its magnitude is the larger one, or they are equal
/// and i is below j.
#[test]
fn the_sort_keeps_the_rule() {
    let mut state = 7u64;
    for length in 1..=48 {
        let mut drawn = || {
            state = state
                .wrapping_mul(6_364_136_223_846_793_005)
                .wrapping_add(1);
            ((state >> 60) as f64 - 8.0) * 0.5
        };
        let diagonal: Vec<f64> = (0..length).map(|_| drawn()).collect();
        let places = places(&diagonal);
        let at = |i: usize| {
            places
                .iter()
                .position(|&place| place == i)
                .expect("each once")
        };
        for i in 0..length {
            for j in (0..length).filter(|&j| j != i) {
                let (a, b) = (diagonal[i].abs(), diagonal[j].abs());
                assert_eq!(at(i) < at(j), a > b || (a == b && i < j), "{diagonal:?}");
            }
        }
        assert_eq!(places.len(), length);
    }
}

#[test]
fn columns_move_with_their_values() {
    let run = left(SETTLED, [1.0, -2.0]);
    let reply = ordered(3, 2, &run, &unwritten(2));
    assert_eq!(reply.report, SETTLED);
    assert_eq!(reply.values, [2.0, 1.0]);
    assert_eq!(bits(&reply.matrix), bits(&run.matrix));
    let u = [-2.0, 1.0, 3.0, 0.0, 4.0, 6.0, f64::NEG_INFINITY, 7.0, 9.0];
    assert_eq!(bits(&reply.u), bits(&u));
    assert_eq!(reply.v, [20.0, 10.0, -40.0, 30.0]);
}

#[test]
fn equal_values_stay_and_each_has_its_sign() {
    let run = left(SETTLED, [-2.0, 2.0]);
    let reply = ordered(3, 2, &run, &unwritten(2));
    assert_eq!(reply.values, [2.0, 2.0]);
    let u = [-1.0, 2.0, 3.0, -4.0, -0.0, 6.0, -7.0, f64::INFINITY, 9.0];
    assert_eq!(bits(&reply.u), bits(&u));
    assert_eq!(reply.v, run.v);
}

#[test]
fn minus_zero_is_negated() {
    let run = left(SETTLED, [0.0, -0.0]);
    let reply = ordered(3, 2, &run, &unwritten(2));
    assert_eq!(bits(&reply.values), [0, 0]);
    let u = [1.0, -2.0, 3.0, 4.0, 0.0, 6.0, 7.0, f64::NEG_INFINITY, 9.0];
    assert_eq!(bits(&reply.u), bits(&u));
}

/// With 12 and 13 the list is as it was, and all else but the number as the run left it.
#[test]
fn after_the_run() {
    let stopped = Report {
        word: Report::STOPPED,
        range: 2,
        ..SETTLED
    };
    let strange = [f64::NAN, f64::INFINITY, f64::NEG_INFINITY];
    for (number, report, diagonal) in [(12, stopped, [1.0, 2.0]), (12, stopped, [1.0, f64::NAN])]
        .into_iter()
        .chain(strange.map(|value| (13, SETTLED, [value, 1.0])))
        .chain(strange.map(|value| (13, SETTLED, [1.0, value])))
    {
        let run = left(report, diagonal);
        let list = [f64::from_bits(0x7FF0_0000_0000_0123), -0.0];
        let reply = ordered(3, 2, &run, &list);
        assert_eq!(reply.report, Report { number, ..report });
        assert_eq!(bits(&reply.values), bits(&list));
        let lists = |reply: &Reply| [&reply.matrix, &reply.u, &reply.v].map(|list| bits(list));
        assert_eq!(lists(&reply), lists(&run));
    }
}

/// Every fault at once, and then one after the other repaired: the numbers come in the rules' order.
#[test]
fn the_order_of_the_refusals() {
    let settings = Settings {
        limit: 100_001,
        floor: 0.0,
        ..Settings::DEFAULT
    };
    let faulty = Run {
        rows: 0,
        cols: 49,
        settings,
        profile: None,
        call: Call::Ordered,
        matrix: vec![1.0, f64::NAN],
        start: Start::Given(vec![1.0], vec![1.0]),
        values: vec![1.0],
    };
    let repairs: [fn(&mut Run); 9] = [
        |run| run.rows = 3,
        |run| run.cols = 2,
        |run| run.matrix.resize(6, f64::INFINITY),
        |run| run.start = Start::Given(vec![1.0; 9], vec![1.0]),
        |run| run.start = Start::Identity,
        |run| run.values.push(1.0),
        |run| run.settings.limit = 100,
        |run| run.settings.floor = 1e-21,
        |run| run.matrix.fill(1.0),
    ];
    // Bad readings are there from the start, and only 8 speaks of them.
    let refused = |number: u64| match number {
        8 => Report::from([8, 0, 1, 5, 0, 0, 0, 0, 0, 0]),
        _ => Report::from([number, 0, 0, 0, 0, 0, 0, 0, 0, 0]),
    };
    for (call, numbers) in [
        (Call::Ordered, [1, 2, 3, 4, 5, 11, 6, 7, 8]),
        (Call::Accumulating, [1, 2, 3, 4, 5, 6, 6, 7, 8]),
        (Call::Plain, [1, 2, 3, 6, 6, 6, 6, 7, 8]),
    ] {
        let mut run = faulty.clone();
        for (number, repair) in numbers.into_iter().zip(repairs) {
            assert_eq!(run.refusal(call), Some(refused(number)), "{call:?}");
            repair(&mut run);
        }
        assert_eq!(run.refusal(call), None);
    }
}

/// The list's length is the smaller size, whichever that is.
#[test]
fn the_length_of_the_list() {
    for (rows, cols) in [(3, 2), (2, 3), (1, 4), (4, 1), (3, 3)] {
        for length in 0..6 {
            let run = Run {
                values: unwritten(length),
                ..Run::from(case(rows, cols, &vec![1.0; rows * cols], Settings::DEFAULT))
            };
            let refused = run.refusal(Call::Ordered).map(|report| report.number);
            assert_eq!(refused, (length != rows.min(cols)).then_some(11));
            assert_eq!(run.refusal(Call::Accumulating), None);
        }
    }
}

/// A real run of each outcome, by the original: refused before it, 12, 13 and values in order, with the
/// cases that the order is easily got wrong by.
#[test]
fn the_fixed_runs_show_the_order() {
    let runs = refusals::all();
    let ordered = || runs.iter().filter(|(call, ..)| *call == Call::Ordered);
    let replies = |number: u64| {
        let such = ordered().filter(move |(_, told, _)| *told == number);
        such.map(|(_, _, run)| (run, run.reply(Call::Accumulating), run.reply(Call::Ordered)))
    };
    for number in [11, 12, 13] {
        assert!(replies(number).count() >= 3, "{number}");
        for (run, kept, reply) in replies(number) {
            assert_eq!(reply.report.number, number);
            assert_eq!(reply.values, run.values);
            if number > 11 {
                assert_eq!(
                    Report {
                        number: 0,
                        ..reply.report
                    },
                    kept.report
                );
                assert_eq!(bits(&reply.matrix), bits(&kept.matrix));
            }
        }
    }
    let diagonal = |(run, kept, _): &(&Run, Reply, Reply)| {
        beside::order::diagonal(run.rows, run.cols, &kept.matrix)
    };
    let shows = |test: &dyn Fn(&[f64]) -> bool| replies(0).any(|it| test(&diagonal(&it)));
    assert!(shows(&|d| !places(d).is_sorted()));
    assert!(shows(&|d| d
        .windows(2)
        .any(|two| two[0] == -two[1] && two[0] != 0.0)));
    assert!(shows(&|d| d.iter().any(|x| x.to_bits() == 1 << 63)));
    assert!(shows(&|d| d.iter().filter(|&&x| x == 0.0).count() > 1));
    let infinite = replies(13).any(|it| diagonal(&it).iter().any(|x| x.is_infinite()));
    let nan = replies(13).any(|it| diagonal(&it).iter().any(|x| x.is_nan()));
    let several = replies(13).any(|it| diagonal(&it).len() > 1);
    let before_13 = replies(12).any(|it| diagonal(&it).iter().any(|x| !x.is_finite()));
    assert!(infinite && nan && several && before_13);
}
