//! The table of profiles, what a run by a profile's number must get, and that such runs are drawn with
//! everything else that is refused.

use beside::by_number::{self, Apart, SETTINGS};
use beside::kinds::{Sizes, drawn, with_settings};
use beside::profiles::{PROFILES, profile};
use beside::refusals::NO_PROFILE;
use beside::run::{Call, Reply, Run, Start, untouched};
use beside::vectors::{self, Told};
use beside::{Report, Settings, cases};

const CALLS: [Call; 3] = [Call::Plain, Call::Accumulating, Call::Ordered];

fn same(a: &Reply, b: &Reply) -> bool {
    let lists = |reply: &Reply| {
        let Reply {
            matrix,
            u,
            v,
            values,
            ..
        } = reply.clone();
        [matrix, u, v, values].concat()
    };
    a.report == b.report && untouched(&lists(a), &lists(b))
}

/// The doubles of the table, and which numbers have a profile.
#[test]
fn the_table() {
    let bits = PROFILES.map(|(_, settings)| {
        let Settings {
            tolerance,
            absolute,
            floor,
            ..
        } = settings;
        [tolerance, absolute, floor].map(f64::to_bits)
    });
    let floor = 0x3B92_E3B4_0A0E_9B4F;
    assert_eq!(
        bits,
        [
            [0x3DDB_7CDF_D9D7_BDBB, 0x3D71_9799_812D_EA11, floor],
            [0x3D71_9799_812D_EA11, 0x3D3C_25C2_6849_7682, floor],
            [0x3D3C_25C2_6849_7682, 0x3D06_849B_86A1_2B9B, floor],
            [0x3EB0_C6F7_A0B5_ED8D, 0x3E45_798E_E230_8C3A, floor],
        ]
    );
    for (number, row) in (1..).zip(PROFILES) {
        assert_eq!(profile(number), Some(row));
    }
    for number in [0, 5, 6, 257, (1 << 32) + 2, (1 << 63) + 1, usize::MAX] {
        assert_eq!(profile(number), None);
    }
}

/// 6 and 7 have nothing to say of a profile.
#[test]
fn every_profile_is_accepted() {
    for (name, settings) in PROFILES {
        let run = Run::from(cases::case(2, 2, &[2.0, 1.0, 0.0, 1.0], settings));
        for call in CALLS {
            assert_eq!(run.refusal(call), None, "{name}");
        }
    }
}

/// Drawn runs of every kind: by a profile's number they get what they get with its settings, whatever
/// their own are; by another number they are refused.
#[test]
fn as_with_its_settings() {
    let mut refused = [0; 14];
    for number in 0..3_000 {
        let (run, _) = with_settings(23, number, Sizes::UpTo(7));
        for (number, (_, settings)) in (1..).zip(PROFILES) {
            let by = Run {
                profile: Some(number),
                ..run.clone()
            };
            let with = Run {
                settings,
                ..run.clone()
            };
            assert_eq!(by.chosen(), Some(settings));
            for call in CALLS {
                let reply = by.reply(call);
                assert!(same(&reply, &with.reply(call)), "{}", by.told());
                refused[reply.report.number as usize] += 1;
            }
        }
        let none = Run {
            profile: Some(5),
            ..run.clone()
        };
        assert_eq!(none.chosen(), None);
        for call in CALLS {
            let reply = none.reply(call);
            assert_eq!((reply.report.word, reply.report.row), (0, 0));
            assert!((1..6).contains(&reply.report.number) || reply.report.number > 9);
            let lent = Reply {
                report: reply.report,
                ..none.lent(call)
            };
            assert!(same(&reply, &lent));
        }
    }
    for number in [0, 1, 2, 3, 4, 5, 8, 11, 12, 13] {
        assert!(refused[number] > 0, "{number}");
    }
    assert_eq!([6, 7, 9, 10].map(|number| refused[number]), [0; 4]);
}

/// Every fault at once, and then one after the other repaired: 10 comes in the place of 6 and 7.
#[test]
fn the_order_of_the_refusals() {
    let faulty = Run {
        rows: 0,
        cols: 49,
        settings: Settings {
            limit: 100_001,
            floor: 0.0,
            ..Settings::DEFAULT
        },
        profile: Some(0),
        call: Call::Ordered,
        matrix: vec![1.0, f64::NAN],
        start: Start::Given(vec![1.0], vec![1.0]),
        values: vec![1.0],
    };
    let repairs: [fn(&mut Run); 8] = [
        |run| run.rows = 3,
        |run| run.cols = 2,
        |run| run.matrix.resize(6, f64::INFINITY),
        |run| run.start = Start::Given(vec![1.0; 9], vec![1.0]),
        |run| run.start = Start::Identity,
        |run| run.values.push(1.0),
        |run| run.profile = Some(4),
        |run| run.matrix.fill(1.0),
    ];
    let refused = |number: u64| match number {
        8 => Report::from([8, 0, 1, 5, 0, 0, 0, 0, 0, 0]),
        _ => Report::from([number, 0, 0, 0, 0, 0, 0, 0, 0, 0]),
    };
    for (call, numbers) in [
        (Call::Ordered, [1, 2, 3, 4, 5, 11, 10, 8]),
        (Call::Accumulating, [1, 2, 3, 4, 5, 10, 10, 8]),
        (Call::Plain, [1, 2, 3, 10, 10, 10, 10, 8]),
    ] {
        let mut run = faulty.clone();
        for (number, repair) in numbers.into_iter().zip(repairs) {
            assert_eq!(run.refusal(call), Some(refused(number)), "{call:?}");
            repair(&mut run);
        }
        assert_eq!(run.refusal(call), None);
    }
}

/// The faults of a run, by number: all that the ordered call would say if it said each of them.
fn faults(run: &Run) -> Vec<u64> {
    let (rows, cols) = (run.rows, run.cols);
    let mut faults = Vec::new();
    let mut add = |number: u64, so: bool| {
        if so {
            faults.push(number);
        }
    };
    add(1, rows == 0 || cols == 0);
    add(2, rows > 48 || cols > 48);
    add(3, run.matrix.len() != rows.wrapping_mul(cols));
    if let Start::Given(u, v) = &run.start {
        add(4, u.len() != rows.wrapping_mul(rows));
        add(5, v.len() != cols.wrapping_mul(cols));
    }
    add(11, run.values.len() != rows.min(cols));
    add(8, run.matrix.iter().any(|x| !x.is_finite()));
    faults
}

/// One run in four is by a profile, and all else of it is as it is with settings. Each profile is met, each
/// kind of number that is none, and 10 with every other refusal.
#[test]
fn every_kind_is_drawn() {
    let many = 40_000;
    let (mut by, mut of, mut none) = (0, [0; 5], 0);
    let (mut cut, mut large) = (0, 0);
    let (mut with_none, mut with_one) = ([0; 14], [0; 14]);
    for number in 0..many {
        let (run, kind) = drawn(1, number, Sizes::UpTo(12));
        let (other, same_kind) = with_settings(1, number, Sizes::UpTo(12));
        assert_eq!((kind, run.call), (same_kind, other.call));
        let alike = Run {
            profile: run.profile,
            ..other
        };
        assert_eq!(format!("{run:?}"), format!("{alike:?}"));
        let Some(number) = run.profile else {
            continue;
        };
        by += 1;
        if let 1..=4 = number {
            of[number] += 1;
        } else {
            none += 1;
            cut += u64::from((1..5).contains(&(number as u32)));
            large += u64::from(number > 1 << 63);
            of[0] += u64::from(number == 0);
        }
        for fault in faults(&run) {
            match number {
                1..=4 => with_one[fault as usize] += 1,
                _ => with_none[fault as usize] += 1,
            }
        }
    }
    assert!((many / 5..many / 3).contains(&by), "{by}");
    assert!(of.iter().all(|&times| times > 200), "{of:?}");
    assert!(
        none > 1_000 && cut > 100 && large > 100,
        "{none} {cut} {large}"
    );
    for number in [1, 2, 3, 4, 5, 8, 11] {
        let times = [with_none[number], with_one[number]];
        assert!(times.iter().all(|&times| times > 20), "{number}: {times:?}");
    }
}

/// What is told of a run names the profile.
#[test]
fn told_by_name() {
    let run = |number: usize| Run {
        profile: Some(number),
        ..Run::from(cases::case(1, 1, &[3.0], Settings::DEFAULT))
    };
    let first = |number: usize| run(number).told().lines().next().unwrap().to_string();
    assert_eq!(first(2), "ordered call, 1 x 1, profile 2 (hot wire)");
    assert_eq!(first(7), "ordered call, 1 x 1, profile 7 (there is none)");
}

/// The stored runs by a profile's number: every profile has each word and each call, the ordered one with
/// 0, 12 and 13; every number of no profile is there, and 10 with each other refusal.
#[test]
fn the_stored_runs() {
    let runs = by_number::stored();
    let of = |such: &dyn Fn(&Run) -> bool| runs.iter().filter(|run| such(run)).count();
    for (number, (name, _)) in (1..).zip(PROFILES) {
        let own = |run: &Run, call: Call| (run.profile, run.call) == (Some(number), call);
        for call in CALLS {
            for word in [Report::SETTLED, Report::STOPPED, Report::QUIET] {
                let such = |run: &Run| own(run, call) && run.reply(Call::Plain).report.word == word;
                assert!(of(&such) > 0, "{name} {call:?} {word}");
            }
        }
        for told in [0, 12, 13] {
            let such = |run: &Run| {
                own(run, Call::Ordered) && run.reply(Call::Ordered).report.number == told
            };
            assert!(of(&such) > 0, "{name} {told}");
        }
    }
    for number in NO_PROFILE {
        assert!(profile(number).is_none());
        assert!(of(&|run| run.profile == Some(number)) > 0, "{number}");
    }
    let mut together = [0; 14];
    for run in runs.iter().filter(|run| run.chosen().is_none()) {
        for fault in faults(run) {
            together[fault as usize] += 1;
        }
    }
    for number in [1, 2, 3, 4, 5, 8, 11] {
        assert!(together[number] > 0, "{number}");
    }
    assert!(runs.iter().all(|run| run.profile.is_some()));
}

/// Any two profiles are told apart by each call, and each setting of each profile shows.
#[test]
fn the_stored_runs_tell_the_profiles_apart() {
    let apart = by_number::apart();
    assert_eq!(apart.len(), 18);
    for Apart {
        call,
        numbers: [one, other],
        runs,
    } in &apart
    {
        assert_eq!(
            runs.each_ref().map(|run| run.profile),
            [Some(*one), Some(*other)]
        );
        assert!(one < other);
        for call in [*call, Call::Plain] {
            let [one, other] = runs.each_ref().map(|run| run.reply(call));
            assert_eq!((one.report.number % 12, other.report.number % 12), (0, 0));
            assert!(!same(&one, &other));
        }
    }
    for numbers in [[1, 2], [1, 3], [1, 4], [2, 3], [2, 4], [3, 4]] {
        let such = apart.iter().filter(|apart| apart.numbers == numbers);
        assert_eq!(such.count(), 3);
    }
    let showing = by_number::showing();
    assert_eq!(showing.len(), 4 * SETTINGS.len());
    let shown = (1..).zip(PROFILES).zip(showing.chunks(SETTINGS.len()));
    for ((number, (profile, own)), runs) in shown {
        for ((setting, run), (name, take)) in runs.iter().zip(SETTINGS) {
            assert_eq!((*setting, run.profile), (name, Some(number)));
            for (_, other) in PROFILES {
                let settings = take(&own, &other);
                let with = Run {
                    settings,
                    profile: None,
                    ..run.clone()
                };
                let alike = same(&with.reply(Call::Plain), &run.reply(Call::Plain));
                assert_eq!(alike, settings == own, "{name} of {profile}");
            }
        }
    }
}

/// Of those that are wrong on purpose, each is wrong in what it is there for.
#[test]
fn the_wrong_runs() {
    let wrong = by_number::wrong();
    let mut told = [[0; 14]; 14];
    for (run, other) in &wrong {
        let right = vectors::told(run);
        let last = |told: &Told| told.ordered.as_ref().unwrap_or(&told.first).report.number;
        if last(other) < 14 {
            told[last(&right) as usize][last(other) as usize] += 1;
        }
    }
    for (right, other) in [
        (0, 0),
        (0, 10),
        (10, 0),
        (10, 6),
        (10, 7),
        (10, 8),
        (8, 10),
        (3, 10),
        (5, 10),
        (11, 10),
    ] {
        assert!(told[right][other] > 0, "{other} for {right}");
    }
}
