//! The stored runs by a profile's number (vectors.rs): each profile in runs of every end, tables that tell
//! the profiles apart, numbers of no profile, 10 with every other refusal; and such runs told wrong on
//! purpose.

use crate::kinds::{Sizes, drawn, with_settings};
use crate::profiles::PROFILES;
use crate::refusals::{self, NO_PROFILE};
use crate::rotations::INFINITE;
use crate::run::{Call, Reply, Run, Start, alike, unwritten};
use crate::vectors::{MOST_PASSES, Told, told};
use crate::{Report, Settings, cases};

const CALLS: [Call; 3] = [Call::Plain, Call::Accumulating, Call::Ordered];

/// How large the tables are that are searched.
const SMALL: Sizes = Sizes::UpTo(5);

/// The drawn tables among which is searched, with U and V as they are drawn. The ordered call is made of
/// all, and none is refused.
fn tables(sizes: Sizes) -> impl Iterator<Item = Run> {
    let run = move |number: u64| Run {
        call: Call::Ordered,
        ..with_settings(0x9F0F, number, sizes).0
    };
    let fit = |run: &Run| {
        let by = by(run, 1, Call::Ordered);
        by.refusal(Call::Ordered).is_none() && run.rows.min(run.cols) > 1
    };
    (0..).map(run).filter(fit)
}

/// The same run by a profile's number, of another call.
fn by(run: &Run, number: usize, call: Call) -> Run {
    Run {
        profile: Some(number),
        call,
        ..run.clone()
    }
}

/// The same run with settings.
fn with(run: &Run, settings: Settings) -> Run {
    Run {
        settings,
        profile: None,
        ..run.clone()
    }
}

/// Whether the two replies are told otherwise.
fn unlike(a: &Reply, b: &Reply) -> bool {
    let lists = [
        (&a.matrix, &b.matrix),
        (&a.u, &b.u),
        (&a.v, &b.v),
        (&a.values, &b.values),
    ];
    a.report != b.report || !lists.iter().all(|(a, b)| alike(a, b))
}

/// By each profile and of each call a run that settles, one that stops and one that ends quiet, in the upper
/// and the lower form by turns; and one of the ordered call that is refused 13.
fn ends() -> Vec<Run> {
    let mut open = Vec::new();
    for number in 1..=PROFILES.len() {
        for call in CALLS {
            for word in [Report::SETTLED, Report::STOPPED, Report::QUIET] {
                let lower = (number as u64 + call as u64 + word) % 2 == 0;
                open.push((number, call, word, lower));
            }
        }
    }
    let mut runs = vec![None; open.len()];
    for run in tables(SMALL) {
        let wanted = |at: &usize| {
            let (number, call, word, lower) = open[*at];
            let left = || by(&run, number, call).reply(Call::Plain).report;
            runs[*at].is_none()
                && lower == (run.cols > run.rows)
                && left().word == word
                && left().passes <= MOST_PASSES
        };
        if let Some(at) = (0..open.len()).find(wanted) {
            let (number, call, ..) = open[at];
            runs[at] = Some(by(&run, number, call));
        }
        if runs.iter().all(Option::is_some) {
            break;
        }
    }
    let infinite = (1..=PROFILES.len()).zip(INFINITE.into_iter().cycle());
    let infinite = infinite.map(|(number, (rows, cols, matrix))| {
        let run = Run::from(cases::case(rows, cols, matrix, Settings::DEFAULT));
        by(&run, number, Call::Ordered)
    });
    runs.into_iter().flatten().chain(infinite).collect()
}

/// A run that tells two profiles apart: made by the one and by the other, its replies are unlike.
#[derive(Clone, Debug)]
pub struct Apart {
    pub call: Call,
    pub numbers: [usize; 2],
    pub runs: [Run; 2],
}

/// For any two profiles and each of the calls such a run, which makes no more passes by either. The call
/// itself tells them apart, and the plain one too.
fn telling(calls: &[Call], sizes: Sizes, most: u64) -> Vec<Apart> {
    let mut found = Vec::new();
    for numbers in [[1, 2], [1, 3], [1, 4], [2, 3], [2, 4], [3, 4]] {
        let mut tables = tables(sizes);
        for &call in calls {
            let tells = |run: Run| {
                let runs = numbers.map(|number| by(&run, number, call));
                let told = |call: Call| {
                    let [one, other] = runs.each_ref().map(|run| run.reply(call));
                    let passes = one.report.passes.max(other.report.passes);
                    passes <= most && unlike(&one, &other)
                };
                (told(Call::Plain) && told(call)).then_some(runs)
            };
            found.push(Apart {
                call,
                numbers,
                runs: tables.find_map(tells).expect("a table"),
            });
        }
    }
    found
}

/// Of those that are stored, by each call.
pub fn apart() -> Vec<Apart> {
    telling(&CALLS, SMALL, MOST_PASSES)
}

/// A setting by its name, and the same settings with that one taken from others.
type Setting = (&'static str, fn(&Settings, &Settings) -> Settings);

/// The settings, one by one.
pub const SETTINGS: [Setting; 5] = [
    ("limit", |own, of| Settings {
        limit: of.limit,
        ..*own
    }),
    ("credit", |own, of| Settings {
        credit: of.credit,
        ..*own
    }),
    ("tolerance", |own, of| Settings {
        tolerance: of.tolerance,
        ..*own
    }),
    ("absolute", |own, of| Settings {
        absolute: of.absolute,
        ..*own
    }),
    ("floor", |own, of| Settings {
        floor: of.floor,
        ..*own
    }),
];

/// What each profile's settings could be taken for, one at a time: another profile's, one more or less of a
/// count, other powers of ten.
fn others(own: &Settings) -> Vec<Settings> {
    let near = [1, -1].map(|step: isize| Settings {
        limit: own.limit.wrapping_add_signed(step),
        credit: own.credit.wrapping_add_signed(step),
        ..*own
    });
    let scaled = [0.1, 10.0].map(|by: f64| Settings {
        tolerance: by * own.tolerance,
        absolute: by * own.absolute,
        floor: by * own.floor,
        ..*own
    });
    let profiles = PROFILES.map(|(_, settings)| settings);
    [&profiles[..], &near, &scaled].concat()
}

/// For each profile and each of its settings a run of the ordered call that the setting shows in: with any
/// other in its place the plain call, too, replies otherwise.
pub fn showing() -> Vec<(&'static str, Run)> {
    let mut runs = Vec::new();
    for (number, (_, settings)) in (1..).zip(PROFILES) {
        for (name, take) in SETTINGS {
            let mut changed: Vec<Settings> = others(&settings)
                .iter()
                .map(|of| take(&settings, of))
                .collect();
            changed.retain(|other| *other != settings);
            let shows = |run: &Run| {
                let reply = |settings: Settings| with(run, settings).reply(Call::Plain);
                let own = reply(settings);
                let other = |other: &Settings| unlike(&own, &reply(*other));
                own.report.passes <= MOST_PASSES && changed.iter().all(other)
            };
            let run = tables(SMALL).find(shows).expect("a table");
            runs.push((name, by(&run, number, Call::Ordered)));
        }
    }
    runs
}

/// A 2 x 2 that each profile settles, with U and V that are no identity.
fn small(call: Call) -> Run {
    Run {
        rows: 2,
        cols: 2,
        settings: Settings::DEFAULT,
        profile: Some(1),
        call,
        matrix: vec![4.0, -6.0, -8.0, -8.0],
        start: Start::Given(vec![2.0, -1.0, 0.5, 3.0], vec![1.0, 7.0, -0.0, 0.25]),
        values: unwritten(2),
    }
}

/// Numbers of no profile: the first four by each call, the others by the ordered one.
fn none() -> impl Iterator<Item = Run> {
    let run = |(at, number): (usize, usize)| {
        let calls = if at < 4 { &CALLS } else { &CALLS[2..] };
        calls
            .iter()
            .map(move |&call| by(&small(call), number, call))
    };
    NO_PROFILE.into_iter().enumerate().flat_map(run)
}

/// All of them.
pub fn stored() -> Vec<Run> {
    let mut runs = ends();
    runs.extend(apart().into_iter().flat_map(|apart| apart.runs));
    runs.extend(showing().into_iter().map(|(_, run)| run));
    runs.extend(none());
    runs.extend(refusals::by_profile().into_iter().map(|(_, _, run)| run));
    let drawn = (0..).map(|number| drawn(0x570E, number, Sizes::UpTo(12)).0);
    let few = |run: &Run| run.profile.is_some() && told(run).first.report.passes <= MOST_PASSES;
    runs.extend(drawn.filter(few).take(12));
    runs
}

/// What is told of the run, with another number alone in its reports: that of a refusal before the run.
fn refused(run: &Run, number: u64) -> Told {
    let mut told = told(run);
    for reply in [Some(&mut told.first), told.ordered.as_mut()]
        .into_iter()
        .flatten()
    {
        reply.report = Report {
            number,
            ..Report::default()
        };
    }
    told
}

/// Runs that are told wrong: each word of a report that is refused by 10; another profile's answer; the
/// answer of a profile's run where there is no such profile, and 10 where there is one; another number in
/// the place of 10, and 10 in the place of another.
pub fn wrong() -> Vec<(Run, Told)> {
    let mut wrong = Vec::new();
    let flips = || (0..Report::NAMES.len()).flat_map(|word| [(word, 0), (word, 63)]);
    for call in CALLS {
        let run = by(&small(call), 5, call);
        for (word, bit) in flips() {
            let mut told = told(&run);
            match &mut told.ordered {
                Some(ordered) => ordered.flip(word, bit),
                None => told.first.flip(word, bit),
            }
            wrong.push((run.clone(), told));
        }
    }
    for Apart { call, runs, .. } in apart() {
        let [one, other] = runs;
        if call != Call::Accumulating {
            wrong.extend([(one.clone(), told(&other)), (other, told(&one))]);
        }
    }
    for (number, none) in [(1, 0), (4, 5), (2, (1 << 32) + 2), (3, usize::MAX)] {
        let run = |number: usize| by(&small(Call::Ordered), number, Call::Ordered);
        wrong.extend([
            (run(none), told(&run(number))),
            (run(number), told(&run(none))),
        ]);
    }
    for (call, number, run) in refusals::by_profile() {
        let numbers: &[u64] = match (number, run.chosen()) {
            // The bad readings' own report, and the numbers in whose place 10 stands.
            (10, None) if run.matrix.iter().any(|x| !x.is_finite()) => {
                let one = by(&run, 1, run.call);
                wrong.push((run.clone(), told(&one)));
                &[6, 7]
            }
            (8, Some(_)) => &[10],
            (3 | 5 | 11, None) => &[10],
            _ => &[],
        };
        for &number in numbers {
            let mut told = refused(&run, number);
            // Of 11 the accumulating call knows nothing: it is told right.
            if call == Call::Ordered {
                told.first = run.reply(Call::Accumulating);
            }
            wrong.push((run.clone(), told));
        }
    }
    wrong
}

/// Cases that can be followed step by step: each profile by each call; tables of few passes that tell two
/// profiles apart, by the one and then by the other; a quiet run; and a 2 x 2 that is accepted and with each
/// refusal, where there is no such profile and then where there is one.
pub fn few() -> Vec<Run> {
    let mut runs = Vec::new();
    for number in 1..=PROFILES.len() {
        for (call, rows, cols) in [
            (Call::Plain, 2, 2),
            (Call::Accumulating, 3, 2),
            (Call::Ordered, 2, 3),
        ] {
            let matrix = &[3.0, 1.0, -2.0, 5.0, 0.5, 7.0][..rows * cols];
            let run = Run::from(cases::case(rows, cols, matrix, Settings::DEFAULT));
            runs.push(by(&run, number, call));
        }
    }
    let apart = telling(&CALLS[2..], Sizes::UpTo(3), 4);
    runs.extend(apart.into_iter().flat_map(|apart| apart.runs));
    let zeros = Run::from(cases::case(2, 2, &[0.0; 4], Settings::DEFAULT));
    runs.push(by(&zeros, 4, Call::Ordered));
    for ((none, one), call) in NO_PROFILE.into_iter().zip(1..).zip(CALLS) {
        runs.extend([none, one].map(|number| by(&small(call), number, call)));
    }
    fn factors(run: &mut Run) -> [&mut Vec<f64>; 2] {
        match &mut run.start {
            Start::Given(u, v) => [u, v],
            Start::Identity => unreachable!("lists are given"),
        }
    }
    let faults: [fn(&mut Run); 8] = [
        |run| run.rows = 0,
        |run| run.cols = 49,
        |run| _ = run.matrix.pop(),
        |run| _ = factors(run)[0].pop(),
        |run| factors(run)[1].push(1.0),
        |run| _ = run.values.pop(),
        |run| run.matrix[1] = f64::NAN,
        |run| run.matrix[2..].fill(f64::INFINITY),
    ];
    let numbers = NO_PROFILE.into_iter().zip((1..=4).cycle());
    for (fault, (none, one)) in faults.into_iter().zip(numbers) {
        let mut run = small(Call::Ordered);
        fault(&mut run);
        runs.extend([none, one].map(|number| by(&run, number, Call::Ordered)));
    }
    runs
}
