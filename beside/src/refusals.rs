//! Runs that are refused: by each number in several ways, by two numbers that follow one another and by
//! each number together with 8, where the first counts; by 8 with bad readings in every choice of a
//! small table's places. Then runs at the bounds of what is accepted, and runs after which the ordered
//! call answers 12, 13, or values in order.

use crate::Settings;
use crate::readings::every_choice;
use crate::rotations::INFINITE;
use crate::run::{Call, Run, Start, unwritten};

/// A change to a run.
type Fault = fn(&mut Run);

/// The whole list: each run with one of its calls, and the number that this call is to answer.
pub fn all() -> Vec<(Call, u64, Run)> {
    let mut runs = Vec::new();
    let mut add = |call: Call, told: Vec<(u64, Run)>| {
        runs.extend(told.into_iter().map(|(number, run)| (call, number, run)));
    };
    for call in [Call::Accumulating, Call::Plain] {
        add(call, refused(call));
        add(
            call,
            ALLOWED.map(|change| (0, with(call, &[change]))).into(),
        );
    }
    add(Call::Accumulating, from_the_identity());
    add(Call::Accumulating, bad_in_long_tables());
    add(Call::Ordered, refused(Call::Ordered));
    add(Call::Ordered, after_the_run());
    add(Call::Ordered, bad_before_the_run());
    runs
}

/// Runs that the call refuses before its run, each with its number. The ordered call refuses what the
/// accumulating one does; listed of it are those with a fault of 11.
fn refused(call: Call) -> Vec<(u64, Run)> {
    let listed = |number: u64| call != Call::Ordered || number == 11;
    let mut runs = Vec::new();
    for (number, faults) in NUMBERS {
        for fault in faults.iter().filter(|_| call.has(number) && listed(number)) {
            runs.push((number, with(call, &[*fault])));
        }
    }
    if listed(8) {
        let run = with(call, &[]);
        let spoiled = |matrix: Vec<f64>| Run {
            matrix,
            ..run.clone()
        };
        runs.extend(every_choice(&run.matrix).map(|matrix| (8, spoiled(matrix))));
    }
    for (number, faults) in NUMBERS {
        let mut spoiled = faults.iter().map(|fault| with(call, &[*fault, BAD_END]));
        if call.has(number) && listed(number) {
            let left = |run: &Run| run.matrix.len() > GOOD;
            runs.push((number, spoiled.find(left).expect("readings are left")));
        }
    }
    let mut faults = PAIRED.to_vec();
    faults.retain(|&(number, _)| call.has(number));
    for two in faults.windows(2) {
        let [(number, one), (next, other)] = [two[0], two[1]];
        if listed(number) || listed(next) {
            runs.push((number, with(call, &[one, other])));
        }
    }
    runs
}

/// Runs by a profile's number: each other refusal together with 10, where there is no such profile, and by
/// itself, where there is one; three at once; and 10 before a run that has not settled or has no finite
/// values.
pub fn by_profile() -> Vec<(Call, u64, Run)> {
    let mut none = NO_PROFILE.into_iter().cycle();
    let mut one = (1..=4).cycle();
    let mut runs = Vec::new();
    let mut add = |call: Call, number: u64, faults: &[Fault]| {
        let run = with(call, faults);
        let told = if number == 8 { 10 } else { number };
        for (told, profile) in [(told, none.next()), (number, one.next())] {
            let run = run.clone();
            runs.push((call, told, Run { profile, ..run }));
        }
    };
    for call in [Call::Plain, Call::Accumulating, Call::Ordered] {
        let own = |number: u64| (call == Call::Ordered) == (number == 11);
        for (number, fault) in PAIRED {
            if call.has(number) && own(number) && ![6, 7].contains(&number) {
                add(call, number, &[fault]);
            }
        }
    }
    add(Call::Accumulating, 3, &[SHORT, BAD_READING]);
    add(Call::Ordered, 11, &[SHORT_LIST, BAD_READING]);
    for later in [12, 13] {
        let such = |(number, _): &(u64, Run)| *number == later;
        let (_, run) = after_the_run().into_iter().find(such).expect("one");
        let profile = none.next();
        runs.push((Call::Ordered, 10, Run { profile, ..run }));
    }
    runs
}

/// Numbers of no profile. All but the first three are that of one in their lower bits.
pub const NO_PROFILE: [usize; 10] = [
    0,
    5,
    usize::MAX,
    (1 << 32) + 2,
    (1 << 32) + 1,
    (1 << 8) + 3,
    (1 << 16) + 4,
    (1 << 31) + 1,
    (1 << 48) + 3,
    (1 << 63) + 4,
];

/// Lists of the lengths that the sizes ask for.
fn fitted(run: &mut Run) {
    let list = |length: usize| (0..length).map(|at| at as f64 - 2.5).collect::<Vec<f64>>();
    run.matrix = list(run.rows * run.cols);
    run.start = Start::Given(list(run.rows * run.rows), list(run.cols * run.cols));
    run.values = unwritten(run.rows.min(run.cols));
}

/// A 3 x 2 that is accepted, after the faults. Where the call is lent U and V, the ordered one is made
/// of it as well.
fn with(call: Call, faults: &[Fault]) -> Run {
    let mut run = Run {
        rows: 3,
        cols: 2,
        settings: Settings::DEFAULT,
        profile: None,
        call: if call.keeps() { Call::Ordered } else { call },
        matrix: Vec::new(),
        start: Start::Identity,
        values: Vec::new(),
    };
    fitted(&mut run);
    for fault in faults {
        fault(&mut run);
    }
    run
}

fn u(run: &mut Run) -> &mut Vec<f64> {
    match &mut run.start {
        Start::Given(u, _) => u,
        Start::Identity => unreachable!("lists are given"),
    }
}

fn v(run: &mut Run) -> &mut Vec<f64> {
    match &mut run.start {
        Start::Given(_, v) => v,
        Start::Identity => unreachable!("lists are given"),
    }
}

const NO_ROWS: Fault = |run| {
    run.rows = 0;
    fitted(run);
};
const NO_COLUMNS: Fault = |run| {
    run.cols = 0;
    fitted(run);
};
const MANY_ROWS: Fault = |run| {
    run.rows = 49;
    fitted(run);
};
const MANY_COLUMNS: Fault = |run| {
    run.cols = 49;
    fitted(run);
};
const SHORT: Fault = |run| run.matrix.truncate(run.matrix.len() - 1);
const SHORT_U: Fault = |run| u(run).truncate(8);
const SHORT_V: Fault = |run| v(run).truncate(3);
const SHORT_LIST: Fault = |run| run.values.truncate(1);
const OVER_LIMIT: Fault = |run| run.settings.limit = 100_001;
const BELOW_ZERO: Fault = |run| run.settings.tolerance = -1.0;
const BAD_READING: Fault = |run| run.matrix[3] = f64::INFINITY;
/// How many readings stand before those that are bad at the end: of a 3 x 2 the first bad one is in row 1
/// and column 1.
const GOOD: usize = 3;
const BAD_END: Fault = |run| {
    let others = run.matrix.iter_mut().skip(GOOD);
    others.for_each(|reading| *reading = f64::NEG_INFINITY);
};

/// The faults of each number but 8, in the order in which the numbers count.
const NUMBERS: [(u64, &[Fault]); 8] = [
    (
        1,
        &[
            NO_ROWS,
            NO_COLUMNS,
            |run| run.rows = 0,
            |run| (run.rows, run.cols) = (0, 0),
            |run| (run.rows, run.cols) = (0, usize::MAX),
        ],
    ),
    (
        2,
        &[
            MANY_ROWS,
            MANY_COLUMNS,
            |run| run.rows = 49,
            |run| run.cols = 1 << 63,
            |run| run.rows = usize::MAX,
            // Rows times columns would be 0.
            |run| {
                (run.rows, run.cols) = (1 << 32, 1 << 32);
                run.matrix.clear();
            },
        ],
    ),
    (
        3,
        &[
            SHORT,
            |run| run.matrix.push(1.0),
            |run| run.matrix.clear(),
            |run| run.matrix.resize(9, 1.0),
        ],
    ),
    (
        4,
        &[
            SHORT_U,
            |run| u(run).push(1.0),
            |run| u(run).clear(),
            |run| u(run).truncate(4),
        ],
    ),
    (
        5,
        &[
            SHORT_V,
            |run| v(run).push(1.0),
            |run| v(run).clear(),
            |run| v(run).resize(9, 1.0),
        ],
    ),
    (
        11,
        &[
            SHORT_LIST,
            // One long: as many as there are rows, and as many as there are columns.
            |run| run.values.push(1.0),
            |run| {
                (run.rows, run.cols) = (2, 3);
                fitted(run);
                run.values.push(1.0);
            },
            |run| run.values.clear(),
            |run| run.values.resize(48, 1.0),
        ],
    ),
    (
        6,
        &[
            OVER_LIMIT,
            |run| run.settings.limit = usize::MAX,
            |run| run.settings.credit = 1_001,
            |run| run.settings.credit = 1 << 63,
        ],
    ),
    (
        7,
        &[
            BELOW_ZERO,
            |run| run.settings.tolerance = -f64::from_bits(1),
            |run| run.settings.tolerance = f64::INFINITY,
            |run| run.settings.tolerance = f64::NAN,
            |run| run.settings.absolute = -1e-300,
            |run| run.settings.absolute = f64::NEG_INFINITY,
            |run| run.settings.absolute = f64::INFINITY,
            |run| run.settings.absolute = f64::NAN,
            |run| run.settings.floor = 0.0,
            |run| run.settings.floor = -0.0,
            |run| run.settings.floor = -1e-21,
            |run| run.settings.floor = f64::INFINITY,
            |run| run.settings.floor = f64::NAN,
        ],
    ),
];

/// A fault of each number, in the same order. Any two that follow one another can be put together.
const PAIRED: [(u64, Fault); 9] = [
    (1, NO_ROWS),
    (2, MANY_COLUMNS),
    (3, SHORT),
    (4, SHORT_U),
    (5, SHORT_V),
    (11, SHORT_LIST),
    (6, OVER_LIMIT),
    (7, BELOW_ZERO),
    (8, BAD_READING),
];

/// At the bounds of what is accepted.
const ALLOWED: [Fault; 8] = [
    |_| (),
    |run| run.settings.limit = 100_000,
    |run| run.settings.limit = 0,
    |run| run.settings.credit = 1_000,
    |run| (run.settings.tolerance, run.settings.absolute) = (-0.0, -0.0),
    |run| (run.settings.tolerance, run.settings.absolute) = (f64::MAX, f64::MAX),
    |run| run.settings.floor = f64::from_bits(1),
    |run| run.settings.floor = f64::MAX,
];

/// Refused with U and V filled with the identity.
fn from_the_identity() -> Vec<(u64, Run)> {
    let faults = [
        (3, SHORT),
        (6, OVER_LIMIT),
        (7, BELOW_ZERO),
        (8, BAD_READING),
    ];
    let run = |(number, fault): (u64, Fault)| {
        let start = Start::Identity;
        let run = with(Call::Accumulating, &[fault]);
        (number, Run { start, ..run })
    };
    faults.map(run).into()
}

/// Refused by 8 in tables of one row, of one column and of the largest size: the last reading alone, and
/// all but the first three.
fn bad_in_long_tables() -> Vec<(u64, Run)> {
    const LAST: Fault = |run| run.matrix[run.rows * run.cols - 1] = f64::NAN;
    let mut runs = Vec::new();
    for (rows, cols) in [(1, 48), (48, 1), (48, 48)] {
        for fault in [LAST, BAD_END] {
            let mut run = with(Call::Accumulating, &[]);
            (run.rows, run.cols) = (rows, cols);
            fitted(&mut run);
            run.start = Start::Identity;
            fault(&mut run);
            runs.push((8, run));
        }
    }
    runs
}

/// Tables of which the run is made, each with the number that the ordered call answers after it. No two
/// entries of U or of V are alike, so that every column shows where it went. The floor is the least.
fn after_the_run() -> Vec<(u64, Run)> {
    let (most, least) = (f64::MAX, f64::from_bits(1));
    let [upper, lower] = INFINITE;
    let tables: [(u64, usize, usize, &[f64]); 20] = [
        // Not settled. The last has NaNs on its diagonal, and 12 counts.
        (12, 2, 2, &[0.0; 4]),
        (12, 2, 2, &[0.0, 1.0, 0.0, 1.0]),
        (12, 3, 3, &[1.0; 9]),
        (12, 2, 2, &[1e160, 1e160, 0.0, 1e160]),
        // A value that is infinite: the only one, the last and the first; and one that is a NaN.
        (13, 1, 2, &[most, most]),
        (13, 2, 1, &[most, -most]),
        (13, 3, 2, &[1.0, 0.0, 0.0, most, 0.0, most]),
        (13, 2, 3, &[most, 0.0, most, 0.0, -2.0, 0.0]),
        (13, 2, 1, &[least, 0.0]),
        // An infinite value after rotations, in both forms.
        (13, upper.0, upper.1, upper.2),
        (13, lower.0, lower.1, lower.2),
        // One value, below zero, 0 and -0.
        (0, 1, 1, &[-3.0]),
        (0, 1, 1, &[0.0]),
        (0, 1, 1, &[-0.0]),
        // Three values turned round; two exchanged, and a column of V or of U that stays.
        (0, 3, 3, &[1.0, 0.0, 0.0, 0.0, 2.0, 0.0, 0.0, 0.0, 3.0]),
        (0, 2, 3, &[1.0, 0.0, 0.0, 0.0, 4.0, 0.0]),
        (0, 3, 2, &[1.0, 0.0, 0.0, 4.0, 0.0, 0.0]),
        // Equal values of unlike sign, equal ones with another between, zeros of unlike sign.
        (0, 2, 2, &[-2.0, 0.0, 0.0, -2.0]),
        (0, 3, 3, &[3.0, 0.0, 0.0, 0.0, 5.0, 0.0, 0.0, 0.0, 3.0]),
        (0, 3, 3, &[-0.0, 0.0, 0.0, 0.0, 5.0, 0.0, 0.0, 0.0, 0.0]),
    ];
    let run = |(number, rows, cols, matrix): (u64, usize, usize, &[f64])| {
        let mut run = with(Call::Ordered, &[]);
        (run.rows, run.cols) = (rows, cols);
        fitted(&mut run);
        run.matrix = matrix.to_vec();
        run.settings.floor = least;
        (number, run)
    };
    tables.map(run).into()
}

/// The tables after whose run the ordered call answers 12 or 13, with a bad reading in the last place: 8
/// comes before the run.
fn bad_before_the_run() -> Vec<(u64, Run)> {
    let mut runs = after_the_run();
    runs.retain(|&(number, _)| number != 0);
    for (number, run) in &mut runs {
        *number = 8;
        *run.matrix.last_mut().expect("a reading") = f64::NAN;
    }
    runs
}
