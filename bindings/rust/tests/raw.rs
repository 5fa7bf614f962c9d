//! The library's own functions as raw.rs declares them: every number in its order with nothing written,
//! where bad readings are and how many, the numbers that come after the run, the calls by profile number
//! beside those with its settings, the identity's refusals, every way that a row is not fit, factors of
//! one's own, and the layout.

use merotunki::raw::*;

// What a call is lent. A table of 4 x 3 that is fit until something is changed.
#[derive(Clone)]
struct Lent {
    rows: usize,
    columns: usize,
    lengths: [usize; 4],
    choice: Choice,
    profile: usize,
    entries: [Vec<f64>; 4],
}

fn fit() -> Lent {
    let mut choice = Choice::default();
    let given: *mut Choice = &mut choice;
    assert_eq!(unsafe { merotunki_defaults(given) }, given);
    // U, V and the list of values are never examined: no numbers at all
    let none = |x: f64| vec![x; 20];
    let entries =
        [(1..=20).map(f64::from).collect(), none(f64::NAN), none(f64::INFINITY), none(-f64::NAN)];
    Lent { rows: 4, columns: 3, lengths: [12, 16, 9, 3], choice, profile: 1, entries }
}

// The numbers that come before a run, in their order.
const NUMBERS: [u64; 10] = [1, 2, 3, 4, 5, 11, 6, 7, 10, 8];

// Unfit for that number and for no other.
fn spoil(l: &mut Lent, number: u64) {
    match number {
        1 => l.columns = 0,
        2 => l.rows = 49,
        3 => l.lengths[0] = 11,
        4 => l.lengths[1] = 17,
        5 => l.lengths[2] = 8,
        11 => l.lengths[3] = 4,
        6 => l.choice.credit = 1001,
        7 => l.choice.absolute = f64::NAN,
        10 => l.profile = 5,
        _ => (l.entries[0][5], l.entries[0][7]) = (f64::NEG_INFINITY, f64::NAN),
    }
}

#[derive(Clone, Copy)]
enum Call {
    Plain,
    Full,
    Ordered,
}

// How it is told its settings.
#[derive(Clone, Copy)]
enum Told {
    Settings,
    Profile,
}

const EACH: [(Call, Told); 6] = [
    (Call::Plain, Told::Settings),
    (Call::Full, Told::Settings),
    (Call::Ordered, Told::Settings),
    (Call::Plain, Told::Profile),
    (Call::Full, Told::Profile),
    (Call::Ordered, Told::Profile),
];

// Whether the call has the number: 10 stands in the place of 6 and 7.
fn has((which, told): (Call, Told), number: u64) -> bool {
    let lengths = match which {
        Call::Plain => ![4, 5, 11].contains(&number),
        Call::Full => number != 11,
        Call::Ordered => true,
    };
    let settings = match told {
        Told::Settings => number != 10,
        Told::Profile => ![6, 7].contains(&number),
    };
    lengths && settings
}

fn call(l: &mut Lent, which: (Call, Told)) -> Answer {
    let mut answer = Answer::from([99; Answer::NAMES.len()]);
    let given: *mut Answer = &mut answer;
    let c = l.choice;
    let (limit, credit) = (c.limit as usize, c.credit as usize);
    let [m, u, v, w] = l.entries.each_mut().map(|entries| entries.as_mut_ptr());
    let [ml, ul, vl, wl] = l.lengths;
    let (rows, columns, t, a, f) = (l.rows, l.columns, c.tolerance, c.absolute, c.floor);
    let p = l.profile;
    let back = unsafe {
        match which {
            (Call::Plain, Told::Settings) => {
                merotunki_svd(given, m, ml, rows, columns, limit, credit, t, a, f)
            }
            (Call::Full, Told::Settings) => merotunki_full_svd(
                given, m, ml, u, ul, v, vl, rows, columns, limit, credit, t, a, f,
            ),
            (Call::Ordered, Told::Settings) => merotunki_ordered_svd(
                given, m, ml, u, ul, v, vl, w, wl, rows, columns, limit, credit, t, a, f,
            ),
            (Call::Plain, Told::Profile) => merotunki_profile_svd(given, m, ml, rows, columns, p),
            (Call::Full, Told::Profile) => {
                merotunki_profile_full_svd(given, m, ml, u, ul, v, vl, rows, columns, p)
            }
            (Call::Ordered, Told::Profile) => {
                merotunki_profile_ordered_svd(given, m, ml, u, ul, v, vl, w, wl, rows, columns, p)
            }
        }
    };
    assert_eq!(back, given);
    answer
}

fn patterns(l: &Lent) -> Vec<u64> {
    l.entries.iter().flatten().map(|x| x.to_bits()).collect()
}

#[test]
fn every_number_comes_first_and_writes_nothing() {
    for which in EACH {
        for (at, first) in NUMBERS.into_iter().enumerate().filter(|(_, n)| has(which, *n)) {
            for &other in &NUMBERS[at..] {
                let mut l = fit();
                spoil(&mut l, first);
                spoil(&mut l, other);
                let before = patterns(&l);
                // bad readings are told with 8 alone, though there are some wherever `other` is 8
                let (row, column, bad) = if first == 8 { (1, 2, 2) } else { (0, 0, 0) };
                let wanted = Answer { number: first, row, column, bad, ..Answer::default() };
                assert_eq!(call(&mut l, which), wanted);
                assert_eq!(patterns(&l), before);
            }
        }
        let mut l = fit();
        let before = patterns(&l);
        let answer = call(&mut l, which);
        assert_eq!((answer.number, answer.word, answer.range), (0, 1, 1));
        assert_eq!((answer.row, answer.column, answer.bad), (0, 0, 0));
        // 2 x 2 in a sweep over all three values, 2 x 1 in one over two: never the 99 of before
        let (sweeps, rotations) = (answer.sweeps, answer.rotations);
        assert!(rotations % 2 == 0 && (2 * sweeps..=4 * sweeps).contains(&rotations) && sweeps > 0);
        assert_ne!(patterns(&l)[..12], before[..12]);
        assert_eq!(patterns(&l)[12..20], before[12..20]);
        let listed = matches!(which, (Call::Ordered, _));
        assert_eq!(listed, patterns(&l)[60..63] != before[60..63]);
        assert_eq!(patterns(&l)[63..], before[63..]);
    }
}

// Row and column of the first bad reading, and how many there are behind it, wherever it stands.
#[test]
fn bad_readings_have_a_place_and_a_count() {
    let odd = [f64::NAN, f64::INFINITY, f64::NEG_INFINITY];
    let choice = fit().choice;
    let refused = |rows: usize, columns: usize, row: usize, column: usize, step: usize| {
        let mut m: Vec<f64> = (0..rows * columns).map(|i| i as f64).collect();
        let all: Vec<usize> = (row * columns + column..m.len()).step_by(step).collect();
        all.iter().for_each(|&at| m[at] = odd[at % 3]);
        let (row, column, bad) = (row as u64, column as u64, all.len() as u64);
        let wanted = Answer { number: 8, row, column, bad, ..Answer::default() };
        // U, V and the list are not looked at: what is no number there is not counted
        let square = |n: usize| vec![f64::NAN; n * n];
        let (mut u, mut v, mut w) =
            (square(rows), square(columns), vec![f64::NAN; rows.min(columns)]);
        assert_eq!(svd(&mut m, rows, columns, choice), wanted);
        assert_eq!(full_svd(&mut m, (&mut u, &mut v), rows, columns, choice), wanted);
        assert_eq!(ordered_svd(&mut m, (&mut u, &mut v), &mut w, rows, columns, choice), wanted);
    };
    for (rows, columns) in [(1, 1), (1, 7), (7, 1), (3, 5), (5, 3), (48, 2), (2, 48)] {
        for (row, column) in (0..rows).flat_map(|i| (0..columns).map(move |j| (i, j))) {
            for step in [1, 4, rows * columns] {
                refused(rows, columns, row, column, step);
            }
        }
    }
    refused(48, 48, 47, 47, 1);
    refused(48, 48, 0, 0, 1);
}

// After the run: all is as the accumulating call leaves it, but the number. The list is as it was.
#[test]
fn two_numbers_come_after_the_run() {
    let choice = Choice { limit: 3, ..fit().choice };
    // number, rows, columns, readings, and the answer's words from the word on
    let cases = [
        (12, 2, 2, vec![0.0, 1.0, 0.0, 1.0], [Answer::STOPPED, 3, 3, 0, 2, 6]),
        (12, 2, 2, vec![0.0; 4], [Answer::QUIET, 3, 3, 0, 2, 6]),
        (12, 2, 3, vec![-0.0; 6], [Answer::QUIET, 3, 3, 0, 2, 6]),
        (13, 1, 2, vec![f64::MAX; 2], [1, 0, 0, 0, 1, 0]),
        (13, 2, 1, vec![f64::MAX; 2], [1, 0, 0, 0, 1, 0]),
        (13, 3, 2, vec![1.0, 0.0, 0.0, f64::MAX, 0.0, f64::MAX], [1, 1, 0, 1, 1, 0]),
    ];
    for (number, rows, columns, mut m, counts) in cases {
        let square = |n: usize| (0..n * n).map(|i| f64::from(i / n == i % n)).collect();
        let (mut u, mut v): (Vec<f64>, Vec<f64>) = (square(rows), square(columns));
        let (mut by_m, mut by_u, mut by_v) = (m.clone(), u.clone(), v.clone());
        let run = full_svd(&mut m, (&mut u, &mut v), rows, columns, choice);
        let mut values = vec![7.0; rows.min(columns)];
        let lent = (&mut by_u[..], &mut by_v[..]);
        let answer = ordered_svd(&mut by_m, lent, &mut values, rows, columns, choice);
        assert_eq!((&run.words()[..4], &run.words()[4..]), (&[0; 4][..], &counts[..]));
        assert_eq!(answer, Answer { number, ..run });
        assert_eq!((by_m, by_u, by_v), (m, u, v));
        assert_eq!(values, vec![7.0; rows.min(columns)]);
    }
}

// The settings of the profiles: number, limit, credit, tolerance, absolute. The floor is the default.
const PROFILES: [(usize, u64, u64, f64, f64); 4] = [
    (1, 100, 50, 1e-10, 1e-12),
    (2, 200, 50, 1e-12, 1e-13),
    (3, 400, 100, 1e-13, 1e-14),
    (4, 50, 25, 1e-6, 1e-8),
];

// Numbers that no profile has. Of the fourth the lower 32 bits are those of one.
const NONE: [usize; 6] = [0, 5, usize::MAX, (1 << 32) + 2, 256 + 1, 1 << 63];

#[test]
fn profiles_have_these_settings() {
    for (n, limit, credit, tolerance, absolute) in PROFILES {
        let told = profile(n);
        assert_eq!((told.number, told.limit, told.credit), (0, limit, credit));
        let bounds = [told.tolerance, told.absolute, told.floor].map(f64::to_bits);
        assert_eq!(bounds, [tolerance, absolute, 1e-21].map(f64::to_bits));
    }
    for n in NONE {
        let mut told = ProfileAnswer {
            number: 99,
            limit: 99,
            credit: 99,
            tolerance: 9.0,
            absolute: 9.0,
            floor: 9.0,
        };
        let given: *mut ProfileAnswer = &mut told;
        assert_eq!(unsafe { merotunki_profile(given, n) }, given);
        assert_eq!((told.number, told.limit, told.credit), (10, 0, 0));
        assert_eq!([told.tolerance, told.absolute, told.floor].map(f64::to_bits), [0; 3]);
        assert_eq!(profile(n), told);
    }
    let (vane, defaults) = (profile(1), fit().choice);
    assert_eq!((vane.limit, vane.credit), (defaults.limit, defaults.credit));
    assert_eq!((vane.tolerance, vane.absolute), (defaults.tolerance, defaults.absolute));
    assert_eq!(vane.floor, defaults.floor);
}

// 10 alone: the answer has nothing else, and all that was lent is as it was.
#[test]
fn there_is_no_such_profile() {
    for which in EACH.into_iter().filter(|which| has(*which, 10)) {
        for n in NONE {
            let mut l = Lent { profile: n, ..fit() };
            let before = patterns(&l);
            assert_eq!(call(&mut l, which), Answer { number: 10, ..Answer::default() });
            assert_eq!(patterns(&l), before);
        }
        for (n, ..) in PROFILES {
            assert_eq!(call(&mut Lent { profile: n, ..fit() }, which).number, 0);
        }
    }
}

// Entries that follow a rule by its seed: drawn, whole numbers, mostly zeros, or few different ones.
fn table(seed: usize, length: usize) -> Vec<f64> {
    let mut state = seed as u64;
    let mut next = || {
        state = state.wrapping_mul(6364136223846793005).wrapping_add(1442695040888963407);
        (state >> 11) as f64 / 562949953421312.0 - 8.0
    };
    let drawn: Vec<f64> = (0..length).map(|_| next()).collect();
    match seed % 4 {
        0 => drawn,
        1 => drawn.iter().map(|x| x.trunc()).collect(),
        2 => drawn.iter().map(|&x| if x > 4.0 { x } else { 0.0 }).collect(),
        _ => (0..length).map(|i| drawn[i % length.min(4)]).collect(),
    }
}

// All that a call comes to, every NaN alike: the answer, and what it leaves.
fn left(l: &Lent, answer: Answer) -> (Answer, Vec<u64>) {
    let one = |x: f64| if x.is_nan() { f64::NAN } else { x };
    (answer, l.entries.iter().flatten().map(|x| one(*x).to_bits()).collect())
}

// By profile number each call is what it is with that profile's settings: accepted, stopped, quiet, and
// refused by each number that both have, before the run and after it.
#[test]
fn by_profile_is_with_its_settings() {
    for (n, limit, credit, tolerance, absolute) in PROFILES {
        let choice = Choice { limit, credit, tolerance, absolute, floor: 1e-21 };
        let (mut numbers, mut words) = (vec![0; 14], vec![0; 4]);
        let mut compared = |l: &Lent| {
            for which in [Call::Plain, Call::Full, Call::Ordered] {
                // with the other's settings unfit and its profile none: they are not looked at
                let mut with = Lent { choice, profile: 0, ..l.clone() };
                let unfit = Choice { limit: u64::MAX, floor: f64::NAN, ..choice };
                let mut by = Lent { choice: unfit, profile: n, ..l.clone() };
                let answer = call(&mut with, (which, Told::Settings));
                let other = call(&mut by, (which, Told::Profile));
                assert_eq!(left(&by, other), left(&with, answer));
                numbers[answer.number as usize] += 1;
                words[answer.word as usize] += 1;
                let c = l.rows.min(l.columns) as u64;
                let most = if c > 1 { limit + credit * (c - 2) } else { 0 };
                assert!(
                    answer.passes <= most && answer.rotations <= 2 * c.saturating_sub(1) * most
                );
            }
        };
        let made = |rows: usize, columns: usize, m: Vec<f64>, seed: usize| Lent {
            rows,
            columns,
            lengths: [rows * columns, rows * rows, columns * columns, rows.min(columns)],
            entries: [
                m,
                table(4 * seed, rows * rows),
                table(4 * seed + 4, columns * columns),
                vec![7.0; rows.min(columns)],
            ],
            ..fit()
        };
        for seed in 0..400 {
            let (rows, columns) = (1 + seed / 4 % 7, 1 + seed / 28 % 7);
            compared(&made(rows, columns, table(seed, rows * columns), seed));
        }
        for (rows, columns) in [(48, 48), (48, 3), (3, 48), (1, 48), (48, 1)] {
            for seed in 0..4 {
                compared(&made(rows, columns, table(seed, rows * columns), seed));
            }
            compared(&made(rows, columns, vec![0.0; rows * columns], 1));
            compared(&made(rows, columns, vec![f64::MAX; rows * columns], 1));
        }
        for number in NUMBERS.into_iter().filter(|n| ![6, 7, 10].contains(n)) {
            let mut l = fit();
            spoil(&mut l, number);
            compared(&l);
        }
        for number in [0, 1, 2, 3, 4, 5, 8, 11, 12, 13] {
            assert!(numbers[number] > 0, "profile {n} was never refused by {number}: {numbers:?}");
        }
        assert_eq!([6, 7, 10].map(|number| numbers[number]), [0; 3]);
        assert!(words[1..].iter().all(|met| *met > 20), "profile {n}: {words:?}");
    }
}

// A table of zeros makes as many passes as the limit says, each a sweep over all 48 values. Where the
// coupling of (1, x), (0, 1) is below a profile's bounds, the first pass is a drop, and the last.
#[test]
fn profiles_differ() {
    for (n, limit, ..) in PROFILES {
        let answer = profile_svd(&mut [0.0; 48 * 48], 48, 48, n);
        assert_eq!((answer.word, answer.passes), (Answer::QUIET, limit));
        assert_eq!(answer.rotations, 2 * 47 * limit);
    }
    let dropped =
        |x: f64| [1, 2, 3, 4].map(|n| profile_svd(&mut [1.0, x, 0.0, 1.0], 2, 2, n).sweeps == 0);
    assert_eq!(dropped(5e-15), [true, true, true, true]);
    assert_eq!(dropped(5e-14), [true, true, false, true]);
    assert_eq!(dropped(5e-13), [true, false, false, true]);
    assert_eq!(dropped(5e-12), [false, false, false, true]);
    assert_eq!(dropped(5e-8), [false; 4]);
}

#[test]
fn identity_refuses_1_2_4() {
    let mut a = vec![7.0; 2401];
    let mut fill =
        |length: usize, n| unsafe { merotunki_identity(a[..length].as_mut_ptr(), length, n) };
    assert_eq!([fill(0, 0), fill(9, 0)], [1, 1]);
    assert_eq!([fill(2401, 49), fill(0, 1 << 32)], [2, 2]);
    assert_eq!([fill(8, 3), fill(10, 3), fill(0, 1)], [4, 4, 4]);
    assert_eq!(a, vec![7.0; 2401]);
    assert_eq!(unsafe { merotunki_identity(a.as_mut_ptr(), 4, 2) }, 0);
    assert_eq!(a[..5], [1.0, 0.0, 0.0, 1.0, 7.0]);
}

#[test]
fn rows_that_are_and_are_not() {
    let (u, v) = (vec![0.0; 2401], vec![0.0; 2401]);
    let row = |ul: usize, vl: usize, rows, columns, side, row| {
        let (u, v) = (&u[..ul], &v[..vl]);
        let part =
            unsafe { merotunki_row(u.as_ptr(), ul, v.as_ptr(), vl, rows, columns, side, row) };
        (part.start, part.length)
    };
    assert_eq!([row(25, 9, 5, 3, 0, 0), row(25, 9, 5, 3, 0, 4)], [(0, 5), (20, 5)]);
    assert_eq!([row(25, 9, 5, 3, 1, 0), row(25, 9, 5, 3, 1, 2)], [(0, 3), (6, 3)]);
    let unfit = [
        row(25, 9, 5, 3, 0, 5),
        row(25, 9, 5, 3, 1, 3),
        row(25, 9, 5, 3, 2, 1),
        row(24, 9, 5, 3, 0, 1),
        row(26, 9, 5, 3, 1, 1),
        row(25, 8, 5, 3, 0, 1),
        row(25, 10, 5, 3, 1, 1),
        row(0, 9, 0, 3, 1, 1),
        row(25, 0, 5, 0, 0, 1),
        row(2401, 9, 49, 3, 1, 1),
        row(25, 2401, 5, 49, 0, 1),
    ];
    assert_eq!(unfit, [(0, 0); 11]);
}

// From twice the identity come twice the factors: here they are multiplied on as they stand.
#[test]
fn factors_of_ones_own() {
    let Lent { choice, entries, .. } = fit();
    let split = |scale: f64| {
        let square = |n: usize| (0..n * n).map(|i| scale * f64::from(i / n == i % n)).collect();
        let (mut m, mut u, mut v): (_, Vec<f64>, Vec<f64>) =
            (entries[0][..12].to_vec(), square(4), square(3));
        assert_eq!(full_svd(&mut m, (&mut u, &mut v), 4, 3, choice).word, 1);
        (m, u, v)
    };
    let twice = |a: &[f64]| a.iter().map(|x| 2.0 * x).collect::<Vec<f64>>();
    let ((m, u, v), (other, more_u, more_v)) = (split(1.0), split(2.0));
    assert_eq!((other, more_u, more_v), (m, twice(&u), twice(&v)));
}

#[test]
fn the_layout_is_this_crates() {
    assert_eq!((layout(), unsafe { merotunki_layout() }), (LAYOUT, LAYOUT));
}
