//! The wrapper's types on known tables, and every refusal that they can give, with nothing written but
//! what a run has left.

use merotunki::{
    Factors, Instrument, MOST, Refusal, Report, Settings, Table, Unordered, square_root,
};

// The same numbers for the same seed, between -8 and 8.
fn drawn(seed: u64, length: usize) -> Vec<f64> {
    let mut state = seed;
    let mut next = || {
        state = state.wrapping_mul(6364136223846793005).wrapping_add(1442695040888963407);
        (state >> 11) as f64 / 562949953421312.0 - 8.0
    };
    (0..length).map(|_| next()).collect()
}

fn bits(a: &[f64]) -> Vec<u64> {
    a.iter().map(|x| x.to_bits()).collect()
}

fn rows(f: &Factors, stations: usize, passes: usize) -> (Vec<f64>, Vec<f64>) {
    let u = (0..stations).flat_map(|i| f.station(i).unwrap().to_vec()).collect();
    let v = (0..passes).flat_map(|j| f.pass(j).unwrap().to_vec()).collect();
    (u, v)
}

#[test]
fn known_tables() {
    let plain = Settings::default();
    let mut a = [3.0, 4.0];
    let settled = Report::Settled { passes: 0, sweeps: 0, drops: 0, rotations: 0 };
    assert_eq!(Table::new(&mut a, 2, 1).unwrap().split(&plain), Ok(settled));
    assert_eq!(bits(&a), bits(&[-5.0, 0.0]));

    let mut a = [0.0, 1.0, 0.0, 1.0];
    let stopped = Report::Stopped { passes: 100, sweeps: 100, drops: 0, range: 2, rotations: 200 };
    assert_eq!(Table::new(&mut a, 2, 2).unwrap().split(&plain), Ok(stopped));
    assert_eq!(stopped.to_string(), "stopped, passes 100, range left 2");

    let mut a = [2.0, 0.0, 0.0, 1.0];
    let mut table = Table::new(&mut a, 2, 2).unwrap();
    let (report, factors) = table.split_full(&plain).unwrap();
    assert_eq!(report, Report::Settled { passes: 1, sweeps: 0, drops: 1, rotations: 0 });
    assert_eq!(report.to_string(), "settled, passes 1");
    assert_eq!(table.entries(), [-2.0, 0.0, 0.0, 1.0]);
    assert_eq!(factors.station(0), Some(&[-1.0, 0.0][..]));

    let mut a = [0.0; 4];
    let short = plain.with_limit(3).unwrap();
    let quiet = Report::Quiet { passes: 3, sweeps: 3, drops: 0, range: 2, rotations: 6 };
    assert_eq!(Table::new(&mut a, 2, 2).unwrap().split(&short), Ok(quiet));
    assert_eq!(quiet.to_string(), "quiet, passes 3, range left 2");
}

// Where the limit runs out: quiet where every coupling of the live corner is +0 or -0, else stopped.
#[test]
fn quiet_or_stopped() {
    let ended = |readings: &[f64], stations, passes, limit, credit| {
        let settings = Settings::default().with_limit(limit).unwrap().with_credit(credit).unwrap();
        let (mut a, mut b) = (readings.to_vec(), readings.to_vec());
        let report = Table::new(&mut a, stations, passes).unwrap().split(&settings).unwrap();
        let (full, _) =
            Table::new(&mut b, stations, passes).unwrap().split_full(&settings).unwrap();
        assert_eq!((full, bits(&b)), (report, bits(&a)));
        report
    };
    let quiet = |passes, sweeps, drops, range, rotations| Report::Quiet {
        passes,
        sweeps,
        drops,
        range,
        rotations,
    };
    let stopped = |passes, sweeps, drops, range, rotations| Report::Stopped {
        passes,
        sweeps,
        drops,
        range,
        rotations,
    };
    // zeros, of either sign, in either form: a calm roadway
    assert_eq!(ended(&[0.0; 4], 2, 2, 0, 50), quiet(0, 0, 0, 2, 0));
    assert_eq!(ended(&[-0.0; 4], 2, 2, 0, 50), quiet(0, 0, 0, 2, 0));
    assert_eq!(ended(&[0.0; 10], 2, 5, 100, 50), quiet(100, 100, 0, 2, 200));
    assert_eq!(ended(&[0.0; 48 * 48], 48, 48, 2, 50), quiet(2, 2, 0, 48, 188));
    // not final: the same table settles at limit 1
    assert_eq!(ended(&[2.0, 0.0, 0.0, 1.0], 2, 2, 0, 50), quiet(0, 0, 0, 2, 0));
    let settled = Report::Settled { passes: 1, sweeps: 0, drops: 1, rotations: 0 };
    assert_eq!(ended(&[2.0, 0.0, 0.0, 1.0], 2, 2, 1, 50), settled);
    // one coupling that is not 0, and be it as small as can be
    let first = [1.0, 2.0, 0.0, 0.0, 3.0, 0.0, 0.0, 0.0, 4.0];
    let last = [1.0, 0.0, 0.0, 0.0, 2.0, 3.0, 0.0, 0.0, 4.0];
    assert_eq!(ended(&first, 3, 3, 0, 50), stopped(0, 0, 0, 3, 0));
    assert_eq!(ended(&last, 3, 3, 0, 50), stopped(0, 0, 0, 3, 0));
    assert_eq!(ended(&[1.0, 5e-324, 0.0, 1.0], 2, 2, 0, 50), stopped(0, 0, 0, 2, 0));
    assert_eq!(ended(&[1.0, 0.0, 0.0, 5e-324, 1.0, 0.0], 2, 3, 0, 50), stopped(0, 0, 0, 2, 0));
    // NaN is not 0
    let mut large = [1e160, 1e160, 0.0, 1e160];
    let report = Table::new(&mut large, 2, 2).unwrap().split(&Settings::default());
    assert_eq!(report, Ok(stopped(100, 100, 0, 2, 200)));
    assert!(large[1].is_nan());
    // behind the corner nothing is asked
    let behind = [1.0, 0.0, 0.0, 0.0, 2.0, 1e-13, 0.0, 0.0, 4.0];
    assert_eq!(ended(&behind, 3, 3, 1, 0), quiet(1, 0, 1, 2, 0));
}

// Drawn tables, and for each the walk's passes and a sum over the bits of table, U and V, as the
// original Rust gives them (by the oracle in beside/); between the two the rotations of these passes by
// the rule: 2 x (r - 1) for a sweep over range r.
const ANSWERS: [(usize, usize, u64, u64, u64); 10] = [
    (1, 1, 0, 0, 0x3159F754ACA15057),
    (1, 7, 0, 0, 0x014C4C0133E42B9D),
    (7, 1, 0, 0, 0x881D90FA72676BAC),
    (2, 2, 2, 2, 0xA0D61E8BEA8827CC),
    (3, 5, 5, 10, 0xD8E8EA386B72070B),
    (5, 3, 8, 22, 0x959C80C81842B9B5),
    (8, 8, 21, 142, 0x010B05660EF4375E),
    (16, 48, 46, 552, 0xF251AC3E5A1E9DE9),
    (48, 17, 52, 710, 0x3AC4289425D94029),
    (48, 48, 128, 4312, 0xE5CEE60EB3644596),
];

#[test]
fn plain_is_accumulating_is_the_original() {
    for (i, (stations, passes, walked, turned, sum)) in ANSWERS.into_iter().enumerate() {
        let was = drawn(i as u64, stations * passes);
        let (mut a, mut b) = (was.clone(), was.clone());
        let report = Table::new(&mut a, stations, passes).unwrap().split(&Settings::default());
        let mut table = Table::new(&mut b, stations, passes).unwrap();
        let (full, factors) = table.split_full(&Settings::default()).unwrap();
        assert_eq!(Ok(full), report);
        assert!(matches!(report, Ok(Report::Settled { passes, .. }) if passes == walked));
        assert_eq!(full.rotations(), turned);
        let values: Vec<f64> = table.values().collect();
        assert_eq!(values.len(), stations.min(passes));
        assert!((0..values.len()).all(|k| values[k] == a[k * passes + k]));
        assert_eq!(bits(&a), bits(&b));
        let (u, v) = rows(&factors, stations, passes);
        let all = bits(&b).into_iter().chain(bits(&u)).chain(bits(&v));
        let step = |sum: u64, word: u64| (sum ^ word).wrapping_mul(0x100000001B3);
        assert_eq!(all.fold(0xCBF29CE484222325, step), sum);
    }
}

// From one limit to the next, with the credit 0, the run makes one pass more, until it settles: a sweep
// over range r adds 2 x (r - 1) rotations, a drop none. The three splits count alike.
#[test]
fn rotations_pass_by_pass() {
    let (mut all_sweeps, mut all_drops) = (0, 0);
    for (i, (stations, passes)) in
        [(2, 2), (5, 3), (3, 5), (8, 8), (13, 16)].into_iter().enumerate()
    {
        // some readings are 0: a rotation that takes no root counts, too
        let mut was = drawn(i as u64, stations * passes);
        was.iter_mut().filter(|x| **x > 5.0).for_each(|x| *x = 0.0);
        let (mut range, mut sweeps, mut rotations) = (stations.min(passes) as u64, 0, 0);
        for limit in 0..=60 {
            let settings = Settings::default().with_credit(0).unwrap().with_limit(limit).unwrap();
            let (mut a, mut b, mut c) = (was.clone(), was.clone(), was.clone());
            let report = Table::new(&mut a, stations, passes).unwrap().split(&settings).unwrap();
            let (walked, swept, dropped, left) = match report {
                Report::Settled { passes, sweeps, drops, .. } => (passes, sweeps, drops, 1),
                Report::Stopped { passes, sweeps, drops, range, .. }
                | Report::Quiet { passes, sweeps, drops, range, .. } => {
                    (passes, sweeps, drops, range)
                }
            };
            if swept > sweeps {
                assert_eq!((swept, left), (sweeps + 1, range));
                rotations += 2 * (range - 1);
            }
            assert_eq!(report.rotations(), rotations);
            let full = Table::new(&mut b, stations, passes).unwrap().split_full(&settings);
            assert_eq!(full.unwrap().0, report);
            let mut values = vec![0.0; stations.min(passes)];
            let mut table = Table::new(&mut c, stations, passes).unwrap();
            let ordered = match table.split_in_order(&mut values, &settings) {
                Ok((report, _)) => report,
                Err(unordered) => unordered.run.unwrap().0,
            };
            assert_eq!(ordered, report);
            (range, sweeps) = (left, swept);
            if walked < limit {
                (all_sweeps, all_drops) = (all_sweeps + swept, all_drops + dropped);
                break;
            }
        }
    }
    assert!(all_sweeps > 40 && all_drops > 20, "{all_sweeps} sweeps, {all_drops} drops");
}

// The instruments: their numbers, names and settings.
#[test]
fn instruments() {
    use Instrument::*;
    assert_eq!(Instrument::ALL, [Vane, HotWire, Ultrasonic, SmokeTube]);
    assert_eq!(Instrument::ALL.map(Instrument::number), [1, 2, 3, 4]);
    assert_eq!(Instrument::ALL.map(|i| i as usize), [1, 2, 3, 4]);
    let names = ["vane", "hot wire", "ultrasonic", "smoke tube"];
    assert_eq!(Instrument::ALL.map(Instrument::name), names);
    assert_eq!(Instrument::ALL.map(|i| i.to_string()), names);
    let numbers = |i: Instrument| (i.settings().limit(), i.settings().credit());
    assert_eq!(Instrument::ALL.map(numbers), [(100, 50), (200, 50), (400, 100), (50, 25)]);
    let bounds = |i: Instrument| {
        let s = i.settings();
        bits(&[s.tolerance(), s.absolute(), s.floor()])
    };
    let wanted =
        [[1e-10, 1e-12, 1e-21], [1e-12, 1e-13, 1e-21], [1e-13, 1e-14, 1e-21], [1e-6, 1e-8, 1e-21]];
    assert_eq!(Instrument::ALL.map(bounds), wanted.map(|w| bits(&w)));
    assert_eq!(Vane.settings(), Settings::default());
    let different: std::collections::HashSet<Instrument> = Instrument::ALL.into_iter().collect();
    assert_eq!(different.len(), 4);
    // from here on they are settings like others
    assert_eq!(SmokeTube.settings().with_limit(7).map(|s| s.limit()), Ok(7));
}

// By instrument each split is the one with its settings: report, table, U, V and list, and refusals.
#[test]
fn by_instrument() {
    let mut ends = std::collections::HashSet::new();
    for instrument in Instrument::ALL {
        let settings = instrument.settings();
        let mut compared = |was: &[f64], stations: usize, passes: usize| {
            let (mut a, mut b) = (was.to_vec(), was.to_vec());
            let with = Table::new(&mut a, stations, passes).unwrap().split(&settings);
            let by = Table::new(&mut b, stations, passes).unwrap().split_by(instrument);
            assert_eq!((by, bits(&b)), (with, bits(&a)));

            let (mut a, mut b) = (was.to_vec(), was.to_vec());
            let with = Table::new(&mut a, stations, passes).unwrap().split_full(&settings);
            let by = Table::new(&mut b, stations, passes).unwrap().split_full_by(instrument);
            assert_eq!((by, bits(&b)), (with, bits(&a)));

            for length in [stations.min(passes), stations.min(passes) + 1] {
                let (mut a, mut b) = (was.to_vec(), was.to_vec());
                let (mut list, mut other) = (vec![7.0; length], vec![7.0; length]);
                let mut table = Table::new(&mut a, stations, passes).unwrap();
                let with = table.split_in_order(&mut list, &settings);
                let mut table = Table::new(&mut b, stations, passes).unwrap();
                let by = table.split_in_order_by(&mut other, instrument);
                assert_eq!((&by, bits(&b), bits(&other)), (&with, bits(&a), bits(&list)));
                ends.insert(match by {
                    Ok(_) => 0,
                    Err(Unordered { refusal, run: None }) => refusal.number(),
                    Err(Unordered { run: Some((Report::Quiet { .. }, _)), .. }) => 120,
                    Err(Unordered { refusal, .. }) => refusal.number(),
                });
            }
        };
        for seed in 0..120 {
            let (stations, passes) = (1 + seed / 2 % 6, 1 + seed / 12 % 6);
            let mut was = drawn(seed as u64, stations * passes);
            was.iter_mut().filter(|x| seed % 2 == 1 && **x < 5.0).for_each(|x| *x = 0.0);
            compared(&was, stations, passes);
        }
        compared(&drawn(7, MOST * MOST), MOST, MOST);
        compared(&[0.0, 1.0, 0.0, 1.0], 2, 2);
        compared(&[0.0; 12], 3, 4);
        compared(&[f64::MAX; 2], 1, 2);
        compared(&[1.0, f64::NAN, f64::INFINITY, 2.0], 2, 2);
    }
    // accepted, the list, a reading, stopped, a value, quiet
    let mut ends: Vec<u64> = ends.into_iter().collect();
    ends.sort();
    assert_eq!(ends, [0, 8, 11, 12, 13, 120]);
}

// Zeros never drop: every sweep is over the whole diagonal. One value is never swept.
#[test]
fn rotations_of_a_calm_roadway() {
    for c in 1..=MOST {
        let settings = Settings::default().with_limit(7).unwrap();
        let mut zeros = vec![0.0; c * c];
        let report = Table::new(&mut zeros, c, c).unwrap().split(&settings).unwrap();
        assert_eq!(report.rotations(), 2 * (c as u64 - 1) * 7);
    }
    let most = Settings::default().with_limit(100_000).unwrap().with_credit(1_000).unwrap();
    let report = Table::new(&mut [0.0; 9], 3, 3).unwrap().split(&most).unwrap();
    assert_eq!(report.rotations(), 400_000);
}

// What stood at position i of the diagonal goes to k, the number of positions that come before i: those
// of a larger magnitude, and of an equal one the lower. U's column is negated where the sign bit was set.
#[test]
fn in_order_of_size() {
    let mut moved = 0;
    for (i, (stations, passes, ..)) in ANSWERS.into_iter().enumerate() {
        let was = drawn(i as u64, stations * passes);
        let (mut a, mut b) = (was.clone(), was);
        let mut table = Table::new(&mut a, stations, passes).unwrap();
        let (report, factors) = table.split_full(&Settings::default()).unwrap();
        let diagonal: Vec<f64> = table.values().collect();
        let (u, v) = rows(&factors, stations, passes);
        let (mut wanted, mut wanted_u, mut wanted_v) = (diagonal.clone(), u.clone(), v.clone());
        for (i, value) in diagonal.iter().enumerate() {
            let before = |(j, other): (usize, &f64)| {
                other.abs() > value.abs() || (other.abs() == value.abs() && j < i)
            };
            let k = diagonal.iter().enumerate().filter(|&at| before(at)).count();
            moved += usize::from(k != i);
            wanted[k] = value.abs();
            for row in 0..stations {
                let entry = u[row * stations + i];
                wanted_u[row * stations + k] =
                    if value.is_sign_negative() { -entry } else { entry };
            }
            for row in 0..passes {
                wanted_v[row * passes + k] = v[row * passes + i];
            }
        }
        let mut values = vec![f64::NAN; stations.min(passes)];
        let mut table = Table::new(&mut b, stations, passes).unwrap();
        let (other, ordered) = table.split_in_order(&mut values, &Settings::default()).unwrap();
        assert_eq!(other, report);
        assert_eq!(bits(&values), bits(&wanted));
        let (ordered_u, ordered_v) = rows(&ordered, stations, passes);
        assert_eq!((bits(&ordered_u), bits(&ordered_v)), (bits(&wanted_u), bits(&wanted_v)));
        assert_eq!(bits(&b), bits(&a));
    }
    assert!(moved > 0);
    let ordered = |mut a: [f64; 4]| {
        let mut values = [7.0; 2];
        let mut table = Table::new(&mut a, 2, 2).unwrap();
        let factors = table.split_in_order(&mut values, &Settings::default()).unwrap().1;
        (bits(&values), rows(&factors, 2, 2))
    };
    // -0 has its sign bit set, too; of -1 and 1 the first one stays the first
    let turned = vec![0.0, 1.0, 1.0, 0.0];
    let wanted = (bits(&[3.0, 0.0]), (vec![0.0, -1.0, 1.0, 0.0], turned));
    assert_eq!(ordered([-0.0, 0.0, 0.0, 3.0]), wanted);
    let identity = vec![1.0, 0.0, 0.0, 1.0];
    assert_eq!(ordered([1.0, 0.0, 0.0, 1.0]), (bits(&[1.0; 2]), (identity.clone(), identity)));
}

#[test]
fn not_in_order() {
    let plain = Settings::default();
    let split = |readings: &[f64], stations, passes, values: &mut [f64], settings: &Settings| {
        let (mut a, were) = (readings.to_vec(), values.to_vec());
        let mut table = Table::new(&mut a, stations, passes).unwrap();
        let Unordered { refusal, run } = table.split_in_order(values, settings).unwrap_err();
        assert_eq!(bits(values), bits(&were));
        (a, refusal, run)
    };
    // before the run
    let was = drawn(4, 12);
    for length in [0, 2, 4] {
        let (a, refusal, run) = split(&was, 4, 3, &mut vec![7.0; length], &plain);
        assert_eq!((bits(&a), refusal, run), (bits(&was), Refusal::List, None));
    }
    let odd = [was[..7].to_vec(), vec![f64::NAN], was[8..].to_vec()].concat();
    let bad = Refusal::Reading { station: 2, pass: 1, bad: 1 };
    for (length, wanted) in [(3, bad), (4, Refusal::List)] {
        let (a, refusal, run) = split(&odd, 4, 3, &mut vec![7.0; length], &plain);
        assert_eq!((bits(&a), refusal, run), (bits(&odd), wanted, None));
    }
    // after it: what the split with U and V leaves and hands out
    let short = plain.with_limit(3).unwrap();
    let stopped = Report::Stopped { passes: 3, sweeps: 3, drops: 0, range: 2, rotations: 6 };
    let quiet = Report::Quiet { passes: 3, sweeps: 3, drops: 0, range: 2, rotations: 6 };
    let settled = Report::Settled { passes: 0, sweeps: 0, drops: 0, rotations: 0 };
    let cases = [
        (vec![0.0, 1.0, 0.0, 1.0], 2, 2, short, Refusal::NotSettled, stopped),
        (vec![0.0; 4], 2, 2, short, Refusal::NotSettled, quiet),
        (vec![0.0; 6], 2, 3, short, Refusal::NotSettled, quiet),
        (vec![f64::MAX; 2], 1, 2, plain, Refusal::Value, settled),
        (vec![f64::MAX; 2], 2, 1, plain, Refusal::Value, settled),
    ];
    for (was, stations, passes, settings, wanted, report) in cases {
        let (a, refusal, run) =
            split(&was, stations, passes, &mut [7.0, 8.0][..stations.min(passes)], &settings);
        let mut b = was;
        let full = Table::new(&mut b, stations, passes).unwrap().split_full(&settings).unwrap();
        assert_eq!((refusal, full.0), (wanted, report));
        assert_eq!((bits(&a), run), (bits(&b), Some(full)));
    }
    // as an error it says what its refusal says, and `?` makes it one
    let unordered = Unordered { refusal: Refusal::NotSettled, run: None };
    assert_eq!(unordered.to_string(), "The run did not settle: its values are not final.");
    assert_eq!(Refusal::from(unordered), Refusal::NotSettled);
}

#[test]
fn every_split_has_factors_of_its_own() {
    let was = drawn(1, 12);
    let split = |readings: &[f64]| {
        let mut a = readings.to_vec();
        let mut table = Table::new(&mut a, 4, 3).unwrap();
        let first = table.split_full(&Settings::default()).unwrap().1;
        (first, table.split_full(&Settings::default()).unwrap().1, a)
    };
    let (first, second, twice) = split(&was);
    assert_eq!(split(&was), (first.clone(), second.clone(), twice));
    // the second is of what the first left, begun anew: not the first multiplied on
    let mut left = was.clone();
    Table::new(&mut left, 4, 3).unwrap().split(&Settings::default()).unwrap();
    assert_eq!(split(&left).0, second);
    assert_ne!(first, second);
    // one value needs no turning: U and V are the identity that they began as
    let mut one = [7.0];
    let factors = Table::new(&mut one, 1, 1).unwrap().split_full(&Settings::default()).unwrap().1;
    assert_eq!(rows(&factors, 1, 1), (vec![1.0], vec![1.0]));
}

#[test]
fn rows_and_columns() {
    for (stations, passes) in [(1, 1), (3, 2), (2, 5), (MOST, MOST)] {
        let mut a = drawn(1, stations * passes);
        let mut table = Table::new(&mut a, stations, passes).unwrap();
        let factors = table.split_full(&Settings::default()).unwrap().1;
        let (u, v) = rows(&factors, stations, passes);
        for k in 0..stations {
            let column = factors.over_stations(k).unwrap();
            assert_eq!(column.len(), stations);
            assert!(column.enumerate().all(|(i, x)| x.to_bits() == u[i * stations + k].to_bits()));
        }
        for k in 0..passes {
            let column = factors.over_passes(k).unwrap();
            assert_eq!(column.len(), passes);
            assert!(column.enumerate().all(|(j, x)| x.to_bits() == v[j * passes + k].to_bits()));
        }
        for far in [0, 1, usize::MAX - MOST] {
            assert_eq!((factors.station(stations + far), factors.pass(passes + far)), (None, None));
            assert!(factors.over_stations(stations + far).is_none());
            assert!(factors.over_passes(passes + far).is_none());
        }
    }
}

// A first pass of zeros stops; the same pass at the end does not, nor does the table without it. These
// two say the same of the other passes: V's rows are moved as the passes were.
#[test]
fn a_first_pass_of_zeros() {
    let was: Vec<f64> = drawn(9, 40).iter().map(|x| (30.0 + x).round() / 10.0).collect();
    let with = |order: &[Option<usize>]| -> Vec<f64> {
        was.chunks(5).flat_map(|row| order.iter().map(|j| j.map_or(0.0, |j| row[j]))).collect()
    };
    // report, strength, and for each station and each pass what the strongest part holds of it
    let strongest = |order: &[Option<usize>]| {
        let (mut a, passes) = (with(order), order.len());
        let mut table = Table::new(&mut a, 8, passes).unwrap();
        let (report, factors) = table.split_full(&Settings::default()).unwrap();
        let values: Vec<f64> = table.values().collect();
        let k = (0..passes).max_by(|&a, &b| values[a].abs().total_cmp(&values[b].abs())).unwrap();
        let sign = factors.over_stations(k).unwrap().next().unwrap().signum();
        let u: Vec<f64> = factors.over_stations(k).unwrap().map(|x| sign * x).collect();
        let v: Vec<f64> = factors.over_passes(k).unwrap().map(|x| sign * x * values[k]).collect();
        (report, values[k].abs(), u, v)
    };
    let all = [Some(1), Some(2), Some(3), Some(4)];
    let first = [&[None][..], &all].concat();
    let last = [&all[..], &[None]].concat();
    assert!(matches!(strongest(&first).0, Report::Stopped { .. }));
    let (moved, left_out) = (strongest(&last), strongest(&all));
    let backwards = strongest(&[Some(4), Some(3), Some(2), Some(1)]);
    for (report, ..) in [&moved, &left_out, &backwards] {
        assert!(matches!(report, Report::Settled { .. }));
    }
    let near = |a: &[f64], b: &[f64]| a.iter().zip(b).all(|(a, b)| (a - b).abs() < 1e-12);
    assert!(near(&[moved.1, backwards.1], &[left_out.1; 2]));
    assert!(near(&moved.2, &left_out.2) && near(&backwards.2, &left_out.2));
    assert!(near(&moved.3, &left_out.3) && moved.3[4].abs() < 1e-12);
    let turned: Vec<f64> = backwards.3.iter().rev().copied().collect();
    assert!(near(&turned, &left_out.3));
}

#[test]
fn unfit_tables() {
    let mut a = drawn(2, 49 * 3);
    let was = a.clone();
    let mut refusal = |length: usize, stations, passes| {
        Table::new(&mut a[..length], stations, passes).unwrap_err()
    };
    assert_eq!(refusal(0, 0, 3), Refusal::Empty);
    assert_eq!(refusal(3, 3, 0), Refusal::Empty);
    assert_eq!(refusal(0, 0, 49), Refusal::Empty);
    assert_eq!(refusal(147, 49, 3), Refusal::Large);
    assert_eq!(refusal(147, 3, 49), Refusal::Large);
    assert_eq!(refusal(0, 1 << 32, 1 << 32), Refusal::Large);
    assert_eq!(refusal(11, 4, 3), Refusal::Length);
    assert_eq!(refusal(13, 4, 3), Refusal::Length);
    assert!(Table::new(&mut a[..144], 48, 3).is_ok());
    assert_eq!(bits(&a), bits(&was));
    // a table is not split by being made, nor are its readings looked at
    let mut odd = [f64::NAN, 1.0];
    assert!(Table::new(&mut odd, 1, 2).is_ok());
}

#[test]
fn unfit_settings() {
    let s = Settings::default();
    assert_eq!((s.limit(), s.credit()), (100, 50));
    assert_eq!((s.tolerance(), s.absolute(), s.floor()), (1e-10, 1e-12, 1e-21));
    assert_eq!(
        (s.with_limit(100_001), s.with_limit(u64::MAX)),
        (Err(Refusal::Count), Err(Refusal::Count))
    );
    assert_eq!(
        (s.with_credit(1_001), s.with_credit(u64::MAX)),
        (Err(Refusal::Count), Err(Refusal::Count))
    );
    for bad in [-5e-324, -1.0, f64::INFINITY, f64::NEG_INFINITY, f64::NAN] {
        assert_eq!(s.with_tolerance(bad), Err(Refusal::Bound));
        assert_eq!(s.with_absolute(bad), Err(Refusal::Bound));
        assert_eq!(s.with_floor(bad), Err(Refusal::Bound));
    }
    assert_eq!((s.with_floor(0.0), s.with_floor(-0.0)), (Err(Refusal::Bound), Err(Refusal::Bound)));
    let t = s
        .with_limit(100_000)
        .and_then(|s| s.with_credit(1_000))
        .and_then(|s| s.with_tolerance(-0.0));
    let t = t.and_then(|s| s.with_absolute(f64::MAX)).and_then(|s| s.with_floor(5e-324)).unwrap();
    assert_eq!(
        (t.limit(), t.credit(), t.absolute(), t.floor()),
        (100_000, 1_000, f64::MAX, 5e-324)
    );
    assert_eq!(t.tolerance().to_bits(), (-0.0f64).to_bits());
}

#[test]
fn bad_readings() {
    let settings = Settings::default();
    let refused = |a: &mut [f64], stations: usize, passes: usize| {
        let (before, mut values) = (bits(a), vec![7.0; stations.min(passes)]);
        let mut table = Table::new(a, stations, passes).unwrap();
        let refusal = table.split(&settings).unwrap_err();
        assert_eq!(table.split_full(&settings), Err(refusal));
        let unordered = Unordered { refusal, run: None };
        assert_eq!(table.split_in_order(&mut values, &settings), Err(unordered));
        assert_eq!((bits(a), values), (before, vec![7.0; stations.min(passes)]));
        refusal
    };
    // where the bad readings of a table of 4 x 3 stand: the first one's station and pass, and the count
    let cases = [
        (vec![0], (0, 0, 1)),
        (vec![11], (3, 2, 1)),
        (vec![7, 11], (2, 1, 2)),
        (vec![5, 6, 9, 10], (1, 2, 4)),
    ];
    for odd in [f64::NAN, f64::INFINITY, f64::NEG_INFINITY] {
        for (at, (station, pass, bad)) in &cases {
            let mut a = drawn(3, 12);
            at.iter().for_each(|&at| a[at] = odd);
            // behind the first one the others are of another kind
            at[1..]
                .iter()
                .zip([f64::NEG_INFINITY, f64::NAN])
                .for_each(|(&at, other)| a[at] = other);
            let wanted = Refusal::Reading { station: *station, pass: *pass, bad: *bad };
            assert_eq!(refused(&mut a, 4, 3), wanted);
        }
    }
    let all = refused(&mut [f64::NAN; MOST * MOST], MOST, MOST);
    assert_eq!(all, Refusal::Reading { station: 0, pass: 0, bad: 2304 });
    assert_eq!(all.to_string(), "Station 0, pass 0: no usable reading, and 2303 more.");
}

#[test]
fn refusals_have_numbers_and_texts() {
    use Refusal::*;
    let bad = Reading { station: 4, pass: 2, bad: 1 };
    let all = [
        Empty, Large, Length, Stations, Passes, List, Count, Bound, Profile, bad, NotSettled, Value,
    ];
    assert_eq!(all.map(|r| r.number()), [1, 2, 3, 4, 5, 11, 6, 7, 10, 8, 12, 13]);
    assert_eq!(Profile.to_string(), "There is no such profile.");
    assert_eq!(bad.to_string(), "Station 4, pass 2: no usable reading.");
    let two = Reading { station: 4, pass: 2, bad: 2 };
    assert_eq!(two.to_string(), "Station 4, pass 2: no usable reading, and 1 more.");
    let mut texts = all.map(|r| r.to_string()).to_vec();
    assert!(texts.iter().all(|t| t.len() < 80 && t.ends_with('.')));
    texts.sort();
    texts.dedup();
    assert_eq!(texts.len(), 12);
}

#[test]
fn roots() {
    assert_eq!(square_root(2.0).to_bits(), 0x3FF6A09E667F3BCD);
    assert!(square_root(-1.0).is_nan() && square_root(f64::NAN).is_nan());
    assert_eq!(square_root(-0.0).to_bits(), (-0.0f64).to_bits());
    assert_eq!(square_root(f64::INFINITY), f64::INFINITY);
    for x in drawn(5, 1000) {
        assert_eq!(square_root(x.abs()).to_bits(), x.abs().sqrt().to_bits());
    }
}

#[test]
fn two_threads_at_once() {
    let split = |seed: u64, stations: usize, passes: usize| {
        let mut a = drawn(seed, stations * passes);
        let mut table = Table::new(&mut a, stations, passes).unwrap();
        let (report, factors) = table.split_full(&Settings::default()).unwrap();
        (bits(&a), factors, report)
    };
    let jobs = [(6, 48, 31), (7, 29, 48)];
    let alone = jobs.map(|(seed, r, c)| split(seed, r, c));
    assert_ne!(alone[0], alone[1]);
    let line = std::sync::Barrier::new(2);
    std::thread::scope(|scope| {
        for (job, wanted) in jobs.iter().zip(&alone) {
            let line = &line;
            scope.spawn(move || {
                line.wait();
                for _ in 0..40 {
                    assert_eq!(&split(job.0, job.1, job.2), wanted);
                }
            });
        }
    });
}
