//! The stored runs are what the program writes, their replies keep the rules, and a fault in one bit
//! of a reply is seen.

use beside::run::{Call, Reply, Run, Start};
use beside::vectors::{
    BY_PROFILE, LONGEST, Told, entry, stored, stored_summary, told, words, write, write_stored,
    wrong,
};
use beside::{Report, Settings, by_number, cases, refusals};
use std::fs;

fn file(name: &str) -> Vec<u8> {
    let folder = concat!(env!("CARGO_MANIFEST_DIR"), "/../crates/vectors/");
    fs::read(format!("{folder}{name}")).unwrap()
}

#[test]
fn the_stored_file() {
    let mut bytes = Vec::new();
    write_stored(&mut bytes).unwrap();
    assert!(bytes == file("stdin"), "write crates/vectors/stdin");
    assert_eq!(stored_summary().as_bytes(), file("stdout"));
}

#[test]
fn the_words_of_a_run() {
    let run = Run::from(cases::case(
        2,
        2,
        &[2.0, 0.0, 0.0, 1.0],
        Settings::LOW_FLOOR,
    ));
    let (one, two) = (1f64.to_bits(), 2f64.to_bits());
    let (minus_one, minus_two) = ((-1f64).to_bits(), (-2f64).to_bits());
    let tolerance = 0x3DDB_7CDF_D9D7_BDBB;
    let absolute = 0x3D71_9799_812D_EA11;
    let floor = 1 << 52;
    let head = [
        2, 2, 100, 50, tolerance, absolute, floor, 2, 0, 4, 4, 4, 2, 0,
    ];
    let report = [0, 0, 0, 0, 1, 1, 0, 1, 1, 0];
    let mut right = [&head[..], &[two, 0, 0, one], &report].concat();
    right.extend([minus_two, 0, 0, one, minus_one, 0, 0, one, one, 0, 0, one]);
    // The first column of U is negated: it is the identity again, but for the sign of its zero.
    right.extend(report);
    right.extend([two, one, one, 0, 1 << 63, one, one, 0, 0, one]);
    assert_eq!(words(&run, &told(&run), 0), right);
    let bytes: Vec<u8> = right.into_iter().flat_map(u64::to_le_bytes).collect();
    let mut out = Vec::new();
    write([run].into_iter(), &mut out).unwrap();
    assert_eq!(out, bytes);
}

#[test]
fn the_words_of_a_refusal() {
    let run = Run {
        rows: 1 << 63,
        cols: 2,
        settings: Settings::LOW_FLOOR,
        profile: None,
        call: Call::Ordered,
        matrix: vec![f64::INFINITY],
        start: Start::Given(vec![], vec![1.0, 2.0]),
        values: vec![7.0; 3],
    };
    let refused = [2, 0, 0, 0, 0, 0, 0, 0, 0, 0];
    let (one, two) = (1f64.to_bits(), 2f64.to_bits());
    let all = words(&run, &told(&run), 0);
    assert_eq!(all[..2], [1 << 63, 2]);
    assert_eq!(all[7..14], [2, 1, 1, 0, 2, 3, 0]);
    assert_eq!(all[14..17], [0x7FF0_0000_0000_0000, one, two]);
    assert_eq!(all[17..], [refused, refused].concat());
    let kept = Run {
        call: Call::Accumulating,
        ..run
    };
    let fewer = words(&kept, &told(&kept), 0);
    assert_eq!(fewer[7..14], [1, 1, 1, 0, 2, 0, 0]);
    assert_eq!(fewer[14..], all[14..27]);
}

/// By a profile's number: the number stands in the place of the limit, the rest of the settings is 0.
#[test]
fn the_words_of_a_run_by_profile() {
    let with = Run::from(cases::case(2, 2, &[2.0, 0.0, 0.0, 1.0], Settings::DEFAULT));
    for (call, word) in [
        (Call::Plain, 3),
        (Call::Accumulating, 4),
        (Call::Ordered, 5),
    ] {
        let with = Run {
            call,
            ..with.clone()
        };
        let by = |number: usize| Run {
            profile: Some(number),
            ..with.clone()
        };
        // All else is as with the settings of the profile, which are the default ones.
        let (own, other) = (
            words(&by(1), &told(&by(1)), 0),
            words(&with, &told(&with), 0),
        );
        assert_eq!(own[2..8], [1, 0, 0, 0, 0, word]);
        assert_eq!((&own[..2], &own[8..]), (&other[..2], &other[8..]));
        let none = by((1 << 32) + 2);
        let refused = words(&none, &told(&none), 0);
        assert_eq!(refused[2..8], [(1 << 32) + 2, 0, 0, 0, 0, word]);
        let report = [10, 0, 0, 0, 0, 0, 0, 0, 0, 0];
        let both = [report, report].concat();
        assert_eq!(refused[18..], both[..if word == 5 { 20 } else { 10 }]);
    }
}

/// With 12 the ordered call has the accumulating one's words but for the number, and no lists.
#[test]
fn the_words_of_a_run_that_has_not_settled() {
    let after = |limit: usize| Settings {
        limit,
        ..Settings::DEFAULT
    };
    let zeros: &[f64] = &[0.0; 4];
    for (table, limit, report) in [
        (&[2.0, 3.0, 0.0, 1.0][..], 0, [2, 0, 0, 0, 2, 0]),
        (&[2.0, 0.0, 0.0, 1.0], 0, [3, 0, 0, 0, 2, 0]),
        (zeros, 3, [3, 3, 3, 0, 2, 6]),
    ] {
        let run = Run::from(cases::case(2, 2, table, after(limit)));
        let all = words(&run, &told(&run), 0);
        let stopped = [&[0; 4], &report[..]].concat();
        assert_eq!(all[18..28], stopped);
        assert_eq!(all[40..], [&[12], &stopped[1..]].concat());
    }
}

#[test]
fn each_run_ends_where_the_next_begins() {
    let words: Vec<u64> = file("stdin")
        .chunks_exact(8)
        .map(|bytes| u64::from_le_bytes(bytes.try_into().unwrap()))
        .collect();
    let (mut at, mut runs, mut marked, mut by_profile) = (0, 0, 0, 0);
    while at < words.len() {
        let head = &words[at..at + 14];
        let [call, start, matrix, u, v, values, differ] = head[7..] else {
            unreachable!()
        };
        let profile = call >= BY_PROFILE;
        let call = if profile { call - BY_PROFILE } else { call };
        assert!(!profile || head[3..7] == [0; 4]);
        by_profile += u64::from(profile && differ == 0);
        assert!(call <= 2 && start <= call && differ <= 1 + call);
        assert!([matrix, u, v, values].iter().all(|&n| n <= LONGEST as u64));
        assert!(call >= 1 || (u, v) == (0, 0));
        assert!(call == 2 || values == 0);
        at += 14 + (matrix + start * (u + v)) as usize;
        let mut answer = |known: &[u64], lists: u64| {
            let number = words[at];
            assert!(differ > 0 || known.contains(&number));
            at += Report::NAMES.len() + if number == 0 { lists as usize } else { 0 };
        };
        let settings: &[u64] = if profile { &[10] } else { &[6, 7] };
        let known = [&[0, 1, 2, 3, 4, 5, 8], settings].concat();
        answer(&known, matrix + u + v);
        if call == 2 {
            answer(&[&known[..], &[11, 12, 13]].concat(), values + u + v);
        }
        if differ == 0 {
            assert_eq!(marked, 0, "the right ones come first");
            runs += 1;
        } else {
            marked += 1;
        }
    }
    // The last run lacks a byte.
    assert_eq!(at, words.len() + 1);
    assert_eq!((runs, marked), (stored().len(), wrong().len() + 1));
    assert_eq!(by_profile, by_number::stored().len() as u64);
}

/// Each bit that is told of a run is one of its words, where the program looks for it.
#[test]
fn a_bit_of_a_reply_is_seen() {
    for run in stored().iter().filter(|run| run.matrix.len() <= 16) {
        let right = told(run);
        let first = words(run, &right, 0);
        let seen = |change: &dyn Fn(&mut Told), places: &[usize]| {
            let mut wrong = right.clone();
            change(&mut wrong);
            let other = words(run, &wrong, 0);
            assert_eq!(other.len(), first.len());
            let differ = (0..first.len()).filter(|&at| other[at] != first[at]);
            assert_eq!(differ.collect::<Vec<usize>>(), places);
        };
        let report = Report::NAMES.len();
        // How many entries are told of a call, and how many of them are stored.
        let lists = |reply: &Reply, matrix: usize| {
            let many = matrix + reply.u.len() + reply.v.len() + reply.values.len();
            (many, if reply.report.number == 0 { many } else { 0 })
        };
        let (many, kept) = lists(&right.first, right.first.matrix.len());
        let ordered = right.ordered.as_ref().map(|reply| lists(reply, 0));
        let end = first.len() - ordered.map_or(0, |(_, stored)| report + stored);
        let begin = end - report - kept;
        for at in 1..report {
            seen(&|told| told.first.flip(at, 0), &[begin + at]);
            if ordered.is_some() {
                let flip = |told: &mut Told| told.ordered.as_mut().unwrap().flip(at, 0);
                seen(&flip, &[end + at]);
            }
        }
        for at in 0..right.entries() {
            let place = if at < many {
                (kept > 0).then_some(begin + report + at)
            } else {
                ordered.and_then(|(_, stored)| (stored > 0).then_some(end + report + at - many))
            };
            let nan = entry(&mut right.clone(), at).unwrap().is_nan();
            for bit in [0, 63] {
                let flip = |told: &mut Told| {
                    let entry = entry(told, at).unwrap();
                    *entry = f64::from_bits(entry.to_bits() ^ 1 << bit);
                };
                let places: Vec<usize> = place.filter(|_| !nan).into_iter().collect();
                seen(&flip, &places);
            }
        }
    }
}

#[test]
fn nans_are_alike() {
    let run = Run::from(cases::case(1, 1, &[3.0], Settings::DEFAULT));
    let with = |bits: u64| {
        let mut told = told(&run);
        told.first.matrix[0] = f64::from_bits(bits);
        words(&run, &told, 0)
    };
    assert_eq!(with(0x7FF8_0000_0000_0000), with(0xFFF0_0000_0000_0001));
    assert_ne!(with(0x7FF8_0000_0000_0000), with(0x7FF0_0000_0000_0000));
}

#[test]
fn refused_as_told() {
    for (call, told, run) in refusals::all().into_iter().chain(refusals::by_profile()) {
        assert_eq!(run.reply(call).report.number, told, "{run:?}");
        // What the accumulating call refuses, the ordered one does.
        if call == Call::Accumulating && told != 0 {
            assert_eq!(run.reply(Call::Ordered).report.number, told, "{run:?}");
        }
    }
}

#[test]
fn every_number_is_stored() {
    let told = refusals::all();
    for call in [Call::Plain, Call::Accumulating, Call::Ordered] {
        // The ordered call's are its own.
        let numbers = (0..=13).filter(|number| ![9, 10].contains(number));
        let own = |number: &u64| call.has(*number) && (call < Call::Ordered || *number > 8);
        for number in numbers.filter(own) {
            let such = |(of, given, _): &&(Call, u64, Run)| (*of, *given) == (call, number);
            assert!(told.iter().filter(such).count() >= 4, "{call:?} {number}");
        }
    }
}
