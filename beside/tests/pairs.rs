//! Drawn pairs are what their way says, the original keeps the law of pairs on them and on the stored
//! ones, and replies that break it are seen, whichever sentence they break.

use beside::Report;
use beside::kinds::{Sizes, TABLES};
use beside::pairs::{
    Began, COUNTS, Pair, Place, SIDES, Seen, Side, WAYS, Way, counted, drawn, stored,
};
use beside::run::{Call, Reply, Run, Start, alike, untouched};
use beside::{by_number, vectors};
use std::fs;

fn pairs(seed: u64, many: u64) -> impl Iterator<Item = Pair> {
    (0..many).map(move |number| drawn(seed, number, Sizes::UpTo(8)))
}

/// The replies of the original to both runs.
fn replies(pair: &Pair, call: Call) -> [Reply; 2] {
    [0, 1].map(|run: usize| pair.runs[run].reply(call))
}

fn broken(pair: &Pair, [one, other]: &[Reply; 2]) -> Option<String> {
    pair.broken(&pair.began(), [one, other])
}

fn lists(run: &Run) -> [Vec<f64>; 2] {
    run.factors().into()
}

fn rows(list: &[f64]) -> Vec<&[f64]> {
    let size = (1..).find(|size| size * size == list.len()).unwrap();
    list.chunks(size).collect()
}

/// A row of a reply.
fn row(replies: &mut [Reply; 2], place: Place) -> &mut [f64] {
    let Reply { u, v, .. } = &mut replies[place.run];
    let list = if place.side == Side::U { u } else { v };
    let size = (1..).find(|size| size * size == list.len()).unwrap();
    &mut list[place.row * size..][..size]
}

/// Another number than this one, NaNs too.
fn other_than(x: f64) -> f64 {
    if x == 2.0 { 3.0 } else { 2.0 }
}

#[test]
fn a_pair_is_always_the_same() {
    let told = |seed: u64| -> Vec<String> { pairs(seed, 50).map(|pair| pair.told()).collect() };
    assert_eq!(told(3), told(3));
    assert_ne!(told(3), told(4));
}

#[test]
fn two_fit_runs_of_one_table() {
    let mut kinds = [0; TABLES.len()];
    for pair in pairs(5, 2_000) {
        kinds[pair.table] += 1;
        let [one, other] = &pair.runs;
        assert_eq!((one.rows, one.cols), (other.rows, other.cols));
        assert_eq!(one.settings, other.settings);
        assert!(untouched(&one.matrix, &other.matrix));
        for run in &pair.runs {
            assert_eq!(run.call, Call::Ordered);
            assert_eq!(run.refusal(Call::Ordered), None, "{}", pair.told());
        }
    }
    assert!(kinds.iter().all(|&many| many > 30), "{kinds:?}");
}

/// The rows that the way makes alike are so, and what it says of the rest.
#[test]
fn each_way_is_what_it_says() {
    let mut by_way = [0; WAYS.len()];
    // Of rows that are drawn anew: alike by chance, and unlike.
    let mut anew = [0; 2];
    let (mut repeated, mut same, mut fresh, mut whole) = (0, 0, 0, 0);
    for pair in pairs(7, 6_000) {
        by_way[pair.way as usize] += 1;
        let kept = pair.side as usize;
        let [one, other] = [0, 1].map(|run: usize| lists(&pair.runs[run]));
        let [first, second] = [rows(&one[kept]), rows(&other[kept])];
        for &(from, to) in &pair.rows {
            assert!(alike(first[from], second[to]), "{}", pair.told());
        }
        let reached: Vec<usize> = pair.rows.iter().map(|&(_, to)| to).collect();
        let mut each = reached.clone();
        each.sort();
        let begins_alike = alike(&one[1 - kept], &other[1 - kept]);
        match pair.way {
            Way::Copied | Way::Identity | Way::Zeros => {
                assert_eq!(pair.rows.len(), 1);
                let rest = (0..first.len()).filter(|row| !reached.contains(row));
                for row in rest.filter(|_| first.len() > 3) {
                    anew[usize::from(!alike(first[row], second[row]))] += 1;
                }
                if one[1 - kept].len() > 9 {
                    assert!(!begins_alike, "{}", pair.told());
                }
            }
            Way::Exchanged => {
                let [(i, j), (k, l)] = [pair.rows[0], pair.rows[1]];
                assert!(i != j && (i, j) == (l, k));
                assert!(pair.rows[2..].iter().all(|(from, to)| from == to));
                assert_eq!(each, (0..first.len()).collect::<Vec<_>>());
                assert!(begins_alike);
            }
            Way::Rearranged => {
                assert_eq!(reached, (0..first.len()).collect::<Vec<_>>());
                let mut from: Vec<usize> = pair.rows.iter().map(|&(from, _)| from).collect();
                from.sort();
                from.dedup();
                repeated += usize::from(from.len() < first.len());
                same += usize::from(begins_alike);
                fresh += usize::from(!begins_alike);
            }
        }
        let (from, to) = pair.rows[0];
        if pair.way == Way::Identity {
            assert_eq!(from, to);
            let entry = |at: usize| if at == from { 1.0 } else { 0.0 };
            let must: Vec<f64> = (0..first.len()).map(entry).collect();
            assert!(untouched(first[from], &must) && untouched(second[from], &must));
            whole += usize::from(matches!(pair.runs[0].start, Start::Identity));
        }
        if pair.way == Way::Zeros {
            let void = |row: &[f64]| row.iter().all(|&x| x == 0.0 || x.is_nan());
            assert!(void(first[from]) && void(second[to]));
        }
    }
    assert!(by_way.iter().all(|&many| many > 1_000), "{by_way:?}");
    assert!(anew[1] > 20 * anew[0], "{anew:?}");
    assert!(repeated > 500 && same > 400 && fresh > 400);
    assert!((400..800).contains(&whole), "{whole}");
}

/// Two rows stand in the list exactly when they begin alike.
#[test]
fn every_two_rows_are_looked_at() {
    for pair in pairs(9, 500) {
        let began = pair.began();
        for side in SIDES {
            let [one, other] =
                [0, 1].map(|run: usize| lists(&pair.runs[run])[side as usize].clone());
            let [one, other] = [rows(&one), rows(&other)];
            let all = [one.clone(), other].concat();
            let place = |at: usize| Place {
                run: at / one.len(),
                side,
                row: at % one.len(),
            };
            for i in 0..all.len() {
                for j in i + 1..all.len() {
                    let listed = began.alike.contains(&[place(i), place(j)]);
                    assert_eq!(listed, alike(all[i], all[j]));
                }
            }
        }
    }
}

/// What was met on these pairs, by the replies to their calls.
fn met(met: &mut [u64; COUNTS.len()], pair: &Pair, kept: &[Reply; 2], ordered: &[Reply; 2]) {
    let seen = Seen {
        pair,
        began: &pair.began(),
        kept: [&kept[0], &kept[1]],
        ordered: [&ordered[0], &ordered[1]],
    };
    for (to, many) in met.iter_mut().zip(counted(&seen)) {
        *to += many;
    }
}

fn never(met: &[u64; COUNTS.len()]) -> Vec<&'static str> {
    let none = |((name, _), many): ((&'static str, _), &u64)| (*many == 0).then_some(name);
    COUNTS.into_iter().zip(met).filter_map(none).collect()
}

#[test]
fn the_original_keeps_the_law() {
    let mut counts = [0; COUNTS.len()];
    for pair in pairs(11, 2_000) {
        let [kept, ordered] = [Call::Accumulating, Call::Ordered].map(|call| replies(&pair, call));
        for replies in [&kept, &ordered] {
            assert_eq!(broken(&pair, replies), None, "{}", pair.told());
        }
        met(&mut counts, &pair, &kept, &ordered);
    }
    assert_eq!(never(&counts), [""; 0]);
}

/// The first pair, with its replies to the call, of which the test says so.
fn one_of(
    call: Call,
    test: impl Fn(&Pair, &Began, &[Reply; 2]) -> bool,
) -> (Pair, Began, [Reply; 2]) {
    let seen = |pair: Pair| {
        let (began, replies) = (pair.began(), replies(&pair, call));
        test(&pair, &began, &replies).then_some((pair, began, replies))
    };
    pairs(13, 100_000).find_map(seen).expect("such a pair")
}

fn calls() -> [Call; 2] {
    [Call::Accumulating, Call::Ordered]
}

#[test]
fn another_report_is_seen() {
    for call in calls() {
        let (pair, began, right) = one_of(call, |_, _, _| true);
        for (word, name) in Report::NAMES.into_iter().enumerate() {
            for run in [0, 1] {
                let mut wrong = right.clone();
                wrong[run].flip(word, 0);
                let told = pair.broken(&began, [&wrong[0], &wrong[1]]);
                assert_eq!(told, Some(format!("the report's {name}")));
            }
        }
    }
}

#[test]
fn two_refusals_are_seen() {
    let (pair, _, mut wrong) = one_of(Call::Ordered, |_, _, _| true);
    for reply in &mut wrong {
        reply.report = Report {
            number: 8,
            ..Report::default()
        };
    }
    assert_eq!(broken(&pair, &wrong), Some("refused".into()));
}

#[test]
fn another_matrix_is_seen() {
    for call in calls() {
        let (pair, _, right) = one_of(call, |pair, _, _| pair.runs[0].matrix.len() > 5);
        for at in 0..right[0].matrix.len() {
            let mut wrong = right.clone();
            wrong[1].matrix[at] = other_than(right[1].matrix[at]);
            assert_eq!(broken(&pair, &wrong), Some("the matrix".into()));
        }
    }
}

#[test]
fn another_list_of_values_is_seen() {
    let test = |number: u64| {
        let several = move |pair: &Pair, _: &Began, replies: &[Reply; 2]| {
            pair.runs[0].values.len() > 1 && replies[0].report.number == number
        };
        one_of(Call::Ordered, several)
    };
    let (pair, _, right) = test(0);
    for at in 0..right[0].values.len() {
        let mut wrong = right.clone();
        wrong[1].values[at] = other_than(right[1].values[at]);
        assert_eq!(broken(&pair, &wrong), Some("the list of values".into()));
    }
    // With 12 and 13 each list is as it was lent.
    for number in [12, 13] {
        let (pair, _, right) = test(number);
        assert!(!alike(&right[0].values, &right[1].values));
        assert_eq!(broken(&pair, &right), None);
    }
}

#[test]
fn an_exchange_that_is_left_out_is_seen() {
    for call in calls() {
        for side in SIDES {
            let (pair, _, mut replies) = one_of(call, |pair, _, replies| {
                let [one, other] = [0, 1].map(|run: usize| [&replies[run].u, &replies[run].v]);
                let (one, other) = (one[side as usize], other[side as usize]);
                pair.way == Way::Exchanged && pair.side == side && !alike(one, other)
            });
            if side == Side::U {
                replies[1].u = replies[0].u.clone();
            } else {
                replies[1].v = replies[0].v.clone();
            }
            let told = format!("the exchange in {side:?}");
            assert_eq!(broken(&pair, &replies), Some(told));
        }
    }
}

/// An entry of a row that stays, and one of the other factor.
#[test]
fn what_changes_beside_an_exchange_is_seen() {
    for call in calls() {
        let exchanged = |pair: &Pair, _: &Began, _: &[Reply; 2]| {
            pair.way == Way::Exchanged && pair.side == Side::U && pair.rows.len() > 2
        };
        let (pair, _, right) = one_of(call, exchanged);
        let stays = Place {
            run: 1,
            side: Side::U,
            row: pair.rows[2].1,
        };
        let mut wrong = right.clone();
        let entry = &mut row(&mut wrong, stays)[0];
        *entry = other_than(*entry);
        assert_eq!(broken(&pair, &wrong), Some("the exchange in U".into()));
        for run in [0, 1] {
            let mut wrong = right.clone();
            wrong[run].v[0] = other_than(right[run].v[0]);
            let told = Some("V, which began alike".into());
            assert_eq!(broken(&pair, &wrong), told);
        }
    }
}

/// Each entry of each row that began as another one: a number in its place is seen. A row that began as
/// no other one, and not with zeros and NaNs alone, may end anyhow.
#[test]
fn another_row_is_seen() {
    let (mut seen, mut free, mut inside) = (0, 0, 0);
    for pair in pairs(17, 400) {
        let began = pair.began();
        let bound = |place: Place| began.alike.iter().any(|two| two.contains(&place));
        for call in calls() {
            let right = replies(&pair, call);
            for side in SIDES {
                let size = [pair.runs[0].rows, pair.runs[0].cols][side as usize];
                for (run, at) in [0, 1]
                    .into_iter()
                    .flat_map(|run| (0..size).map(move |at| (run, at)))
                {
                    let place = Place { run, side, row: at };
                    for column in 0..size {
                        let mut wrong = right.clone();
                        let entry = &mut row(&mut wrong, place)[column];
                        *entry = other_than(*entry);
                        let told = pair.broken(&began, [&wrong[0], &wrong[1]]);
                        let law = bound(place) || began.zeros.contains(&place);
                        assert_eq!(told.is_some(), law, "{place:?}\n{}", pair.told());
                        seen += u64::from(law);
                        free += u64::from(!law);
                    }
                }
            }
        }
        inside += began
            .alike
            .iter()
            .filter(|two| two[0].run == two[1].run)
            .count();
    }
    assert!(
        seen > 10_000 && free > 10_000 && inside > 100,
        "{seen} {free} {inside}"
    );
}

/// The message names the two rows: one of each run, and two of one run.
#[test]
fn the_rows_are_told() {
    let copied = |pair: &Pair, began: &Began, _: &[Reply; 2]| {
        pair.way == Way::Copied && pair.rows[0] == (1, 0) && began.alike.len() == 1
    };
    let (pair, began, mut wrong) = one_of(Call::Accumulating, copied);
    let side = pair.side;
    let entry = &mut row(&mut wrong, began.alike[0][1])[0];
    *entry = other_than(*entry);
    let told = format!(
        "row 1 of the first run's {side:?} and row 0 of the second run's {side:?}, which began alike"
    );
    assert_eq!(broken(&pair, &wrong), Some(told));

    // No way makes two rows of one run alike by themselves: row 0 of the first run's U is put in the
    // place of its row 1.
    let made = |mut pair: Pair| {
        let (mut u, v) = pair.runs[0].factors();
        let size = pair.runs[0].rows;
        if size > 1 {
            u.copy_within(..size, size);
        }
        (pair.way, pair.runs[0].start) = (Way::Copied, Start::Given(u, v));
        let began = pair.began();
        let inside = |two: &[Place; 2]| two.iter().all(|place| place.run == 0);
        let alone = began.alike.len() == 1 && inside(&began.alike[0]) && began.zeros.is_empty();
        alone.then(|| (replies(&pair, Call::Accumulating), pair))
    };
    let (mut wrong, pair) = pairs(19, 100_000).find_map(made).expect("such a pair");
    assert_eq!(broken(&pair, &wrong), None);
    wrong[0].u[0] = other_than(wrong[0].u[0]);
    let told = "row 0 of the first run's U and row 1 of the first run's U, which began alike";
    assert_eq!(broken(&pair, &wrong), Some(told.into()));
}

/// A row of zeros that ends with something else in all the rows that began so: each of the other
/// sentences holds, and this one alone is broken.
#[test]
fn a_row_of_zeros_that_is_filled_is_seen() {
    for call in calls() {
        for (with_nan, filling) in [(false, 1.0), (true, f64::INFINITY), (false, 5e-324)] {
            let test = |_: &Pair, began: &Began, _: &[Reply; 2]| {
                let nan = |place: &Place| began.row(*place).iter().any(|x| x.is_nan());
                began
                    .zeros
                    .first()
                    .is_some_and(|place| nan(place) == with_nan)
            };
            let (pair, began, right) = one_of(call, test);
            let place = began.zeros[0];
            let mut places = vec![place];
            let with = |two: &&[Place; 2]| two.contains(&place);
            places.extend(began.alike.iter().filter(with).flatten());
            let mut wrong = right.clone();
            for &place in &places {
                row(&mut wrong, place)[0] = filling;
            }
            let told = broken(&pair, &wrong).expect("broken");
            let end = "which began with zeros and NaNs alone";
            assert!(told.ends_with(end), "{told}");
            // A NaN and a -0 may stand there.
            for allowed in [f64::NAN, -0.0] {
                let mut right = right.clone();
                for &place in &places {
                    row(&mut right, place)[0] = allowed;
                }
                assert_eq!(broken(&pair, &right), None);
            }
        }
    }
}

/// In a row that ended with a NaN its bits do not count, and a number in its place does.
#[test]
fn nans_are_alike() {
    for call in calls() {
        let (pair, began, right) = one_of(call, |pair, began, replies| {
            let nan =
                |two: &[Place; 2]| began.ended(&[&replies[0], &replies[1]], two[1])[0].is_nan();
            pair.way == Way::Copied && began.alike.iter().any(nan)
        });
        let two = began.alike.iter().find(|two| {
            let ended = began.ended(&[&right[0], &right[1]], two[1]);
            ended[0].is_nan()
        });
        let place = two.expect("such rows")[1];
        let with = |x: f64| {
            let mut replies = right.clone();
            row(&mut replies, place)[0] = x;
            broken(&pair, &replies)
        };
        assert_eq!(with(f64::from_bits(0xFFF0_0000_0000_0001)), None);
        assert!(with(0.0).is_some() && with(f64::INFINITY).is_some());
    }
}

/// Reads the words of the stored file one after the other.
struct Words(std::vec::IntoIter<u64>);

impl Words {
    fn stored() -> Words {
        let path = concat!(env!("CARGO_MANIFEST_DIR"), "/../crates/vectors/stdin");
        let words = fs::read(path).unwrap();
        let word = |bytes: &[u8]| u64::from_le_bytes(bytes.try_into().unwrap());
        Words(
            words
                .chunks_exact(8)
                .map(word)
                .collect::<Vec<u64>>()
                .into_iter(),
        )
    }

    fn next(&mut self) -> u64 {
        self.0.next().unwrap()
    }

    fn floats(&mut self, many: usize) -> Vec<f64> {
        (0..many).map(|_| f64::from_bits(self.next())).collect()
    }

    fn report(&mut self) -> Report {
        Report::NAMES.map(|_| self.next()).into()
    }

    /// A run that is lent U and V where it is one, its replies to the accumulating and the ordered call.
    fn run(&mut self) -> (Run, [Reply; 2]) {
        let head: Vec<u64> = (0..14).map(|_| self.next()).collect();
        let [call, given, matrix, u, v, values, differ] = head[7..] else {
            unreachable!()
        };
        assert_eq!(differ, 0);
        let call = [Call::Plain, Call::Accumulating, Call::Ordered][call as usize];
        let [matrix, u, v, values] = [matrix, u, v, values].map(|many| many as usize);
        let run = Run {
            rows: head[0] as usize,
            cols: head[1] as usize,
            settings: beside::Settings {
                limit: head[2] as usize,
                credit: head[3] as usize,
                tolerance: f64::from_bits(head[4]),
                absolute: f64::from_bits(head[5]),
                floor: f64::from_bits(head[6]),
            },
            profile: None,
            call,
            matrix: self.floats(matrix),
            start: match given {
                0 => Start::Identity,
                _ => Start::Given(self.floats(u), self.floats(v)),
            },
            values: vec![0.0; values],
        };
        let mut kept = Reply {
            report: self.report(),
            matrix: Vec::new(),
            u: Vec::new(),
            v: Vec::new(),
            values: Vec::new(),
        };
        if kept.report.number == 0 {
            kept.matrix = self.floats(matrix);
            (kept.u, kept.v) = (self.floats(u), self.floats(v));
        }
        // The ordered call leaves the accumulating one's matrix, and with 12 and 13 its U and V.
        let mut ordered = kept.clone();
        if call == Call::Ordered {
            ordered.report = self.report();
            if ordered.report.number == 0 {
                ordered.values = self.floats(values);
                (ordered.u, ordered.v) = (self.floats(u), self.floats(v));
            }
        }
        (run, [kept, ordered])
    }
}

/// The stored pairs stand behind the other stored runs with settings, are the drawn ones, and their stored
/// answers keep the law.
#[test]
fn the_stored_answers_keep_the_law() {
    let pairs = stored();
    assert_eq!(pairs.len(), 40);
    let mut words = Words::stored();
    let behind = by_number::stored().len();
    for _ in 0..vectors::stored().len() - behind - 2 * pairs.len() {
        words.run();
    }
    let mut counts = [0; COUNTS.len()];
    for drawn in &pairs {
        let (one, [one_kept, one_ordered]) = words.run();
        let (other, [other_kept, other_ordered]) = words.run();
        let pair = Pair {
            runs: [one, other],
            rows: drawn.rows.clone(),
            ..*drawn
        };
        for (read, drawn) in pair.runs.iter().zip(&drawn.runs) {
            assert!(read.rows <= 6 && read.cols <= 6);
            assert_eq!((read.rows, read.cols), (drawn.rows, drawn.cols));
            assert_eq!((read.settings, read.call), (drawn.settings, drawn.call));
            let (read, drawn) = (read.lent(Call::Ordered), drawn.lent(Call::Ordered));
            assert!(untouched(&read.matrix, &drawn.matrix));
            assert!(untouched(&read.u, &drawn.u) && untouched(&read.v, &drawn.v));
        }
        let (kept, ordered) = ([one_kept, other_kept], [one_ordered, other_ordered]);
        assert!(kept[0].report.passes <= 2_000);
        for replies in [&kept, &ordered] {
            assert_eq!(broken(&pair, replies), None, "{}", pair.told());
        }
        met(&mut counts, &pair, &kept, &ordered);
    }
    assert_eq!(never(&counts), [""; 0]);
    let of = |name: &str| {
        let at = COUNTS.iter().position(|(counted, _)| *counted == name);
        counts[at.unwrap()]
    };
    for (_, way) in WAYS {
        assert_eq!(of(&format!("  {way}")), 8);
    }
    let sides = [of("  by U"), of("  by V")];
    assert_eq!(sides, [20, 20]);
    let numbers = ["values in order", "12", "13"].map(|end| of(&format!("ordered call: {end}")));
    assert_eq!(numbers, [20, 10, 10]);
}
