//! The comparison of pairs itself: drawn pairs agree and each thing that is counted is met; a reply that
//! is wrong is seen, against the original and by the law, whoever's it is.

use beside::kinds::Sizes;
use beside::pairs::{COUNTS, Pair, Side, Way, drawn};
use runs::pairs::{Replies, check, smaller, wrong};

fn pairs(seed: u64, many: u64) -> impl Iterator<Item = Pair> {
    (0..many).map(move |number| drawn(seed, number, Sizes::UpTo(8)))
}

#[test]
fn drawn_pairs_agree() {
    let mut counts = [0; COUNTS.len()];
    for pair in pairs(23, 3_000) {
        let seen = check(&pair).unwrap_or_else(|wrong| panic!("{wrong}\n{}", pair.told()));
        counts
            .iter_mut()
            .zip(seen)
            .for_each(|(to, many)| *to += many);
    }
    for ((name, _), many) in COUNTS.iter().zip(counts) {
        assert!(many > 0, "{name}");
    }
}

/// What is right has no small pair that is wrong.
#[test]
fn nothing_smaller() {
    assert!(smaller(31, "").is_none());
}

/// What is told of replies after a change of them, the library's and the original's.
fn told(pair: &Pair, change: impl Fn(&mut Replies, &mut Replies)) -> Vec<String> {
    let mut library = Replies::of_library(pair);
    let mut original = Replies::of_original(pair);
    assert_eq!(
        wrong(pair, &pair.began(), &library, &original),
        Vec::<String>::new()
    );
    change(&mut library, &mut original);
    wrong(pair, &pair.began(), &library, &original)
}

/// A row of U that began as one other alone, in the second run.
fn copied() -> Pair {
    let such = |pair: &Pair| {
        let alone = pair.way == Way::Copied && pair.side == Side::U;
        let began = pair.began();
        alone && pair.rows[0] == (1, 0) && began.alike.len() == 1 && began.zeros.is_empty()
    };
    pairs(29, 100_000).find(such).expect("such a pair")
}

const ROWS: &str = "row 1 of the first run's U and row 0 of the second run's U, which began alike";

fn spoil(x: &mut f64) {
    *x = if *x == 2.0 { 3.0 } else { 2.0 };
}

#[test]
fn a_row_of_the_library_is_seen() {
    let pair = copied();
    let lines = told(&pair, |library, _| spoil(&mut library.kept[1].u[0]));
    let law = format!("accumulating call, law of pairs, library: {ROWS}");
    assert_eq!(lines, ["accumulating call, second run: U differs", &law]);
    let lines = told(&pair, |library, _| spoil(&mut library.ordered[1].u[0]));
    let law = format!("ordered call, law of pairs, library: {ROWS}");
    assert_eq!(lines, ["ordered call, second run: U differs", &law]);
}

#[test]
fn a_row_of_the_original_is_seen() {
    let lines = told(&copied(), |_, original| spoil(&mut original.kept[1].u[0]));
    let law = format!("accumulating call, law of pairs, original: {ROWS}");
    assert_eq!(lines, ["accumulating call, second run: U differs", &law]);
}

/// Both wrong in the same way: they agree, and the law is broken twice.
#[test]
fn the_law_is_held_where_both_agree() {
    let lines = told(&copied(), |library, original| {
        spoil(&mut library.ordered[1].u[0]);
        spoil(&mut original.ordered[1].u[0]);
    });
    let law = |whose: &str| format!("ordered call, law of pairs, {whose}: {ROWS}");
    assert_eq!(lines, ["library", "original"].map(law));
}

/// What no law forbids is held against the original: a row that began as no other one, in either run
/// and by either call.
#[test]
fn each_reply_is_held_against_the_original() {
    let pair = copied();
    for (run, which) in ["first", "second"].into_iter().enumerate() {
        // Row 0 of the first run's U, and row 1 of the second one's.
        let at = run * pair.runs[0].rows;
        let lines = told(&pair, |library, _| {
            spoil(&mut library.kept[run].u[at]);
            spoil(&mut library.ordered[run].u[at]);
        });
        let must = |call: &str| format!("{call} call, {which} run: U differs");
        assert_eq!(lines, ["accumulating", "ordered"].map(must));
    }
}
