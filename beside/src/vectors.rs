//! Runs of the calls with their replies, written as crates/vectors/src/stored.rt says and the program
//! `vectors` replays them. In a reply every NaN is 7FF8000000000000.

use crate::cases::{self, Draw};
use crate::kinds::{Sizes, drawn, table, with_settings};
use crate::rotations::{self, Turned};
use crate::run::{Call, Reply, Run, Start, alike, untouched, unwritten};
use crate::text::Case;
use crate::{Report, Settings, by_number, pairs, refusals};
use std::io::{self, Write};

/// No list of a stored run may be longer: 49 x 49.
pub const LONGEST: usize = 2401;

/// The runs that are stored: the small cases, the refusals, drawn runs of every kind that make few
/// passes, large tables, pairs of runs, each run of a pair behind the other, and runs by a profile's number.
pub fn stored() -> Vec<Run> {
    let mut runs: Vec<Run> = cases::all().into_iter().map(Run::from).collect();
    runs.extend(refusals::all().into_iter().map(|(_, _, run)| run));
    for (most, many) in [(3, 500), (6, 600), (12, 170), (24, 30)] {
        let drawn = (0..).map(|number| with_settings(0x570E, number, Sizes::UpTo(most)).0);
        runs.extend(
            drawn
                .filter(|run| told(run).first.report.passes <= MOST_PASSES)
                .take(many),
        );
    }
    runs.extend(large());
    runs.extend(pairs::stored().into_iter().flat_map(|pair| pair.runs));
    runs.extend(by_number::stored());
    runs
}

/// No drawn run that is stored makes more passes.
pub(crate) const MOST_PASSES: u64 = 2_000;

/// Readings of an anemometer and any readings in the largest shapes, with the default settings.
fn large() -> impl Iterator<Item = Run> {
    let shapes = [
        (48, 48),
        (48, 47),
        (12, 48),
        (48, 12),
        (48, 1),
        (1, 48),
        (31, 48),
        (48, 31),
    ];
    shapes
        .into_iter()
        .enumerate()
        .map(|(number, (rows, cols))| Run {
            rows,
            cols,
            settings: Settings::DEFAULT,
            profile: None,
            call: match number {
                1 => Call::Plain,
                _ => Call::Ordered,
            },
            matrix: table(
                &mut Draw(number as u64),
                number % 2,
                rows,
                cols,
                Settings::DEFAULT.floor,
            ),
            start: Start::Identity,
            values: unwritten(rows.min(cols)),
        })
}

/// The first runs of a seed, of all sizes.
pub fn lot(seed: u64, many: u64) -> impl Iterator<Item = Run> {
    (0..many).map(move |number| drawn(seed, number, Sizes::All).0)
}

impl From<Case> for Run {
    fn from(case: Case) -> Run {
        let run = Run {
            rows: case.rows,
            cols: case.cols,
            settings: case.settings,
            profile: None,
            call: match case.uv {
                Some(_) => Call::Ordered,
                None => Call::Plain,
            },
            matrix: case.matrix,
            start: Start::Identity,
            values: unwritten(case.rows.min(case.cols)),
        };
        let identity = run.factors();
        match case.uv {
            Some((u, v)) if !(untouched(&u, &identity.0) && untouched(&v, &identity.1)) => Run {
                start: Start::Given(u, v),
                ..run
            },
            _ => run,
        }
    }
}

/// What is stored with a run: the reply of the accumulating call, or of the plain one where that alone
/// is made, and the reply of the ordered call.
#[derive(Clone, Debug)]
pub struct Told {
    pub first: Reply,
    pub ordered: Option<Reply>,
}

impl Told {
    /// How many entries of lists `entry` tells apart.
    pub fn entries(&self) -> usize {
        let replies = [Some(&self.first), self.ordered.as_ref()];
        let lists = |reply: &Reply| reply.u.len() + reply.v.len() + reply.values.len();
        self.first.matrix.len() + replies.into_iter().flatten().map(lists).sum::<usize>()
    }
}

/// What is stored with a run. Beside the accumulating call the plain one is replayed; it must get the
/// same, but for the numbers that it has not.
pub fn told(run: &Run) -> Told {
    let first = run.reply(run.call.min(Call::Accumulating));
    if run.call.keeps() && Call::Plain.has(first.report.number) {
        let plain = run.reply(Call::Plain);
        assert!(
            plain.report == first.report && alike(&plain.matrix, &first.matrix),
            "plain and accumulating call differ: {}",
            run.told()
        );
    }
    let ordered = (run.call == Call::Ordered).then(|| run.ordered(&first));
    Told { first, ordered }
}

/// So much more is the word of a call by a profile's number, which stands in the place of the limit; the
/// other words of the settings are 0.
pub const BY_PROFILE: u64 = 3;

/// A run with what is told of it, as words. `differ` is how many of the run's calls have to differ
/// from that: 0, or more where it is wrong on purpose. What the list of values holds at first is not
/// stored: the program fills it by itself.
pub fn words(run: &Run, told: &Told, differ: u64) -> Vec<u64> {
    let given = run.call.keeps() && matches!(run.start, Start::Given(..));
    let lent = run.lent(run.call);
    let lists = [&lent.matrix, &lent.u, &lent.v, &lent.values];
    assert!(lists.iter().all(|list| list.len() <= LONGEST), "too long");
    let mut words = vec![run.rows as u64, run.cols as u64];
    match run.profile {
        None => {
            let s = &run.settings;
            words.extend([s.limit as u64, s.credit as u64]);
            words.extend([s.tolerance, s.absolute, s.floor].map(f64::to_bits));
            words.push(run.call as u64);
        }
        Some(number) => words.extend([number as u64, 0, 0, 0, 0, BY_PROFILE + run.call as u64]),
    }
    words.push(u64::from(given));
    words.extend(lists.map(|list| list.len() as u64));
    words.push(differ);
    let before = &lists[..if given { 3 } else { 1 }];
    words.extend(before.iter().copied().flatten().map(|x| x.to_bits()));
    let mut answer = |reply: &Reply, after: &[&Vec<f64>]| {
        words.extend(reply.report.words());
        if reply.report.number == 0 {
            words.extend(after.iter().copied().flatten().map(|&x| bits(x)));
        }
    };
    let Told { first, ordered } = told;
    answer(first, &[&first.matrix, &first.u, &first.v]);
    if let Some(ordered) = ordered {
        answer(ordered, &[&ordered.values, &ordered.u, &ordered.v]);
    }
    words
}

/// The bits of a double, every NaN alike.
fn bits(x: f64) -> u64 {
    if x.is_nan() {
        0x7FF8_0000_0000_0000
    } else {
        x.to_bits()
    }
}

/// How many of the run's calls differ from what is told of it.
fn differing(run: &Run, told: &Told) -> u64 {
    let differs = |call: Call, must: &Reply| {
        let got = run.reply(call);
        let lists = [
            (&got.matrix, &must.matrix),
            (&got.u, &must.u),
            (&got.v, &must.v),
            (&got.values, &must.values),
        ];
        u64::from(got.report != must.report || !lists.iter().all(|(a, b)| alike(a, b)))
    };
    // With a number other than 0 no lists are stored: they are as they were.
    let left = |call: Call, reply: &Reply| match reply.report.number {
        0 => reply.clone(),
        _ => Reply {
            report: reply.report,
            ..run.lent(call)
        },
    };
    let call = run.call.min(Call::Accumulating);
    let first = left(call, &told.first);
    let mut many = differs(call, &first);
    // The program leaves out the plain call where 4 or 5 is told, whose numbers they are not.
    if call.keeps() && ![4, 5].contains(&first.report.number) {
        let plain = Reply {
            matrix: first.matrix.clone(),
            report: first.report,
            ..run.lent(Call::Plain)
        };
        many += differs(Call::Plain, &plain);
    }
    if let Some(ordered) = &told.ordered {
        let mut must = left(Call::Ordered, ordered);
        // The ordered call leaves the accumulating one's matrix, and with 12 and 13 its U and V.
        if [0, 12, 13].contains(&must.report.number) {
            must.matrix = first.matrix.clone();
        }
        if [12, 13].contains(&must.report.number) {
            (must.u, must.v) = (first.u.clone(), first.v.clone());
        }
        many += differs(Call::Ordered, &must);
    }
    many
}

/// One entry of the lists that are stored after a run, in a row; none where there are not so many.
pub fn entry(told: &mut Told, mut at: usize) -> Option<&mut f64> {
    let Told { first, ordered } = told;
    let mut lists = vec![&mut first.matrix, &mut first.u, &mut first.v];
    if let Some(ordered) = ordered {
        lists.extend([&mut ordered.values, &mut ordered.u, &mut ordered.v]);
    }
    for list in lists {
        if at < list.len() {
            return Some(&mut list[at]);
        }
        at -= list.len();
    }
    None
}

/// Runs with answers that are wrong on purpose in one place: each word of the report, its lowest and
/// its highest bit; row and column of a bad reading exchanged; each entry of each list, its lowest and
/// its highest bit; every bit of one entry of each list; a NaN for a number and a number for a NaN. First
/// of the plain and the accumulating call, then of the ordered one, which has not every bit. Then of all
/// three every other word than a quiet run's own, and than that of one which misses it.
fn replies_wrong(wrong: &mut Vec<(Run, Told)>) {
    let accepted = |call: Call, start: &Start| Run {
        rows: 2,
        cols: 2,
        settings: Settings::DEFAULT,
        profile: None,
        call,
        matrix: vec![4.0, -6.0, -8.0, -8.0],
        start: start.clone(),
        values: unwritten(2),
    };
    let given = Start::Given(vec![2.0, -1.0, 0.5, 3.0], vec![1.0, 7.0, -0.0, 0.25]);
    let bases = [
        accepted(Call::Accumulating, &Start::Identity),
        accepted(Call::Accumulating, &given),
        accepted(Call::Plain, &Start::Identity),
    ];
    // Of the runs that are refused by 8 one whose bad reading has a row and a column that are unlike.
    let answering = |call: Call, number: u64| {
        let unlike = |run: &Run| {
            run.refusal(call)
                .is_some_and(|told| told.row != told.column)
        };
        let such = |(of, told, run): &(Call, u64, Run)| {
            (*of, *told) == (call, number) && (number != 8 || unlike(run))
        };
        let found = refusals::all().into_iter().find(such).expect("one").2;
        Run { call, ..found }
    };
    let mut add = |run: &Run, change: &dyn Fn(&mut Told)| {
        let mut told = told(run);
        change(&mut told);
        wrong.push((run.clone(), told));
    };
    let flips = || (0..Report::NAMES.len()).flat_map(|word| [(word, 0), (word, 63)]);
    let refused = [8, 4, 1].map(|number| answering(Call::Accumulating, number));
    for run in bases.iter().chain(&refused) {
        for (word, bit) in flips() {
            add(run, &|told| told.first.flip(word, bit));
        }
    }
    add(&refused[0], &|told| {
        let report = &mut told.first.report;
        (report.row, report.column) = (report.column, report.row);
    });
    let flip = |told: &mut Told, at: usize, bit: usize| {
        let entry = entry(told, at).expect("an entry");
        *entry = f64::from_bits(entry.to_bits() ^ 1 << bit);
    };
    for run in &bases {
        let many = told(run).entries();
        for (at, bit) in (0..many).flat_map(|at| [(at, 0), (at, 63)]) {
            add(run, &|told| flip(told, at, bit));
        }
    }
    for at in [0, 4, 8] {
        for bit in 1..63 {
            add(&bases[0], &|told| flip(told, at, bit));
        }
    }
    add(&bases[0], &|told| told.first.u[0] = f64::NAN);
    let nan = |run: &Run| run.matrix.len() < 10 && told(run).first.u.iter().any(|x| x.is_nan());
    let with_nan = stored().into_iter().find(nan).expect("a run with a NaN");
    let with_nan = Run {
        call: Call::Accumulating,
        ..with_nan
    };
    add(&with_nan, &|told| {
        let found = told.first.u.iter_mut().find(|x| x.is_nan());
        *found.expect("a NaN") = 0.0;
    });

    let in_order = accepted(Call::Ordered, &given);
    let [bad, short, late] = [8, 11, 12].map(|number| answering(Call::Ordered, number));
    fn ordered(told: &mut Told) -> &mut Reply {
        told.ordered.as_mut().expect("the ordered call's")
    }
    for run in [&in_order, &bad, &short, &late] {
        for (word, bit) in flips() {
            add(run, &|told| ordered(told).flip(word, bit));
        }
    }
    for (at, bit) in (0..told(&in_order).entries()).flat_map(|at| [(at, 0), (at, 63)]) {
        add(&in_order, &|told| flip(told, at, bit));
    }
    add(&in_order, &|told| ordered(told).values[1] = f64::NAN);
    // After 12 matrix, U and V are held against those of the accumulating call.
    for at in [0, 4, 8] {
        add(&late, &|told| flip(told, at, 0));
    }

    for run in WORDS_WRONG {
        let (rows, cols, matrix, limit) = run;
        let settings = Settings {
            limit,
            ..Settings::DEFAULT
        };
        let run = Run::from(cases::case(rows, cols, matrix, settings));
        let own = told(&run).first.report.word;
        let words = [0, Report::SETTLED, Report::STOPPED, Report::QUIET];
        for word in words.into_iter().filter(|&word| word != own) {
            add(&run, &|told| told.first.report.word = word);
            add(&run, &|told| ordered(told).report.word = word);
        }
    }
}

/// Runs whose word is told wrong: rows, columns, table and limit. Two that end quiet, and two that miss it,
/// in the upper and in the lower form.
const WORDS_WRONG: [(usize, usize, &[f64], usize); 4] = [
    (2, 2, &[0.0; 4], 3),
    (2, 3, &[0.0, 0.0, 0.0, -0.0, 0.0, 0.0], 0),
    (3, 3, &[3.0, 0.0, 0.0, 0.0, 2.0, 1.0, 0.0, 0.0, 1.0], 0),
    (
        3,
        4,
        &[0.0, 0.0, 0.0, 0.0, -0.5, 0.0, 0.0, 0.0, 0.0, 0.0, 0.0, 0.0],
        0,
    ),
];

/// Runs with a number of rotations that a slip would tell: of the plain and the accumulating call, and of
/// the ordered one, where the values are in order and where it answers 13 and 12.
fn counts_wrong(wrong: &mut Vec<(Run, Told)>) {
    let zeros: rotations::Table = (3, 3, &[0.0; 9]);
    let tables = rotations::SHOWING.into_iter().chain(rotations::INFINITE);
    for (rows, cols, matrix) in tables.chain([zeros]) {
        let run = Run::from(cases::case(rows, cols, matrix, Settings::DEFAULT));
        let (kept, walked) = run.walked(Call::Accumulating);
        let turned = Turned::of(&run, &kept, walked).expect("a run");
        for (_, many) in rotations::slips(&turned) {
            let mut first = told(&run);
            let mut ordered = first.clone();
            first.first.report.rotations = many;
            let reply = ordered.ordered.as_mut().expect("the ordered call's");
            reply.report.rotations = many;
            wrong.extend([(run.clone(), first), (run.clone(), ordered)]);
        }
    }
}

/// Runs that are not those of their replies: one thing that is handed to the call is another, each once.
fn runs_wrong(wrong: &mut Vec<(Run, Told)>) {
    type Change = fn(&mut Run);
    fn lists(run: &mut Run) -> [&mut Vec<f64>; 3] {
        if matches!(run.start, Start::Identity) {
            let (u, v) = run.factors();
            run.start = Start::Given(u, v);
        }
        let Start::Given(u, v) = &mut run.start else {
            unreachable!()
        };
        [&mut run.matrix, u, v]
    }
    let kept: [Change; 16] = [
        |run| run.rows += 1,
        |run| run.cols += 1,
        |run| run.settings.limit = 0,
        |run| run.settings.credit += 100,
        |run| run.settings.tolerance = 0.25,
        |run| run.settings.absolute = 0.25,
        |run| run.settings.floor = 0.25,
        |run| lists(run)[0][0] += 1.0,
        |run| lists(run)[1][0] += 1.0,
        |run| lists(run)[2][0] += 1.0,
        |run| lists(run)[0].push(0.0),
        |run| lists(run)[1].push(0.0),
        |run| lists(run)[2].push(0.0),
        |run| _ = lists(run)[0].pop(),
        |run| _ = lists(run)[1].pop(),
        |run| _ = lists(run)[2].pop(),
    ];
    let listed: [Change; 2] = [|run| run.values.push(0.0), |run| _ = run.values.pop()];
    let kept = kept.map(|change| (Call::Accumulating, change));
    let listed = listed.map(|change| (Call::Ordered, change));
    let runs = stored();
    for (call, change) in kept.into_iter().chain(listed) {
        let changed = |right: &Run| {
            let mut run = Run {
                call,
                ..right.clone()
            };
            let mut told = told(&run);
            let accepted = |reply: &Reply| reply.report.number == 0;
            if !accepted(&told.first) || !told.ordered.iter().all(accepted) {
                return None;
            }
            change(&mut run);
            // What is told of a list is as long as the list.
            let lent = run.lent(call);
            for reply in [Some(&mut told.first), told.ordered.as_mut()]
                .into_iter()
                .flatten()
            {
                reply.matrix.resize(lent.matrix.len(), 0.0);
                reply.u.resize(lent.u.len(), 0.0);
                reply.v.resize(lent.v.len(), 0.0);
            }
            if let Some(reply) = &mut told.ordered {
                reply.values.resize(lent.values.len(), 0.0);
            }
            (differing(&run, &told) > 0).then_some((run, told))
        };
        let fit = |run: &&Run| run.call.keeps() && (2..10).contains(&run.matrix.len());
        wrong.push(runs.iter().filter(fit).find_map(changed).expect("a run"));
    }
}

/// The runs that are wrong on purpose, each a right one with one change.
pub fn wrong() -> Vec<(Run, Told)> {
    let mut wrong = Vec::new();
    replies_wrong(&mut wrong);
    counts_wrong(&mut wrong);
    runs_wrong(&mut wrong);
    wrong.extend(by_number::wrong());
    wrong
}

fn bytes(words: Vec<u64>) -> Vec<u8> {
    words.into_iter().flat_map(u64::to_le_bytes).collect()
}

/// Writes all that is stored: the runs, those that are wrong on purpose, and the last of these again, cut off.
pub fn write_stored(out: &mut impl Write) -> io::Result<()> {
    write(stored().into_iter(), out)?;
    let mut last = Vec::new();
    for (run, told) in wrong() {
        let differ = differing(&run, &told);
        assert!(differ > 0, "as it should be: {}", run.told());
        last = bytes(words(&run, &told, differ));
        out.write_all(&last)?;
    }
    last.pop();
    out.write_all(&last)
}

/// Writes the runs with their replies, one by one.
pub fn write(runs: impl Iterator<Item = Run>, out: &mut impl Write) -> io::Result<()> {
    for run in runs {
        out.write_all(&bytes(words(&run, &told(&run), 0)))?;
    }
    Ok(())
}

/// The line that the program prints of these runs, and so many that are wrong on purpose, where all is as it should be.
pub fn summary(runs: impl Iterator<Item = Run>, wrong: usize) -> String {
    let mut by_word = [0; 4];
    let (mut passes, mut in_order, mut by_profile) = (0, 0, 0);
    for run in runs {
        let Told { first, ordered } = told(&run);
        by_word[first.report.word as usize] += 1;
        passes += first.report.passes;
        by_profile += u64::from(run.profile.is_some());
        in_order += u64::from(ordered.is_some_and(|reply| reply.report.number == 0));
    }
    let [refused, settled, stopped, quiet] = by_word;
    let many: u64 = by_word.iter().sum();
    format!(
        "{many} runs: {refused} refused, {settled} settled, {stopped} stopped, {quiet} quiet, {passes} passes, \
         {in_order} in order, {by_profile} by profile, 0 differ; {wrong} wrong on purpose, {wrong} found\n"
    )
}

/// The same of all that is stored.
pub fn stored_summary() -> String {
    summary(stored().into_iter(), wrong().len() + 1)
}
