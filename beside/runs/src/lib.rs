//! The proved library, called as an app calls it, and how its reply is held against the reply that
//! the call must get.

use beside::order::{diagonal, places};
use beside::profiles::profile;
use beside::quiet::{self, Corner};
use beside::rotations::Turned;
use beside::run::{Call, Reply, Run, alike, untouched, unwritten};
use beside::{Report, Settings, Walked};
use merotunki::raw;

pub mod lots;
pub mod pairs;

fn choice(s: &Settings) -> raw::Choice {
    raw::Choice {
        limit: s.limit as u64,
        credit: s.credit as u64,
        tolerance: s.tolerance,
        absolute: s.absolute,
        floor: s.floor,
    }
}

/// What the library replies.
pub fn library(run: &Run, call: Call) -> Reply {
    let choice = choice(&run.settings);
    let Reply {
        mut matrix,
        mut u,
        mut v,
        mut values,
        ..
    } = run.lent(call);
    let (rows, cols) = (run.rows, run.cols);
    let (b, factors, list) = (&mut matrix[..], (&mut u[..], &mut v[..]), &mut values[..]);
    let answer = match (call, run.profile) {
        (Call::Plain, None) => raw::svd(b, rows, cols, choice),
        (Call::Accumulating, None) => raw::full_svd(b, factors, rows, cols, choice),
        (Call::Ordered, None) => raw::ordered_svd(b, factors, list, rows, cols, choice),
        (Call::Plain, Some(number)) => raw::profile_svd(b, rows, cols, number),
        (Call::Accumulating, Some(number)) => raw::profile_full_svd(b, factors, rows, cols, number),
        (Call::Ordered, Some(number)) => {
            raw::profile_ordered_svd(b, factors, list, rows, cols, number)
        }
    };
    Reply {
        report: answer.words().into(),
        matrix,
        u,
        v,
        values,
    }
}

/// What differs between the reply and the one that must be, if anything: the first word of the report
/// by its name, or a list.
pub fn differs(got: &Reply, must: &Reply) -> Option<String> {
    let mut words = got.report.words().into_iter().zip(must.report.words());
    if let Some(at) = words.position(|(got, must)| got != must) {
        return Some(format!("the report's {}", Report::NAMES[at]));
    }
    // A call that is refused before its run writes nothing, and one that is refused after it no values.
    let (made, taken) = (must.report.word != 0, must.report.number == 0);
    let lists = [
        ("matrix", &got.matrix, &must.matrix, made),
        ("U", &got.u, &must.u, made),
        ("V", &got.v, &must.v, made),
        ("list of values", &got.values, &must.values, taken),
    ];
    let fit = |got: &[f64], must: &[f64], written: bool| {
        if written {
            alike(got, must)
        } else {
            untouched(got, must)
        }
    };
    lists
        .into_iter()
        .find(|&(_, got, must, written)| !fit(got, must, written))
        .map(|(name, ..)| name.to_string())
}

/// The law of a call by a profile's number: it is the call with the profile's settings, every bit of the
/// reply, NaNs too. None where there is no such profile.
fn as_settings(run: &Run, call: Call, got: &Reply) -> Option<bool> {
    run.profile?;
    let with = Run {
        settings: run.chosen()?,
        profile: None,
        ..run.clone()
    };
    let reply = library(&with, call);
    let lists = |reply: &Reply| {
        let lists = [&reply.matrix, &reply.u, &reply.v, &reply.values];
        lists.map(|list| list.iter().map(|x| x.to_bits()).collect::<Vec<u64>>())
    };
    Some(reply.report == got.report && lists(&reply) == lists(got))
}

/// Whether the library's own table says of this number what the table of profiles does: the settings with
/// number 0, or 10 and zeros.
pub fn table_agrees(number: usize) -> bool {
    let got = raw::profile(number);
    let counts = [got.number, got.limit, got.credit];
    let bits = [got.tolerance, got.absolute, got.floor].map(f64::to_bits);
    match profile(number) {
        None => (counts, bits) == ([10, 0, 0], [0; 3]),
        Some((_, settings)) => {
            let s = choice(&settings);
            let must = [s.tolerance, s.absolute, s.floor].map(f64::to_bits);
            (counts, bits) == ([0, s.limit, s.credit], must)
        }
    }
}

/// The laws of an accepted reply, on the library's own replies: the counts, the rotations by the ranges at
/// the original's sweeps, the word by its own table, the bound, credit 0, and the same answer at a greater
/// limit once it is settled.
fn breaks(
    run: &Run,
    call: Call,
    got: &Reply,
    walked: Walked,
    greater: Option<usize>,
) -> Option<&'static str> {
    let Report {
        word,
        passes,
        sweeps,
        drops,
        range,
        ..
    } = got.report;
    let card = run.rows.min(run.cols) as u64;
    let Some(settings) = run.chosen() else {
        return Some("accepted, and there is no such profile");
    };
    let (limit, credit) = (settings.limit as u64, settings.credit as u64);
    if passes != sweeps + drops || drops + range != card || range == 0 {
        return Some("law of the counts");
    }
    if Turned::of(run, got, walked).is_some_and(|turned| !turned.right()) {
        return Some("law of the rotations");
    }
    let told = quiet::word(run.rows, run.cols, &got.matrix, range as usize);
    if word != told || (card == 1 && passes != 0) {
        return Some("law of the word");
    }
    if card > 1 && passes > limit + credit * (card - 2) {
        return Some("law of the bound");
    }
    if credit == 0 && range > 1 && passes != limit {
        return Some("law of credit 0");
    }
    let limit = greater.filter(|_| word == Report::SETTLED)?;
    let again = Run {
        settings: Settings { limit, ..settings },
        profile: None,
        ..run.clone()
    };
    let later = library(&again, call);
    differs(&later, got).map(|_| "law of greater limits")
}

fn reached(run: &Run, got: &Reply) -> bool {
    let Report { passes, drops, .. } = got.report;
    let card = run.rows.min(run.cols) as u64;
    let Some(settings) = run.chosen() else {
        return false;
    };
    let (limit, credit) = (settings.limit as u64, settings.credit as u64);
    card > 2 && credit > 0 && drops > 0 && passes == limit + credit * (card - 2)
}

/// What was seen in one run.
#[derive(Clone, Debug, Default)]
pub struct Seen {
    /// The accumulating call's report, or the plain one's where that alone was made.
    pub report: Report,
    pub calls: u64,
    pub greater: bool,
    /// Something was dropped, and the passes are as many as the bound allows.
    pub reached: bool,
    /// A NaN or an infinity in the table afterwards.
    pub nan: bool,
    pub infinite: bool,
    /// The corner that is still live, where it was accepted and has not settled.
    pub corner: Option<Corner>,
    /// The rotations, where it was accepted.
    pub turned: Option<Turned>,
    /// Of the ordered call, where it was made.
    pub order: Option<Order>,
    /// Of a run by a profile's number.
    pub asked: Option<Asked>,
}

/// What was seen of a run by a profile's number.
#[derive(Clone, Debug)]
pub struct Asked {
    profile: usize,
    /// There is no such profile.
    none: bool,
    /// The number of the call that is lent the most, where it is refused before the run, else 0.
    number: u64,
    /// Readings are bad.
    bad: bool,
}

impl Asked {
    /// None where the run is made with settings.
    fn of(run: &Run) -> Option<Asked> {
        let number = run.profile?;
        Some(Asked {
            profile: number,
            none: profile(number).is_none(),
            number: run.refusal(run.call).map_or(0, |report| report.number),
            bad: run.matrix.iter().any(|x| !x.is_finite()),
        })
    }
}

/// What runs by a profile's number can be, and which of them are so.
pub const ASKED: [(&str, fn(&Asked) -> bool); 14] = [
    ("profile 1, vane", |asked| asked.profile == 1),
    ("profile 2, hot wire", |asked| asked.profile == 2),
    ("profile 3, ultrasonic", |asked| asked.profile == 3),
    ("profile 4, smoke tube", |asked| asked.profile == 4),
    ("accepted", |asked| asked.number == 0),
    (
        "refused 1 to 5 or 11, of a profile that there is",
        |asked| !asked.none && ![0, 8].contains(&asked.number),
    ),
    ("refused 8", |asked| asked.number == 8),
    ("refused 10", |asked| asked.number == 10),
    ("refused 10, profile 0", |asked| {
        asked.number == 10 && asked.profile == 0
    }),
    ("refused 10, profile 5", |asked| {
        asked.number == 10 && asked.profile == 5
    }),
    ("refused 10, 1 to 4 in the lower 32 bits", |asked| {
        asked.number == 10 && (1..=4).contains(&(asked.profile as u32))
    }),
    ("refused 10, with 8 as well", |asked| {
        asked.number == 10 && asked.bad
    }),
    ("refused 1 to 5, with 10 as well", |asked| {
        asked.none && asked.number <= 5
    }),
    ("refused 11, with 10 as well", |asked| {
        asked.none && asked.number == 11
    }),
];

/// What was seen of the ordered call: its number, and of the diagonal after the run what the order
/// depends on.
#[derive(Clone, Debug)]
pub struct Order {
    number: u64,
    /// The run's word.
    word: u64,
    /// The run made rotations.
    turned: bool,
    /// A number besides 11 applies, and 11 applies.
    two: bool,
    /// There is more than one value.
    several: bool,
    /// The new order is another than the old one.
    moved: bool,
    /// Two values have the same magnitude, and it is not 0.
    equal: bool,
    /// Two values are 0, of whichever sign.
    zeros: bool,
    /// A value is below zero.
    negative: bool,
    minus_zero: bool,
}

/// The one of the meetings that a few thousand runs need not have.
pub const RARE: &str = "refused 13, with rotations";

/// What ordered calls can meet, and which of them do.
pub const MEETINGS: [(&str, fn(&Order) -> bool); 17] = [
    ("values in order", |order| order.number == 0),
    ("in order, more than one value", |order| {
        order.number == 0 && order.several
    }),
    ("in order, columns moved", |order| {
        order.number == 0 && order.moved
    }),
    ("in order, equal magnitudes other than 0", |order| {
        order.number == 0 && order.equal
    }),
    ("in order, more than one 0 or -0", |order| {
        order.number == 0 && order.zeros
    }),
    ("in order, a value below zero", |order| {
        order.number == 0 && order.negative
    }),
    ("in order, a value of -0", |order| {
        order.number == 0 && order.minus_zero
    }),
    ("refused 11", |order| order.number == 11),
    ("refused 11, with 6, 7, 8 or 10 as well", |order| {
        order.number == 11 && order.two
    }),
    ("refused 1 to 5, with 11 as well", |order| {
        order.number <= 5 && order.two
    }),
    ("refused 12", |order| order.number == 12),
    ("refused 12, stopped", |order| {
        order.number == 12 && order.word == Report::STOPPED
    }),
    ("refused 12, quiet", |order| {
        order.number == 12 && order.word == Report::QUIET
    }),
    ("refused 12, with rotations", |order| {
        order.number == 12 && order.turned
    }),
    ("refused 13", |order| order.number == 13),
    ("refused 13, more than one value", |order| {
        order.number == 13 && order.several
    }),
    (RARE, |order| order.number == 13 && order.turned),
];

impl Order {
    /// From the reply of the accumulating call and the ordered call's number.
    fn of(run: &Run, kept: &Reply, number: u64) -> Order {
        let values = match kept.report.number {
            0 => diagonal(run.rows, run.cols, &kept.matrix),
            _ => Vec::new(),
        };
        let sorted: Vec<f64> = places(&values)
            .into_iter()
            .map(|at| values[at].abs())
            .collect();
        let pairs = || sorted.windows(2).filter(|two| two[0] == two[1]);
        let unfit = run.refusal(Call::Accumulating).is_some();
        let listed = run.values.len() == run.rows.min(run.cols);
        Order {
            number,
            word: kept.report.word,
            turned: kept.report.rotations > 0,
            two: unfit && !listed,
            several: values.len() > 1,
            moved: !places(&values).is_sorted(),
            equal: pairs().any(|two| two[0] != 0.0),
            zeros: pairs().any(|two| two[0] == 0.0),
            negative: values.iter().any(|&value| value < 0.0),
            minus_zero: values
                .iter()
                .any(|&value| value == 0.0 && value.is_sign_negative()),
        }
    }
}

/// Whether the reply of another call has the accumulating call's report and matrix. Each of the other
/// calls has numbers of its own: 4 and 5 are none of the plain one's; before the run 11 is the ordered
/// one's alone, and after it 12 and 13 are, in place of 0.
fn agrees(kept: &Reply, other: &Reply, call: Call) -> bool {
    let mut report = other.report;
    if [12, 13].contains(&report.number) {
        report.number = 0;
    }
    !call.has(kept.report.number)
        || !Call::Accumulating.has(report.number)
        || (report == kept.report && alike(&other.matrix, &kept.matrix))
}

/// Makes the calls of the run and holds them against the original and the laws. The error names the
/// call and what is wrong.
pub fn check(run: &Run, greater: Option<usize>) -> Result<Seen, String> {
    let chosen = run.chosen();
    let greater = greater.filter(|&limit| chosen.is_some_and(|chosen| limit > chosen.limit));
    let mut seen = Seen {
        asked: Asked::of(run),
        ..Seen::default()
    };
    // The accumulating call's reply, by the library and by the original, whose walk is recorded.
    let mut before: Option<(Reply, Reply, Walked)> = None;
    let calls = [Call::Accumulating, Call::Ordered, Call::Plain];
    for call in calls.into_iter().filter(|&call| call <= run.call) {
        let name = call.name();
        let got = library(run, call);
        let (must, walked) = match &before {
            Some((_, kept, walked)) if call == Call::Ordered => (run.ordered(kept), *walked),
            _ => run.walked(call),
        };
        seen.calls += 1;
        if let Some(what) = differs(&got, &must) {
            return Err(format!(
                "{name} call: {what} differs\n  original {:?}\n  library  {:?}\n",
                must.report, got.report
            ));
        }
        if as_settings(run, call, &got) == Some(false) {
            return Err(format!("{name} call: law of profile as settings\n"));
        }
        if got.report.number == 0 {
            if let Some(law) = breaks(run, call, &got, walked, greater) {
                return Err(format!("{name} call: {law}, {:?}\n", got.report));
            }
            seen.greater |= greater.is_some() && got.report.word == Report::SETTLED;
            seen.reached |= reached(run, &got);
        }
        if let Some((kept, ..)) = &before {
            if !agrees(kept, &got, call) {
                return Err(format!(
                    "law of the calls: {name} and accumulating differ\n"
                ));
            }
            if call == Call::Ordered {
                seen.order = Some(Order::of(run, kept, got.report.number));
            }
        } else {
            seen.report = got.report;
            seen.nan = got.matrix.iter().any(|value| value.is_nan());
            seen.infinite = got.matrix.iter().any(|value| value.is_infinite());
            seen.corner = Corner::of(run, &got);
            seen.turned = Turned::of(run, &got, walked);
            before = Some((got, must, walked));
        }
    }
    if let Some(number) = run.profile.filter(|&number| !table_agrees(number)) {
        let told = raw::profile(number);
        return Err(format!("table of profiles: {number} differs, {told:?}\n"));
    }
    Ok(seen)
}

/// The smallest run still wrong that is found from this one: rows and columns left out, the profile's
/// settings in its place, settings brought to the defaults, entries made simple.
pub fn shrunk(run: &Run, greater: Option<usize>) -> Run {
    let wrong = |run: &Run| check(run, greater).is_err();
    let mut least = run.clone();
    loop {
        let Some(next) = simpler(&least).into_iter().find(wrong) else {
            return least;
        };
        least = next;
    }
}

/// The run without row i, or without column i.
fn without(run: &Run, i: usize, row: bool) -> Run {
    let cut = |list: &[f64], cols: usize, row: Option<usize>, col: Option<usize>| -> Vec<f64> {
        let kept = |at: &usize| Some(at / cols) != row && Some(at % cols) != col;
        let places = (0..list.len()).filter(kept);
        places.map(|at| list[at]).collect()
    };
    let mut less = run.clone();
    let (rows, cols) = (run.rows, run.cols);
    less.matrix = if row {
        cut(&run.matrix, cols, Some(i), None)
    } else {
        cut(&run.matrix, cols, None, Some(i))
    };
    if let beside::run::Start::Given(u, v) = &mut less.start {
        if row {
            *u = cut(u, rows, Some(i), Some(i));
        } else {
            *v = cut(v, cols, Some(i), Some(i));
        }
    }
    if row {
        less.rows -= 1;
    } else {
        less.cols -= 1;
    }
    if run.values.len() == rows.min(cols) {
        less.values.truncate(less.rows.min(less.cols));
    }
    less
}

/// Runs that are simpler by one step.
fn simpler(run: &Run) -> Vec<Run> {
    use beside::run::Start;
    let mut list = Vec::new();
    let mut with = |change: &dyn Fn(&mut Run)| {
        let mut next = run.clone();
        change(&mut next);
        list.push(next);
    };
    let sized = (1..=48).contains(&run.rows) && (1..=48).contains(&run.cols);
    let whole = sized && run.matrix.len() == run.rows * run.cols;
    let (default, s) = (beside::Settings::DEFAULT, run.settings);
    for call in [Call::Plain, Call::Accumulating] {
        if call < run.call {
            with(&|run| run.call = call);
        }
    }
    let blank = unwritten(run.rows.min(run.cols).min(48));
    if !untouched(&run.values, &blank) {
        with(&|run| run.values = blank.clone());
    }
    if sized && matches!(run.start, Start::Given(..)) {
        with(&|run| run.start = Start::Identity);
    }
    if let Some(number) = run.profile {
        let settings = run.chosen().unwrap_or(default);
        with(&|run| (run.settings, run.profile) = (settings, None));
        for less in [0, 1, 5].into_iter().filter(|&less| less < number) {
            with(&|run| run.profile = Some(less));
        }
    } else {
        if s.tolerance.to_bits() != default.tolerance.to_bits() {
            with(&|run| run.settings.tolerance = default.tolerance);
        }
        if s.absolute.to_bits() != default.absolute.to_bits() {
            with(&|run| run.settings.absolute = default.absolute);
        }
        if s.floor.to_bits() != default.floor.to_bits() {
            with(&|run| run.settings.floor = default.floor);
        }
        if s.credit != default.credit {
            with(&|run| run.settings.credit = default.credit);
        }
        for limit in [0, s.limit / 2, s.limit.saturating_sub(1)] {
            if limit < s.limit {
                with(&|run| run.settings.limit = limit);
            }
        }
    }
    for at in 0..run.matrix.len() {
        let value = run.matrix[at];
        for simple in [0.0, 1.0, value.round()] {
            if value.to_bits() != simple.to_bits()
                && (value != 1.0 || simple == 0.0)
                && value != 0.0
            {
                with(&|run| run.matrix[at] = simple);
            }
        }
    }
    if whole {
        // All at once: nothing off the diagonal, and every entry of one value made 1.
        let off = |at: usize| at / run.cols != at % run.cols;
        let entry = |(at, &value): (usize, &f64)| if off(at) { 0.0 } else { value };
        let alone: Vec<f64> = run.matrix.iter().enumerate().map(entry).collect();
        if !untouched(&run.matrix, &alone) {
            with(&|run| run.matrix = alone.clone());
        }
        for one in run
            .matrix
            .iter()
            .filter(|&&value| value.abs() > 0.0 && value != 1.0)
        {
            let entry = |value: &f64| {
                if untouched(&[*value], &[*one]) {
                    1.0
                } else {
                    *value
                }
            };
            with(&|run| run.matrix = run.matrix.iter().map(entry).collect());
        }
    }
    let mut smaller = Vec::new();
    if whole {
        smaller.extend(
            (0..run.rows)
                .filter(|_| run.rows > 1)
                .map(|i| without(run, i, true)),
        );
        smaller.extend(
            (0..run.cols)
                .filter(|_| run.cols > 1)
                .map(|j| without(run, j, false)),
        );
    }
    smaller.extend(list);
    smaller
}
