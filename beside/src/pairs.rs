//! Pairs of runs that differ in how U and V begin: pair `number` of a seed is always the same one. And
//! the law of such a pair: how a row of U or of V ends depends on the table, the settings and how this
//! row began, on no other row and not on the row's number.

use crate::Report;
use crate::cases::Draw;
use crate::kinds::{self, ENTRIES, Sizes, TABLES, entries};
use crate::order::{diagonal, places};
use crate::readings::nan;
use crate::run::{Call, Reply, Run, Start, alike, identity};
use crate::vectors::MOST_PASSES;

/// How the second run's start is made from the first one's.
#[derive(Clone, Copy, Debug, PartialEq, Eq)]
pub enum Way {
    /// One row is copied to any place; all other rows and the other factor are drawn anew.
    Copied,
    /// Two rows are exchanged, and all else is the same.
    Exchanged,
    /// Each row is any row of the first; the other factor is the same in half of the pairs, else drawn
    /// anew.
    Rearranged,
    /// One row is that of the identity in both, and all else is drawn; but in half of the pairs the
    /// first run begins with the identity itself.
    Identity,
    /// Rows of zeros of either sign and NaNs stand among drawn ones; one of them is copied to any place.
    Zeros,
}

/// The ways, by name.
pub const WAYS: [(Way, &str); 5] = [
    (Way::Copied, "a row copied"),
    (Way::Exchanged, "two rows exchanged"),
    (Way::Rearranged, "all rows rearranged"),
    (Way::Identity, "a row of the identity"),
    (Way::Zeros, "rows of zeros and NaNs"),
];

#[derive(Clone, Copy, Debug, PartialEq, Eq)]
pub enum Side {
    U,
    V,
}

pub const SIDES: [Side; 2] = [Side::U, Side::V];

/// Two runs with the same sizes, table and settings.
#[derive(Clone, Debug)]
pub struct Pair {
    pub way: Way,
    /// The factor that the way speaks of.
    pub side: Side,
    /// The kind of the table.
    pub table: usize,
    pub runs: [Run; 2],
    /// The rows of that factor which the way makes alike, each of the first run with one of the second.
    pub rows: Vec<(usize, usize)>,
}

/// A table with settings that all calls accept.
fn fit(seed: u64, number: u64, sizes: Sizes) -> (Run, usize) {
    let mut seeds = Draw(!seed);
    loop {
        let (run, table) = kinds::with_settings(seeds.bits(), number, sizes);
        if run.refusal(Call::Accumulating).is_none() {
            return (run, table);
        }
    }
}

/// A row of any kind.
fn row(draw: &mut Draw, size: usize) -> Vec<f64> {
    let kind = draw.below(ENTRIES);
    entries(draw, kind, size)
}

/// Each row of a kind of its own.
fn factor(draw: &mut Draw, size: usize) -> Vec<f64> {
    (0..size).flat_map(|_| row(draw, size)).collect()
}

fn zero(draw: &mut Draw) -> f64 {
    [0.0, -0.0][draw.below(2) as usize]
}

/// Zeros of either sign, in one row of three with NaNs among them.
fn zeros(draw: &mut Draw, size: usize) -> Vec<f64> {
    let pure = draw.below(3) != 0;
    let mut entry = |_| match pure || draw.below(3) != 0 {
        true => zero(draw),
        false => nan(draw),
    };
    (0..size).map(&mut entry).collect()
}

fn put(list: &mut [f64], size: usize, place: usize, row: &[f64]) {
    list[place * size..][..size].copy_from_slice(row);
}

fn row_of(list: &[f64], size: usize, place: usize) -> &[f64] {
    &list[place * size..][..size]
}

/// Pair `number` of the seed.
pub fn drawn(seed: u64, number: u64, sizes: Sizes) -> Pair {
    let (base, table) = fit(seed, number, sizes);
    let mut mixed = Draw(!seed ^ number.wrapping_mul(0xA076_1D64_78BD_642F));
    let draw = &mut Draw(mixed.bits());
    let lengths = [base.rows, base.cols];
    let mut way = WAYS[draw.below(WAYS.len() as u64) as usize].0;
    let mut side = SIDES[draw.below(2) as usize];
    if way == Way::Exchanged && lengths[side as usize] == 1 {
        // There are no two rows: those of the other factor, or one that is copied.
        side = SIDES[1 - side as usize];
        if lengths[side as usize] == 1 {
            way = Way::Copied;
        }
    }
    let (kept, size) = (side as usize, lengths[side as usize]);
    let any = |draw: &mut Draw| draw.below(size as u64) as usize;

    let mut one = lengths.map(|size| factor(draw, size));
    let mut other = match way {
        Way::Exchanged => one.clone(),
        _ => lengths.map(|size| factor(draw, size)),
    };
    let mut whole = false;
    let rows = match way {
        Way::Copied => vec![(any(draw), any(draw))],
        Way::Exchanged => {
            let from = any(draw);
            let to = (from + 1 + draw.below(size as u64 - 1) as usize) % size;
            let stays = |row: usize| row != from && row != to;
            let mut rows = vec![(from, to), (to, from)];
            rows.extend((0..size).filter(|&row| stays(row)).map(|row| (row, row)));
            rows
        }
        Way::Rearranged => {
            if draw.below(2) == 0 {
                other[1 - kept] = one[1 - kept].clone();
            }
            (0..size).map(|to| (any(draw), to)).collect()
        }
        Way::Identity => {
            let place = any(draw);
            whole = draw.below(2) == 0;
            if whole {
                one = lengths.map(identity);
            }
            let row = identity(size);
            put(&mut one[kept], size, place, row_of(&row, size, place));
            vec![(place, place)]
        }
        Way::Zeros => {
            let from = any(draw);
            for list in [&mut one[kept], &mut other[kept]] {
                for place in 0..size {
                    if place == from || draw.below(3) == 0 {
                        put(list, size, place, &zeros(draw, size));
                    }
                }
            }
            vec![(from, any(draw))]
        }
    };
    // In half of the pairs the NaNs of a copy have bits of their own.
    let fresh = draw.below(2) == 0;
    for &(from, to) in &rows {
        let mut row = row_of(&one[kept], size, from).to_vec();
        for entry in row.iter_mut().filter(|entry| fresh && entry.is_nan()) {
            *entry = nan(draw);
        }
        put(&mut other[kept], size, to, &row);
    }

    let mut run = |[u, v]: [Vec<f64>; 2], whole: bool| Run {
        call: Call::Ordered,
        start: match whole {
            true => Start::Identity,
            false => Start::Given(u, v),
        },
        // Whatever a list holds: the two need not be alike.
        values: (0..base.rows.min(base.cols))
            .map(|_| f64::from_bits(draw.bits()))
            .collect(),
        ..base.clone()
    };
    Pair {
        way,
        side,
        table,
        runs: [run(one, whole), run(other, false)],
        rows,
    }
}

/// Pairs whose runs are stored: up to 6 x 6 and of few passes, of each way, by U and by V, four. Of two
/// the ordered call puts the values in order, of one each it answers 12 and 13.
pub fn stored() -> Vec<Pair> {
    let mut open: Vec<(Way, Side, u64)> = Vec::new();
    for (way, _) in WAYS {
        for side in SIDES {
            open.extend([0, 0, 12, 13].map(|number| (way, side, number)));
        }
    }
    let mut found: Vec<Option<Pair>> = vec![None; open.len()];
    for number in 0.. {
        if found.iter().all(Option::is_some) {
            break;
        }
        let pair = drawn(0x9A16, number, Sizes::UpTo(6));
        let wanted = |at: &usize| {
            let (way, side, _) = open[*at];
            found[*at].is_none() && (way, side) == (pair.way, pair.side)
        };
        let places: Vec<usize> = (0..open.len()).filter(wanted).collect();
        let lengths = [pair.runs[0].rows, pair.runs[0].cols];
        if places.is_empty() || lengths[pair.side as usize] == 1 {
            continue;
        }
        let Report { number, passes, .. } = pair.runs[0].reply(Call::Ordered).report;
        let fits = |at: &usize| open[*at].2 == number;
        if let (true, Some(at)) = (passes <= MOST_PASSES, places.into_iter().find(fits)) {
            found[at] = Some(pair);
        }
    }
    found.into_iter().flatten().collect()
}

/// A row: of the first or the second run (0 or 1), of U or V, and its number.
#[derive(Clone, Copy, Debug, PartialEq, Eq)]
pub struct Place {
    pub run: usize,
    pub side: Side,
    pub row: usize,
}

impl Place {
    fn told(self) -> String {
        let run = ["first", "second"][self.run];
        format!("row {} of the {run} run's {:?}", self.row, self.side)
    }
}

/// How U and V of two runs begin, and which rows begin alike, found by looking at every two.
#[derive(Clone, Debug)]
pub struct Began {
    lengths: [usize; 2],
    /// By run and side.
    lists: [[Vec<f64>; 2]; 2],
    /// Any two rows that begin alike, all NaNs alike: one of each run, or two of the same.
    pub alike: Vec<[Place; 2]>,
    /// The rows of the first run and of the second that do not begin alike.
    pub unlike: Vec<[Place; 2]>,
    /// The rows that begin with zeros and NaNs alone.
    pub zeros: Vec<Place>,
    /// By side: whether the factor begins alike.
    pub same: [bool; 2],
}

/// Zeros of either sign and NaNs alone.
fn void(row: &[f64]) -> bool {
    row.iter().all(|&x| x == 0.0 || x.is_nan())
}

impl Began {
    pub fn of(runs: [&Run; 2]) -> Began {
        let lists: [[Vec<f64>; 2]; 2] = runs.map(|run| run.factors().into());
        let same = SIDES.map(|side| alike(&lists[0][side as usize], &lists[1][side as usize]));
        let mut began = Began {
            lengths: [runs[0].rows, runs[0].cols],
            lists,
            alike: Vec::new(),
            unlike: Vec::new(),
            zeros: Vec::new(),
            same,
        };
        for side in SIDES {
            let size = began.lengths[side as usize];
            let rows = |run: usize| (0..size).map(move |row| Place { run, side, row });
            let all: Vec<Place> = rows(0).chain(rows(1)).collect();
            for (at, &one) in all.iter().enumerate() {
                if void(began.row(one)) {
                    began.zeros.push(one);
                }
                for &other in &all[at + 1..] {
                    if alike(began.row(one), began.row(other)) {
                        began.alike.push([one, other]);
                    } else if one.run != other.run {
                        began.unlike.push([one, other]);
                    }
                }
            }
        }
        began
    }

    /// The row as it begins.
    pub fn row(&self, place: Place) -> &[f64] {
        let list = &self.lists[place.run][place.side as usize];
        row_of(list, self.lengths[place.side as usize], place.row)
    }

    /// The row as the replies have it.
    pub fn ended<'a>(&self, replies: &[&'a Reply; 2], place: Place) -> &'a [f64] {
        let list = side_of(replies[place.run], place.side);
        row_of(list, self.lengths[place.side as usize], place.row)
    }
}

fn side_of(reply: &Reply, side: Side) -> &[f64] {
    match side {
        Side::U => &reply.u,
        Side::V => &reply.v,
    }
}

impl Pair {
    pub fn began(&self) -> Began {
        Began::of([&self.runs[0], &self.runs[1]])
    }

    /// What in the two replies to one call breaks the law, if anything.
    pub fn broken(&self, began: &Began, replies: [&Reply; 2]) -> Option<String> {
        let [one, other] = replies;
        let mut words = one.report.words().into_iter().zip(other.report.words());
        if let Some(at) = words.position(|(one, other)| one != other) {
            return Some(format!("the report's {}", Report::NAMES[at]));
        }
        if one.report.word == 0 {
            return Some("refused".into());
        }
        if !alike(&one.matrix, &other.matrix) {
            return Some("the matrix".into());
        }
        if one.report.number == 0 && !alike(&one.values, &other.values) {
            return Some("the list of values".into());
        }
        if self.way == Way::Exchanged {
            let size = began.lengths[self.side as usize];
            let (list, (from, to)) = (side_of(one, self.side), self.rows[0]);
            let mut exchanged = list.to_vec();
            put(&mut exchanged, size, from, row_of(list, size, to));
            put(&mut exchanged, size, to, row_of(list, size, from));
            if !alike(&exchanged, side_of(other, self.side)) {
                return Some(format!("the exchange in {:?}", self.side));
            }
        }
        for side in SIDES.into_iter().filter(|&side| began.same[side as usize]) {
            if !alike(side_of(one, side), side_of(other, side)) {
                return Some(format!("{side:?}, which began alike"));
            }
        }
        let ended = |place: Place| began.ended(&replies, place);
        let differs = |two: &&[Place; 2]| !alike(ended(two[0]), ended(two[1]));
        if let Some([one, other]) = began.alike.iter().find(differs) {
            let rows = format!("{} and {}", one.told(), other.told());
            return Some(format!("{rows}, which began alike"));
        }
        let filled = |place: &&Place| !void(ended(**place));
        began.zeros.iter().find(filled).map(|place| {
            let row = place.told();
            format!("{row}, which began with zeros and NaNs alone")
        })
    }

    /// The pair in words.
    pub fn told(&self) -> String {
        let way = WAYS[self.way as usize].1;
        let rows: Vec<String> = self
            .rows
            .iter()
            .map(|(from, to)| format!("{from} as {to}"))
            .collect();
        format!(
            "{way}, by {:?}, {}; rows of the first run in the second: {}\nthe first run:\n{}the second run:\n{}",
            self.side,
            TABLES[self.table],
            rows.join(", "),
            self.runs[0].told(),
            self.runs[1].told()
        )
    }
}

/// A pair with the replies that it got.
pub struct Seen<'a> {
    pub pair: &'a Pair,
    pub began: &'a Began,
    pub kept: [&'a Reply; 2],
    pub ordered: [&'a Reply; 2],
}

impl Seen<'_> {
    /// How many of the two rows that began alike are so.
    fn twos(&self, test: impl Fn(&[Place; 2]) -> bool) -> u64 {
        self.began.alike.iter().filter(|two| test(two)).count() as u64
    }

    fn begins(&self, two: &[Place; 2], test: fn(f64) -> bool) -> bool {
        self.began.row(two[0]).iter().any(|&x| test(x))
    }

    fn way(&self, way: Way) -> u64 {
        u64::from(self.pair.way == way)
    }

    fn side(&self, side: Side) -> u64 {
        u64::from(self.pair.side == side)
    }

    fn number(&self, number: u64) -> bool {
        self.ordered[0].report.number == number
    }

    /// Of the ordered call, where it puts the values in order.
    fn in_order(&self, test: impl Fn(&[f64]) -> bool) -> u64 {
        let Run { rows, cols, .. } = self.pair.runs[0];
        let values = diagonal(rows, cols, &self.kept[0].matrix);
        u64::from(self.number(0) && test(&values))
    }

    /// How many rows that began with zeros and NaNs alone are so, as they begin and as they end.
    fn zeros(&self, test: impl Fn(&[f64], &[f64]) -> bool) -> u64 {
        let test = |place: &&Place| {
            let ended = self.began.ended(&self.kept, **place);
            test(self.began.row(**place), ended)
        };
        self.began.zeros.iter().filter(test).count() as u64
    }
}

fn between(two: &[Place; 2]) -> bool {
    two[0].run != two[1].run
}

fn minus_zero(x: f64) -> bool {
    x == 0.0 && x.is_sign_negative()
}

/// How many are met in a pair.
type Count = fn(&Seen) -> u64;

/// What is counted of a pair. Rows that end are those of the accumulating call.
pub const COUNTS: [(&str, Count); 29] = [
    ("pairs", |_| 1),
    ("  a row copied", |seen| seen.way(Way::Copied)),
    ("  two rows exchanged", |seen| seen.way(Way::Exchanged)),
    ("  all rows rearranged", |seen| seen.way(Way::Rearranged)),
    ("  a row of the identity", |seen| seen.way(Way::Identity)),
    ("  rows of zeros and NaNs", |seen| seen.way(Way::Zeros)),
    ("  by U", |seen| seen.side(Side::U)),
    ("  by V", |seen| seen.side(Side::V)),
    ("  settled", |seen| {
        u64::from(seen.kept[0].report.word == Report::SETTLED)
    }),
    ("  stopped", |seen| {
        u64::from(seen.kept[0].report.word == Report::STOPPED)
    }),
    ("  quiet", |seen| {
        u64::from(seen.kept[0].report.word == Report::QUIET)
    }),
    ("ordered call: values in order", |seen| {
        seen.in_order(|_| true)
    }),
    ("  columns moved", |seen| {
        seen.in_order(|values| !places(values).is_sorted())
    }),
    ("  columns negated", |seen| {
        seen.in_order(|values| values.iter().any(|x| x.is_sign_negative()))
    }),
    ("ordered call: 12", |seen| u64::from(seen.number(12))),
    ("ordered call: 13", |seen| u64::from(seen.number(13))),
    ("factors that began alike", |seen| {
        seen.began.same.iter().filter(|same| **same).count() as u64
    }),
    ("two rows that began alike", |seen| seen.twos(|_| true)),
    ("  one of each run", |seen| seen.twos(between)),
    ("  one of each run, of unlike number", |seen| {
        seen.twos(|two| between(two) && two[0].row != two[1].row)
    }),
    ("  two of one run", |seen| seen.twos(|two| !between(two))),
    ("  with a NaN at the start", |seen| {
        seen.twos(|two| seen.begins(two, f64::is_nan))
    }),
    ("  with NaNs of unlike bits at the start", |seen| {
        seen.twos(|two| {
            let [one, other] = two.map(|place| seen.began.row(place));
            one.iter()
                .zip(other)
                .any(|(x, y)| x.to_bits() != y.to_bits())
        })
    }),
    ("  with an infinity at the start", |seen| {
        seen.twos(|two| seen.begins(two, f64::is_infinite))
    }),
    ("  that ended otherwise than they began", |seen| {
        seen.twos(|two| !alike(seen.began.row(two[0]), seen.began.ended(&seen.kept, two[0])))
    }),
    ("rows that began unlike and ended unlike", |seen| {
        let ended = |place: Place| seen.began.ended(&seen.kept, place);
        let differs = |two: &&[Place; 2]| !alike(ended(two[0]), ended(two[1]));
        seen.began.unlike.iter().filter(differs).count() as u64
    }),
    ("rows that began with zeros and NaNs alone", |seen| {
        seen.zeros(|_, _| true)
    }),
    ("  without a NaN, and ended with one", |seen| {
        let nan = |row: &[f64]| row.iter().any(|x| x.is_nan());
        seen.zeros(|began, ended| !nan(began) && nan(ended))
    }),
    ("  and ended with a -0", |seen| {
        seen.zeros(|_, ended| ended.iter().any(|&x| minus_zero(x)))
    }),
];

/// All that is counted of a pair.
pub fn counted(seen: &Seen) -> [u64; COUNTS.len()] {
    COUNTS.map(|(_, count)| count(seen))
}
