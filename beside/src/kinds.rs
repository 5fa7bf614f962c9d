//! Runs of every kind, drawn: run `number` of a seed is always the same one. The kinds of readings,
//! of settings, of what U, V and the list of values hold and of unfit input are drawn apart from each
//! other, so that all of them meet.

use crate::cases::Draw;
use crate::run::{Call, Run, Start};
use crate::{Settings, readings};

/// The kinds of tables, by name.
pub const TABLES: [&str; 18] = [
    "ordinary",
    "anemometer readings",
    "small whole numbers",
    "rank deficient",
    "near rank 1",
    "repeated rows and columns",
    "zero rows and columns",
    "signed zeros",
    "subnormal",
    "near the floor",
    "near overflow",
    "mixed exponents",
    "any finite bits",
    "all equal",
    "two diagonals",
    "graded",
    "equal values",
    "no coupling or one",
];

/// Tables that settle with equal values, among them zeros of either sign, or with values that are not
/// finite.
const EQUAL_VALUES: usize = 16;

/// Tables whose runs end quiet where the limit runs out, or miss it by one coupling.
const FEW_COUPLINGS: usize = 17;

/// How large the drawn tables are.
#[derive(Clone, Copy, PartialEq, Eq)]
pub enum Sizes {
    /// All shapes up to 48 x 48, the small ones more often.
    All,
    /// Rows and columns up to this.
    UpTo(usize),
}

fn of<T: Copy>(draw: &mut Draw, values: &[T]) -> T {
    values[draw.below(values.len() as u64) as usize]
}

/// From 0 up to, but without, 1.
fn part(draw: &mut Draw) -> f64 {
    (draw.bits() >> 11) as f64 / (1u64 << 53) as f64
}

/// From -1 to 1.
fn even(draw: &mut Draw) -> f64 {
    2.0 * part(draw) - 1.0
}

fn whole(draw: &mut Draw, bound: u64) -> f64 {
    draw.below(2 * bound + 1) as f64 - bound as f64
}

/// Any finite bits.
fn finite(draw: &mut Draw) -> f64 {
    loop {
        let value = f64::from_bits(draw.bits());
        if value.is_finite() {
            return value;
        }
    }
}

/// Any sign and fraction with a power of two from `low` to `high`, both within the normal range.
fn scaled(draw: &mut Draw, low: i64, high: i64) -> f64 {
    let power = low + draw.below((high - low + 1) as u64) as i64 + 1023;
    f64::from_bits(draw.bits() & 0x800F_FFFF_FFFF_FFFF | (power as u64) << 52)
}

fn size(draw: &mut Draw, sizes: Sizes) -> usize {
    let most = match sizes {
        Sizes::UpTo(most) => most,
        Sizes::All => match draw.below(100) {
            0..60 => 6,
            60..90 => 12,
            90..98 => 24,
            _ => 48,
        },
    };
    1 + draw.below(most as u64) as usize
}

fn shape(draw: &mut Draw, sizes: Sizes) -> (usize, usize) {
    if sizes == Sizes::All && draw.below(50) == 0 {
        // Every shape alike.
        return (1 + draw.below(48) as usize, 1 + draw.below(48) as usize);
    }
    (size(draw, sizes), size(draw, sizes))
}

fn settings(draw: &mut Draw, small: bool) -> Settings {
    match draw.below(8) {
        0..3 => return Settings::DEFAULT,
        3 => return Settings::LOW_FLOOR,
        _ => {}
    }
    let limit = match draw.below(40) {
        0..4 => 0,
        4..24 => draw.below(12) as usize,
        24..36 => draw.below(200) as usize,
        36..39 => of(draw, &[100, 101, 1_000]),
        // A walk that never settles makes all its passes: these only where a pass is short.
        _ if small => of(draw, &[10_000, 99_999, 100_000]),
        _ => 300,
    };
    let credit = match draw.below(6) {
        0 | 1 => 0,
        2 => 50,
        3 => draw.below(6) as usize,
        4 => draw.below(60) as usize,
        _ if small => of(draw, &[999, 1_000]),
        _ => 3,
    };
    let tiny = f64::from_bits(1);
    let bounds = [
        0.0,
        -0.0,
        tiny,
        f64::MIN_POSITIVE,
        1e-300,
        1e-16,
        1e-12,
        1e-10,
        1e-3,
        0.125,
        0.5,
        1.0,
        1e10,
        1e300,
        f64::MAX,
    ];
    let floors = [
        tiny,
        f64::MIN_POSITIVE,
        1e-300,
        1e-21,
        1e-21,
        1e-18,
        1e-9,
        0.5,
        1.0,
        3.0,
        1e10,
        1e300,
        f64::MAX,
    ];
    Settings {
        limit,
        credit,
        tolerance: of(draw, &bounds),
        absolute: of(draw, &bounds),
        floor: of(draw, &floors),
    }
}

/// A table of the kind.
pub(crate) fn table(
    draw: &mut Draw,
    kind: usize,
    rows: usize,
    cols: usize,
    floor: f64,
) -> Vec<f64> {
    let many = rows * cols;
    let fill = |draw: &mut Draw, entry: &mut dyn FnMut(&mut Draw) -> f64| -> Vec<f64> {
        (0..many).map(|_| entry(draw)).collect()
    };
    match kind {
        0 => {
            let scale = of(draw, &[1.0, 1.0, 10.0, 1e-3, 1e6]);
            fill(draw, &mut |draw| scale * even(draw))
        }
        1 => {
            // A profile times a drift, in steps of 0.01.
            let profile: Vec<f64> = (0..rows).map(|_| 0.3 + 3.7 * part(draw)).collect();
            let drift: Vec<f64> = (0..cols).map(|_| 1.0 + 0.05 * even(draw)).collect();
            let mut table = vec![0.0; many];
            for at in 0..many {
                let reading = profile[at / cols] * drift[at % cols] * (1.0 + 0.03 * even(draw));
                table[at] = (reading * 100.0).round() / 100.0;
            }
            table
        }
        2 => {
            let bound = of(draw, &[1, 2, 3, 9]);
            fill(draw, &mut |draw| whole(draw, bound))
        }
        3 => {
            let rank = 1 + draw.below(3) as usize;
            let left: Vec<f64> = (0..rows * rank).map(|_| whole(draw, 3)).collect();
            let right: Vec<f64> = (0..cols * rank).map(|_| whole(draw, 3)).collect();
            let entry = |at: usize| -> f64 {
                (0..rank)
                    .map(|k| left[at / cols * rank + k] * right[at % cols * rank + k])
                    .sum()
            };
            (0..many).map(entry).collect()
        }
        4 => {
            let left: Vec<f64> = (0..rows).map(|_| even(draw)).collect();
            let right: Vec<f64> = (0..cols).map(|_| even(draw)).collect();
            let noise = of(draw, &[0.0, 1e-17, 1e-15, 1e-13, 1e-10, 1e-6, 1e-3]);
            (0..many)
                .map(|at| left[at / cols] * right[at % cols] * (1.0 + noise * even(draw)))
                .collect()
        }
        5 => {
            let mut table = fill(draw, &mut |draw| even(draw));
            let (row, col) = (
                draw.below(rows as u64) as usize,
                draw.below(cols as u64) as usize,
            );
            for at in 0..many {
                if draw.below(2) == 0 {
                    table[at] = table[row * cols + at % cols];
                } else if draw.below(2) == 0 {
                    table[at] = table[at / cols * cols + col];
                }
            }
            for i in 0..rows {
                if draw.below(2) == 0 {
                    for j in 0..cols {
                        table[i * cols + j] = table[row * cols + j];
                    }
                }
            }
            table
        }
        6 => {
            let dead_rows: Vec<bool> = (0..rows).map(|_| draw.below(3) == 0).collect();
            let dead_cols: Vec<bool> = (0..cols).map(|_| draw.below(4) == 0).collect();
            let zero = of(draw, &[0.0, -0.0]);
            let mut table = fill(draw, &mut |draw| even(draw));
            for at in 0..many {
                if dead_rows[at / cols] || dead_cols[at % cols] {
                    table[at] = zero;
                }
            }
            table
        }
        7 => fill(draw, &mut |draw| {
            of(draw, &[0.0, -0.0, 0.0, -0.0, 0.0, -0.0, 1.0, -1.0])
        }),
        8 => fill(draw, &mut |draw| {
            f64::from_bits(draw.bits() & 0x800F_FFFF_FFFF_FFFF)
        }),
        9 => fill(draw, &mut |draw| {
            let (sign, below) = (of(draw, &[1.0, -1.0]), floor * part(draw));
            sign * of(
                draw,
                &[
                    floor,
                    floor.next_down(),
                    floor.next_up(),
                    floor / 2.0,
                    below,
                    0.0,
                ],
            )
        }),
        10 => fill(draw, &mut |draw| scaled(draw, 1015, 1023)),
        11 => {
            let wide = of(draw, &[20, 200, 540, 1000]);
            fill(draw, &mut |draw| scaled(draw, -wide, wide))
        }
        12 => fill(draw, &mut finite),
        13 => {
            let reading = of(draw, &[1.0, 2.5, -1.0, 0.0, -0.0, 1e-200, 1e200]);
            fill(draw, &mut |_| reading)
        }
        14 => {
            let lower = draw.below(2) == 0;
            let at = |i: usize, j: usize| i == j || if lower { i == j + 1 } else { j == i + 1 };
            let mut table = vec![0.0; many];
            for i in 0..rows {
                for j in 0..cols {
                    if at(i, j) && draw.below(8) != 0 {
                        table[i * cols + j] = even(draw);
                    }
                }
            }
            table
        }
        15 => {
            let step = of(draw, &[0.5, 0.1, 1e-3, 1e-8]);
            (0..many)
                .map(|at| even(draw) * f64::powi(step, (at / cols + at % cols) as i32))
                .collect()
        }
        EQUAL_VALUES => equal_values(draw, rows, cols),
        _ => few_couplings(draw, rows, cols, floor),
    }
}

/// One of few magnitudes in each line, on the diagonal or anywhere else where no other line has one. Now
/// and then a line with two entries whose squares' root is above the largest double.
fn equal_values(draw: &mut Draw, rows: usize, cols: usize) -> Vec<f64> {
    let magnitudes: [&[f64]; 4] = [
        &[1.0],
        &[1.0, 2.0],
        &[0.5, 3.0, 0.0],
        &[1e-3, 7.0, 7.0, 40.0],
    ];
    let magnitudes = of(draw, &magnitudes);
    // A line is a column or, where there are more columns than rows, a row.
    let (lines, long) = (rows.min(cols), rows.max(cols));
    let mut places: Vec<usize> = (0..long).collect();
    if draw.below(4) != 0 {
        for at in (1..long).rev() {
            places.swap(at, draw.below(at as u64 + 1) as usize);
        }
    }
    let mut table = vec![0.0; rows * cols];
    let at = |line: usize, place: usize| match cols > rows {
        true => line * cols + place,
        false => place * cols + line,
    };
    for line in 0..lines {
        table[at(line, places[line])] = of(draw, magnitudes) * of(draw, &[1.0, -1.0]);
    }
    if long > lines && draw.below(4) == 0 {
        let line = draw.below(lines as u64) as usize;
        table[at(line, places[line])] = f64::MAX;
        table[at(line, places[lines])] = f64::MAX;
    }
    table
}

/// A diagonal and zeros, of either sign in half of the tables; and then nothing more, or one coupling: the
/// first, the last or any, large or as small as can be; or something where no coupling stands: across the
/// diagonal or anywhere, below the floor, so that it stays; couplings that are dropped, behind a corner
/// of zeros; or a last 2 x 2 whose coupling overflows.
fn few_couplings(draw: &mut Draw, rows: usize, cols: usize, floor: f64) -> Vec<f64> {
    let zeros = of(draw, &[[0.0, 0.0], [0.0, -0.0]]);
    let mut table: Vec<f64> = (0..rows * cols).map(|_| of(draw, &zeros)).collect();
    let tiny = f64::from_bits(1);
    let small = [tiny, -tiny, f64::MIN_POSITIVE.next_down(), floor / 2.0];
    let values: [&[f64]; 4] = [
        &zeros,
        &[0.0, -0.0, 1.0, -2.5],
        &[1.0, -1.0, 0.5, 3.0],
        &[0.0, 1e-3, 1e-310, tiny],
    ];
    let values = of(draw, &values);
    let card = rows.min(cols);
    for k in 0..card {
        table[k * (cols + 1)] = of(draw, values);
    }
    let Some(last) = card.checked_sub(2) else {
        return table;
    };
    // The entries right of the diagonal and below it, and which of them are the couplings.
    let sides = [
        |k: usize, cols: usize| k * cols + k + 1,
        |k, cols| (k + 1) * cols + k,
    ];
    let [coupling, across] = match cols > rows {
        false => sides,
        true => [sides[1], sides[0]],
    };
    let any = draw.below(last as u64 + 1) as usize;
    let place = of(draw, &[0, last, any]);
    match draw.below(10) {
        0..2 => {}
        2..4 => table[coupling(place, cols)] = of(draw, &[1.0, -0.5, 1e-13, f64::MAX]),
        4..6 => table[coupling(place, cols)] = of(draw, &small),
        6 => table[across(place, cols)] = of(draw, &small),
        7 => {
            let at = draw.below((rows * cols) as u64) as usize;
            table[at] = of(draw, &small);
        }
        8 => {
            for k in 0..card {
                table[k * (cols + 1)] = if k > place { 1.0 } else { 0.0 };
            }
            for k in place..=last {
                table[coupling(k, cols)] = 1e-13;
            }
        }
        _ => {
            for at in [0, 1, cols, cols + 1] {
                table[last * (cols + 1) + at] = f64::MAX;
            }
        }
    }
    table
}

/// The kinds of entries that U and V hold: whole numbers, ordinary ones, with NaNs and infinities, zeros,
/// any bits.
pub(crate) const ENTRIES: u64 = 5;

/// So many entries of U or V, of the kind.
pub(crate) fn entries(draw: &mut Draw, kind: u64, many: usize) -> Vec<f64> {
    let strange = [
        f64::NAN,
        -f64::NAN,
        f64::INFINITY,
        f64::NEG_INFINITY,
        -0.0,
        f64::MAX,
        f64::MIN_POSITIVE,
        1.0,
    ];
    let mut entry = |_| match kind {
        0 => whole(draw, 5),
        1 => even(draw),
        2 if draw.below(5) == 0 => of(draw, &strange),
        2 => even(draw),
        3 => of(draw, &[0.0, -0.0]),
        _ => f64::from_bits(draw.bits()),
    };
    (0..many).map(&mut entry).collect()
}

fn start(draw: &mut Draw, rows: usize, cols: usize) -> Start {
    if draw.below(2) == 0 {
        return Start::Identity;
    }
    let (left, right) = (draw.below(ENTRIES), draw.below(ENTRIES));
    let u = entries(draw, left, rows * rows);
    Start::Given(u, entries(draw, right, cols * cols))
}

/// A list of another length.
fn other_length(draw: &mut Draw, list: &mut Vec<f64>) {
    match draw.below(4) {
        0 => list.push(1.0),
        1 => list.truncate(list.len().saturating_sub(1)),
        2 => list.clear(),
        _ => list.extend(vec![2.0; 1 + draw.below(48) as usize]),
    }
}

/// Makes the run unfit in the way that refusal `number` speaks of.
fn spoil(draw: &mut Draw, run: &mut Run, number: u64) {
    let sides = |run: &mut Run| {
        let (u, v) = run.factors();
        run.start = Start::Given(u, v);
    };
    match number {
        1 | 2 => {
            sides(run);
            let wrong = if number == 1 {
                0
            } else {
                of(draw, &[49, 50, 64, 1 << 16, 1 << 32, 1 << 63, usize::MAX])
            };
            match draw.below(3) {
                0 => run.rows = wrong,
                1 => run.cols = wrong,
                _ => (run.rows, run.cols) = (wrong, wrong),
            }
        }
        3 => other_length(draw, &mut run.matrix),
        4 | 5 => {
            sides(run);
            if let Start::Given(u, v) = &mut run.start {
                other_length(draw, if number == 4 { u } else { v });
            }
        }
        6 => match draw.below(2) {
            0 => run.settings.limit = of(draw, &[100_001, 100_002, 1 << 20, 1 << 32, usize::MAX]),
            _ => run.settings.credit = of(draw, &[1_001, 1_002, 1 << 20, 1 << 32, usize::MAX]),
        },
        7 => {
            let tiny = f64::from_bits(1);
            let wrong = of(
                draw,
                &[
                    f64::NAN,
                    -f64::NAN,
                    f64::INFINITY,
                    f64::NEG_INFINITY,
                    -tiny,
                    -1e-10,
                    -f64::MAX,
                ],
            );
            match draw.below(4) {
                0 => run.settings.tolerance = wrong,
                1 => run.settings.absolute = wrong,
                2 => run.settings.floor = wrong,
                _ => run.settings.floor = of(draw, &[0.0, -0.0]),
            }
        }
        _ => readings::spoil(draw, run.cols, &mut run.matrix),
    }
}

/// The list of values as it is lent: any bits, and another length than c in one run of sixteen, or of
/// three where the run is unfit already, so that 11 meets the other numbers.
fn values(draw: &mut Draw, length: usize, unfit: bool) -> Vec<f64> {
    let mut list: Vec<f64> = (0..length).map(|_| f64::from_bits(draw.bits())).collect();
    if draw.below(if unfit { 3 } else { 16 }) == 0 {
        other_length(draw, &mut list);
    }
    list
}

/// The number of a profile: in seven of eight one of those that there are, of the unfit runs in half, else one
/// that there is not, among them such as would be one of the four if they were cut to fewer bits.
fn profile(draw: &mut Draw, unfit: bool) -> usize {
    let good = 1 + draw.below(4) as usize;
    if draw.below(8) < if unfit { 4 } else { 7 } {
        return good;
    }
    let cut = 1 << of(draw, &[8, 16, 31, 32, 32, 48, 63]);
    let any = (draw.bits() as usize).max(5);
    of(
        draw,
        &[0, 5, 6, usize::MAX, cut, cut + good, cut + good, any],
    )
}

/// Run `number` of the seed, and the kind of its table. One run in four is made by a profile's number, of
/// the unfit ones every other; all else of it is as `with_settings` draws it.
pub fn drawn(seed: u64, number: u64, sizes: Sizes) -> (Run, usize) {
    let (mut run, kind) = with_settings(seed, number, sizes);
    // A draw of its own: those of the run stay as they are.
    let mut mixed = Draw(!seed ^ number.wrapping_mul(0xE703_7ED1_A0B4_28DB));
    let draw = &mut Draw(mixed.bits());
    let unfit = run.refusal(Call::Ordered).is_some();
    if draw.below(if unfit { 2 } else { 4 }) == 0 {
        run.profile = Some(profile(draw, unfit));
    }
    (run, kind)
}

/// Run `number` of the seed with settings, and the kind of its table.
pub fn with_settings(seed: u64, number: u64, sizes: Sizes) -> (Run, usize) {
    let mut mixed = Draw(seed ^ number.wrapping_mul(0xD1B5_4A32_D192_ED03));
    let draw = &mut Draw(mixed.bits());
    let (rows, cols) = shape(draw, sizes);
    let settings = settings(draw, rows.min(cols) <= 3 && rows.max(cols) <= 6);
    let mut kind = draw.below(EQUAL_VALUES as u64) as usize;
    let mut run = Run {
        rows,
        cols,
        settings,
        profile: None,
        call: match draw.below(8) {
            0 => Call::Plain,
            _ => Call::Ordered,
        },
        matrix: table(draw, kind, rows, cols, settings.floor),
        start: start(draw, rows, cols),
        values: Vec::new(),
    };
    let unfit = draw.below(16) == 0;
    if unfit {
        for _ in 0..1 + draw.below(2) {
            let number = 1 + draw.below(8);
            spoil(draw, &mut run, number);
        }
    }
    // Drawn last: what stands before is the same run as without them.
    run.values = values(draw, rows.min(cols), unfit);
    if !unfit && draw.below(32) == 0 {
        kind = EQUAL_VALUES;
        run.matrix = table(draw, kind, rows, cols, settings.floor);
    }
    if !unfit && draw.below(16) == 0 {
        kind = FEW_COUPLINGS;
        run.matrix = table(draw, kind, rows, cols, settings.floor);
        // In half of them the limit runs out soon.
        if draw.below(2) == 0 {
            run.settings.limit = of(draw, &[0, 0, 0, 1, 2, 3]);
        }
    }
    (run, kind)
}
