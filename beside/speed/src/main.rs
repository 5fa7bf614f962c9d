//! speed [REPEATS]: times the original, the proved library, and the same library with the machine's
//! own root, in one process on the same tables, by turns; prints medians and ratios as a table. Then
//! the same of the library's accumulating call and its ordered one: what the ordering costs; and of a
//! plain call that is refused for its readings, whichever of them are bad.

use beside::Settings;
use merotunki::raw::{self, Answer};
use speed::{choice, identity};
use std::hint::black_box;
use std::mem::swap;
use std::time::Instant;

type Plain = unsafe extern "C" fn(
    *mut Answer,
    *mut f64,
    usize,
    usize,
    usize,
    usize,
    usize,
    f64,
    f64,
    f64,
) -> *mut Answer;
type Full = unsafe extern "C" fn(
    *mut Answer,
    *mut f64,
    usize,
    *mut f64,
    usize,
    *mut f64,
    usize,
    usize,
    usize,
    usize,
    usize,
    f64,
    f64,
    f64,
) -> *mut Answer;

#[rustfmt::skip]
unsafe extern "C" {
    fn bare_svd(a: *mut Answer, b: *mut f64, n: usize, r: usize, c: usize, l: usize, k: usize, t: f64, z: f64, f: f64) -> *mut Answer;
    fn bare_full_svd(a: *mut Answer, b: *mut f64, n: usize, u: *mut f64, nu: usize, v: *mut f64, nv: usize, r: usize, c: usize, l: usize, k: usize, t: f64, z: f64, f: f64) -> *mut Answer;
    fn counted_svd(a: *mut Answer, b: *mut f64, n: usize, r: usize, c: usize, l: usize, k: usize, t: f64, z: f64, f: f64) -> *mut Answer;
    static counted_roots: u64;
}

/// A table of ordinary readings, always the same one of its number.
fn table(rows: usize, cols: usize, number: u64) -> Vec<f64> {
    let mut state = 0x9E37_79B9_7F4A_7C15u64.wrapping_mul(number + 1);
    let mut reading = || {
        state ^= state << 13;
        state ^= state >> 7;
        state ^= state << 17;
        10.0 * (state >> 11) as f64 / (1u64 << 53) as f64 - 2.0
    };
    (0..rows * cols).map(|_| reading()).collect()
}

/// What a call is lent, filled anew before each.
struct Lent {
    rows: usize,
    cols: usize,
    tables: Vec<Vec<f64>>,
    matrix: Vec<f64>,
    u: Vec<f64>,
    v: Vec<f64>,
    values: Vec<f64>,
    identities: (Vec<f64>, Vec<f64>),
}

impl Lent {
    fn new(rows: usize, cols: usize) -> Lent {
        Lent {
            rows,
            cols,
            tables: (0..8).map(|number| table(rows, cols, number)).collect(),
            matrix: vec![0.0; rows * cols],
            u: identity(rows),
            v: identity(cols),
            values: vec![0.0; rows.min(cols)],
            identities: (identity(rows), identity(cols)),
        }
    }

    /// Seconds that one call takes on the table of this number.
    fn once(&mut self, number: usize, full: bool, call: &mut dyn FnMut(&mut Lent)) -> f64 {
        self.matrix.copy_from_slice(&self.tables[number]);
        if full {
            self.u.copy_from_slice(&self.identities.0);
            self.v.copy_from_slice(&self.identities.1);
        }
        let start = Instant::now();
        call(self);
        let spent = start.elapsed().as_secs_f64();
        black_box(&self.matrix);
        spent
    }

    /// Seconds that one call takes, on the mean over the tables.
    fn timed(&mut self, full: bool, call: &mut dyn FnMut(&mut Lent)) -> f64 {
        let many = (40_000 / (self.rows * self.cols)).max(2);
        let mut spent = 0.0;
        for _ in 0..many {
            for number in 0..self.tables.len() {
                spent += self.once(number, full, call);
            }
        }
        spent / (many * self.tables.len()) as f64
    }
}

fn original(full: bool) -> impl FnMut(&mut Lent) {
    move |lent| {
        let uv = full.then_some((&mut lent.u[..], &mut lent.v[..]));
        black_box(beside::run(
            lent.rows,
            lent.cols,
            &mut lent.matrix,
            uv,
            &Settings::DEFAULT,
        ));
    }
}

fn library(full: bool, plain: Plain, accumulating: Full) -> impl FnMut(&mut Lent) {
    move |lent| {
        let s = Settings::DEFAULT;
        let (rows, cols) = (lent.rows, lent.cols);
        let mut answer = Answer::default();
        let (b, n) = (lent.matrix.as_mut_ptr(), lent.matrix.len());
        let (u, nu) = (lent.u.as_mut_ptr(), lent.u.len());
        let (v, nv) = (lent.v.as_mut_ptr(), lent.v.len());
        // SAFETY: each pointer goes with the length of its own list.
        unsafe {
            if full {
                accumulating(
                    &mut answer,
                    b,
                    n,
                    u,
                    nu,
                    v,
                    nv,
                    rows,
                    cols,
                    s.limit,
                    s.credit,
                    s.tolerance,
                    s.absolute,
                    s.floor,
                );
            } else {
                plain(
                    &mut answer,
                    b,
                    n,
                    rows,
                    cols,
                    s.limit,
                    s.credit,
                    s.tolerance,
                    s.absolute,
                    s.floor,
                );
            }
        }
        black_box(answer);
    }
}

/// The library's ordered call.
fn in_order(lent: &mut Lent) {
    let factors = (&mut lent.u[..], &mut lent.v[..]);
    let (rows, cols) = (lent.rows, lent.cols);
    let answer = raw::ordered_svd(
        &mut lent.matrix,
        factors,
        &mut lent.values,
        rows,
        cols,
        choice(&Settings::DEFAULT),
    );
    assert_eq!(answer.number, 0, "a table that is not put in order");
    black_box(answer);
}

/// Prints what the ordering costs of an accumulating run. It is little: so the two calls are timed in
/// turn on each table, and of each table the medians count.
fn ordering(rows: usize, cols: usize, repeats: usize) {
    let lent = &mut Lent::new(rows, cols);
    let mut accumulating = library(true, raw::merotunki_svd, raw::merotunki_full_svd);
    let many = lent.tables.len();
    let (mut kept, mut ordered) = (vec![Vec::new(); many], vec![Vec::new(); many]);
    for number in (0..many).cycle().take(20 * repeats * many) {
        kept[number].push(lent.once(number, true, &mut accumulating));
        ordered[number].push(lent.once(number, true, &mut in_order));
    }
    let mean = |times: Vec<Vec<f64>>| times.into_iter().map(median).sum::<f64>() / many as f64;
    let (kept, ordered) = (1e6 * mean(kept), 1e6 * mean(ordered));
    let share = 100.0 * (ordered - kept) / kept;
    println!("\n| table | accumulating, us | ordered, us | the ordering, of the accumulating |");
    println!("|---|---|---|---|");
    println!("| {rows} x {cols} | {kept:.2} | {ordered:.2} | {share:.1} % |");
}

/// Which readings of a table are bad, by the place, the last place and a number from -2 to 8.
type Which = fn(usize, usize, f64) -> bool;

/// Prints what a plain call takes that is refused for its readings, and beside it the copying of a table.
/// Such a call writes nothing, so it is made of the same tables again and again.
fn refusing(rows: usize, cols: usize, repeats: usize) {
    let kinds: [(&str, Which); 4] = [
        ("one bad reading, the first", |at, _, _| at == 0),
        ("one bad reading, the last", |at, last, _| at == last),
        ("every second one or so, drawn", |_, _, drawn| drawn < 3.0),
        ("all", |_, _, _| true),
    ];
    let last = rows * cols - 1;
    let lent = &mut Lent::new(rows, cols);
    let mut spoiled = kinds.map(|(_, which)| {
        let mut tables = lent.tables.clone();
        for (number, readings) in (0..).zip(&mut tables) {
            let drawn = table(rows, cols, 8 + number);
            let bad: Vec<usize> = (0..=last)
                .filter(|&at| which(at, last, drawn[at]))
                .collect();
            bad.iter().for_each(|&at| readings[at] = f64::NAN);
            let answer = raw::svd(readings, rows, cols, choice(&Settings::DEFAULT));
            assert_eq!((answer.number, answer.bad), (8, bad.len() as u64));
        }
        tables
    });
    let mut timed = |tables: &mut Vec<Vec<f64>>, call: &mut dyn FnMut(&mut Lent)| {
        let turns = 50;
        let start = Instant::now();
        for _ in 0..turns {
            for table in tables.iter_mut() {
                swap(&mut lent.matrix, table);
                call(lent);
                swap(&mut lent.matrix, table);
            }
        }
        start.elapsed().as_secs_f64() / (turns * tables.len()) as f64
    };
    let mut copy = vec![0.0; rows * cols];
    let mut copying = |lent: &mut Lent| {
        copy.copy_from_slice(black_box(&lent.matrix));
        black_box(&copy);
    };
    let mut plain = library(false, raw::merotunki_svd, raw::merotunki_full_svd);
    let mut times = vec![Vec::new(); 1 + kinds.len()];
    for _ in 0..repeats {
        times[0].push(timed(&mut spoiled[0], &mut copying));
        for (times, tables) in times[1..].iter_mut().zip(&mut spoiled) {
            times.push(timed(tables, &mut plain));
        }
    }
    println!("\n| {rows} x {cols} table | us |\n|---|---|");
    let names = ["copied"].into_iter().chain(kinds.map(|(name, _)| name));
    for (name, times) in names.zip(times) {
        println!("| {name} | {:.2} |", 1e6 * median(times));
    }
}

/// The roots of one call, on the mean over the tables.
fn roots(lent: &mut Lent) -> f64 {
    // SAFETY: nothing else runs; the count is read after the calls.
    let count = || unsafe { std::ptr::read_volatile(&raw const counted_roots) };
    let before = count();
    for number in 0..lent.tables.len() {
        lent.matrix.copy_from_slice(&lent.tables[number]);
        library(false, counted_svd, bare_full_svd)(lent);
    }
    (count() - before) as f64 / lent.tables.len() as f64
}

fn median(mut times: Vec<f64>) -> f64 {
    times.sort_by(f64::total_cmp);
    times[times.len() / 2]
}

/// Nanoseconds of a root, each waiting for the one before, as in a run.
fn root_time(root: &dyn Fn(f64) -> f64) -> f64 {
    let many = 200_000;
    let start = Instant::now();
    let mut x = 2.0;
    for _ in 0..many {
        x = 1.0 + root(black_box(x));
    }
    black_box(x);
    start.elapsed().as_secs_f64() * 1e9 / many as f64
}

fn main() {
    let repeats = std::env::args()
        .nth(1)
        .map_or(31, |word| word.parse().expect("a number"));
    // SAFETY: the root takes any double.
    let proved = |x: f64| unsafe { raw::merotunki_square_root(x) };
    let both: Vec<(f64, f64)> = (0..repeats)
        .map(|_| (root_time(&proved), root_time(&f64::sqrt)))
        .collect();
    let proved = median(both.iter().map(|times| times.0).collect());
    let hardware = median(both.iter().map(|times| times.1).collect());
    println!(
        "root: {proved:.1} ns proved, {hardware:.1} ns the machine's own, each with one sum in a chain\n"
    );
    println!(
        "| table | call | original, us | library, us | ratio | roots in a call | with the machine's root, us | ratio | root off both |"
    );
    println!("|---|---|---|---|---|---|---|---|---|");
    for (rows, cols) in [(8, 8), (24, 24), (48, 48), (48, 12)] {
        for full in [false, true] {
            let lent = &mut Lent::new(rows, cols);
            let many = roots(lent);
            let mut times = [Vec::new(), Vec::new(), Vec::new()];
            for _ in 0..repeats {
                times[0].push(lent.timed(full, &mut original(full)));
                times[1].push(lent.timed(
                    full,
                    &mut library(full, raw::merotunki_svd, raw::merotunki_full_svd),
                ));
                times[2].push(lent.timed(full, &mut library(full, bare_svd, bare_full_svd)));
            }
            let [rust, port, bare] = times.map(|list| 1e6 * median(list));
            let off = (port - many * proved / 1e3) / (rust - many * hardware / 1e3);
            let call = if full { "accumulating" } else { "plain" };
            println!(
                "| {rows} x {cols} | {call} | {rust:.2} | {port:.2} | {:.2} | {many:.0} | {bare:.2} | {:.2} | {off:.2} |",
                port / rust,
                bare / rust
            );
        }
    }
    ordering(48, 48, repeats);
    refusing(48, 48, repeats);
}
