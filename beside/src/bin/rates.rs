//! rates [DRAWS]: how often the original stops on tables like a survey's or ends quiet, and what can be shown all the
//! same: DRAWS (200 where none is given) drawn tables of each kind and shape, always the same ones. Prints four tables
//! for docs/GUIDE.md: with the default settings, for shapes with few passes and then for others, how many of a hundred
//! stopped, the median of the passes of those that settled and, behind a `q`, how many of a hundred were quiet, where any
//! were; over all these shapes, how many settled, stopped and were quiet, and for how many of the last two the readings
//! confirm the strongest part; and how many stop at greater limits, up to the greatest that is allowed, and behind a `q`
//! how many are quiet. With 200 draws it takes about 50 seconds on one core, nearly all of it for the limit of 100,000.

use beside::run::identity;
use beside::strongest::Strongest;
use beside::tables::{
    FEW_PASSES, FIRST_PASS, KINDS, Kind, NOISE_3, NOISE_HALF, NOISE_TENTH, Shape, drawn,
};
use beside::{Report, Settings, run};

const OTHERS: [Shape; 6] = [(4, 4), (16, 16), (30, 30), (48, 48), (5, 8), (10, 20)];
const LIMITS: [(&str, usize); 4] = [
    ("100", 100),
    ("1,000", 1_000),
    ("10,000", 10_000),
    ("100,000", 100_000),
];

fn print_heads(first: &str, heads: &[String]) {
    println!("| {first} | {} |", heads.join(" | "));
    println!("|---|{}", "---|".repeat(heads.len()));
}

/// Of the tables of a kind, by word: how many ended so, and how many of these were confirmed.
#[derive(Clone, Copy, Default)]
struct Sum {
    ended: [usize; 4],
    well: [usize; 4],
}

type Sums = [Sum; KINDS.len()];

/// So many of a hundred.
fn share(many: usize, draws: usize) -> String {
    format!("{} %", (1000.0 * many as f64 / draws as f64).round() / 10.0)
}

/// What stands behind a cell where some were quiet.
fn quiet(many: usize, told: String) -> String {
    match many {
        0 => String::new(),
        _ => format!(", q {told}"),
    }
}

fn print_shapes(shapes: &[Shape], draws: usize, sums: &mut Sums) {
    let heads: Vec<String> = shapes
        .iter()
        .map(|(rows, cols)| format!("{rows} x {cols}"))
        .collect();
    print_heads("tables", &heads);
    for ((name, table), sum) in KINDS.into_iter().zip(sums) {
        let mut cells = Vec::new();
        for &(rows, cols) in shapes {
            let (mut settled, mut ended) = (Vec::new(), [0; 4]);
            for readings in drawn(table, (rows, cols), draws) {
                let rows = readings.len() / cols;
                let (mut matrix, mut u, mut v) = (readings.clone(), identity(rows), identity(cols));
                let report = run(
                    rows,
                    cols,
                    &mut matrix,
                    Some((&mut u, &mut v)),
                    &Settings::DEFAULT,
                );
                let word = report.word as usize;
                ended[word] += 1;
                sum.ended[word] += 1;
                if report.word == Report::SETTLED {
                    settled.push(report.passes);
                } else {
                    let strongest = Strongest::of(&readings, &matrix, (&u, &v), (rows, cols));
                    sum.well[word] += usize::from(strongest.confirmed());
                }
            }
            settled.sort_unstable();
            let passes = settled
                .get(settled.len() / 2)
                .map_or("-".to_string(), u64::to_string);
            let [_, _, stopped, calm] = ended;
            cells.push(format!(
                "{} ({passes}){}",
                share(stopped, draws),
                quiet(calm, share(calm, draws))
            ));
        }
        println!("| {name} | {} |", cells.join(" | "));
    }
    println!();
}

fn print_sums(drawn: usize, sums: &Sums) {
    let heads = [
        "settled",
        "stopped",
        "strongest part confirmed",
        "quiet",
        "strongest part confirmed",
    ];
    let heads = heads.map(str::to_string);
    print_heads(&format!("tables, {drawn} of all these shapes"), &heads);
    for ((name, _), sum) in KINDS.iter().zip(sums) {
        let [_, settled, stopped, quiet] = sum.ended;
        let [.., of_stopped, of_quiet] = sum.well;
        println!(
            "| {name} | {settled} | {stopped} | {of_stopped} of {stopped} | {quiet} | {of_quiet} of {quiet} |"
        );
    }
    println!();
}

fn print_limits(kinds: &[(Shape, Kind)], draws: usize) {
    print_heads("tables", &LIMITS.map(|(name, _)| format!("limit {name}")));
    for &((rows, cols), (name, table)) in kinds {
        let cells = LIMITS.map(|(_, limit)| {
            let settings = Settings {
                limit,
                ..Settings::DEFAULT
            };
            let mut ended = [0; 4];
            for mut matrix in drawn(table, (rows, cols), draws) {
                ended[run(rows, cols, &mut matrix, None, &settings).word as usize] += 1;
            }
            let [_, _, stopped, calm] = ended;
            format!(
                "{stopped} of {draws}{}",
                quiet(calm, format!("{calm} of {draws}"))
            )
        });
        println!("| {rows} x {cols}, {name} | {} |", cells.join(" | "));
    }
}

fn main() {
    let draws = std::env::args()
        .nth(1)
        .map_or(200, |word| word.parse().expect("a number"));
    let mut sums = [Sum::default(); KINDS.len()];
    print_shapes(&FEW_PASSES, draws, &mut sums);
    print_shapes(&OTHERS, draws, &mut sums);
    print_sums(draws * (FEW_PASSES.len() + OTHERS.len()), &sums);
    let large = (48, 48);
    print_limits(
        &[
            (large, NOISE_3),
            (large, NOISE_HALF),
            (large, NOISE_TENTH),
            ((12, 6), FIRST_PASS),
        ],
        draws,
    );
}
