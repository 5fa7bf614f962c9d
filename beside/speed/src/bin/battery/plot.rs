//! The picture: a point for each table, its time over its rotations and over its passes. It looks as the pictures of
//! samples/survey.py do, light and dark.

use crate::figures::{correlation, whole};
use crate::measure::{Measured, SHAPES};
use std::collections::BTreeSet;
use std::fmt::Write;

const STYLE: &str = r#"
  svg { font-family: system-ui, -apple-system, "Segoe UI", Roboto, "Helvetica Neue", Arial, "DejaVu Sans", sans-serif; }
  text { fill: #1f2328; font-size: 12px; }
  .title { font-size: 20px; font-weight: 600; } .head { font-size: 14px; font-weight: 600; }
  .page { fill: #ffffff; } .soft { fill: #59636e; }
  .grid { stroke: #d1d9e0; } .axis { stroke: #59636e; } .even { stroke: #59636e; stroke-dasharray: 5 4; }
  .dots { fill: none; stroke-width: 3.6; stroke-linecap: round; stroke-opacity: 0.75; }
  .halo { stroke: #ffffff; stroke-width: 4px; stroke-linejoin: round; paint-order: stroke; }
  .key { stroke-width: 9; stroke-opacity: 1; }
  .flat { stroke: #a5adb6; } .g0 { stroke: #2a6fb0; } .g1 { stroke: #d9730d; } .g2 { stroke: #1a7f37; }
  .g3 { stroke: #8250df; } .g4 { stroke: #b3261e; }
  @media (prefers-color-scheme: dark) {
    text { fill: #e6edf3; }
    .page { fill: #0d1117; } .soft { fill: #9da7b1; }
    .grid { stroke: #30363d; } .axis { stroke: #9da7b1; } .even { stroke: #9da7b1; }
    .halo { stroke: #0d1117; }
    .flat { stroke: #6e7681; } .g0 { stroke: #6cb0f0; } .g1 { stroke: #f0a04b; } .g2 { stroke: #56c271; }
    .g3 { stroke: #b794f6; } .g4 { stroke: #ff8a80; }
  }
"#;

const WIDE: f64 = 960.0;
const MARGIN: f64 = 24.0;
/// The panels: their left edges, and what both have.
const LEFT: [f64; 2] = [80.0, 554.0];
const TOP: f64 = 154.0;
const ROOM: (f64, f64) = (382.0, 340.0);

/// The groups by size: from how many values on (the smaller of stations and passes), and up to how many.
const GROUPS: [(usize, usize); 5] = [(0, 6), (10, 16), (24, 24), (30, 30), (48, 48)];

fn group(shape: usize) -> usize {
    let (rows, cols) = SHAPES[shape];
    let within = |&(_, most): &(usize, usize)| rows.min(cols) <= most;
    GROUPS.iter().position(within).expect("a group of its size")
}

/// An axis by powers of ten, from one mark to another: 1, 2, 5, 10 and so on.
struct Axis {
    marks: Vec<f64>,
    long: f64,
}

impl Axis {
    fn over(numbers: impl Iterator<Item = f64>, long: f64) -> Axis {
        let (mut least, mut most) = (f64::MAX, f64::MIN_POSITIVE);
        for number in numbers {
            (least, most) = (least.min(number), most.max(number));
        }
        let exponents = least.log10().floor() as i32 - 1..=most.log10().ceil() as i32;
        let marks =
            exponents.flat_map(|exponent| [1.0, 2.0, 5.0].map(|n| n * 10f64.powi(exponent)));
        let marks: Vec<f64> = marks.collect();
        let first = marks.iter().rposition(|&mark| mark < least);
        let last = marks.iter().position(|&mark| mark >= most);
        let (first, last) = (first.expect("one below"), last.expect("one above"));
        Axis {
            marks: marks[first..=last.max(first + 1)].to_vec(),
            long,
        }
    }

    fn ends(&self) -> (f64, f64) {
        (self.marks[0], self.marks[self.marks.len() - 1])
    }

    fn at(&self, number: f64) -> f64 {
        let (low, high) = self.ends();
        (number / low).log10() / (high / low).log10() * self.long
    }

    /// Whether a power of ten has room for three numbers beside each other.
    fn roomy(&self) -> bool {
        self.at(10.0 * self.marks[0]) > 150.0
    }
}

/// A mark as text: whole numbers with commas, others as they are.
fn mark(number: f64) -> String {
    if number < 1.0 {
        format!("{number}")
    } else {
        whole(number)
    }
}

fn text(out: &mut String, (x, y): (f64, f64), words: &str, kind: &str, anchor: &str) {
    let words = words.replace('&', "&amp;").replace('<', "&lt;");
    writeln!(
        out,
        r#"<text x="{x:.1}" y="{y:.1}" class="{kind}" text-anchor="{anchor}">{words}</text>"#
    )
    .expect("a string takes all");
}

fn line(out: &mut String, kind: &str, (x, y): (f64, f64), (along, down): (f64, f64)) {
    writeln!(
        out,
        r#"<path class="{kind}" d="M{x:.1} {y:.1}l{along:.1} {down:.1}"/>"#
    )
    .expect("a string takes all");
}

/// The points as dots of a kind, each place once.
fn dots(out: &mut String, kind: &str, points: impl Iterator<Item = (f64, f64)>) {
    let tenths = |(x, y): (f64, f64)| ((10.0 * x).round() as i64, (10.0 * y).round() as i64);
    let places: BTreeSet<(i64, i64)> = points.map(tenths).collect();
    write!(out, r#"<path class="dots {kind}" d=""#).expect("a string takes all");
    for (x, y) in places {
        let (x, y) = (x as f64 / 10.0, y as f64 / 10.0);
        write!(out, "M{x} {y}h0").expect("a string takes all");
    }
    out.push_str("\"/>\n");
}

/// What a panel shows the time over.
struct Panel {
    name: &'static str,
    count: fn(&Measured) -> f64,
    /// Microseconds of each, where a line is drawn for that.
    each: Option<f64>,
}

fn points<'a>(
    tables: &'a [Measured],
    panel: &Panel,
    which: impl Fn(&Measured) -> bool + 'a,
) -> impl Iterator<Item = (f64, f64)> + 'a {
    let count = panel.count;
    let counted = tables.iter().filter(move |table| which(table));
    counted.map(move |table| (count(table), table.full))
}

fn panel(out: &mut String, left: f64, panel: &Panel, tables: &[Measured]) {
    let (wide, high) = ROOM;
    let foot = TOP + high;
    // A call without a rotation stands where one with one does.
    let across = Axis::over(
        tables.iter().map(|table| (panel.count)(table).max(1.0)),
        wide,
    );
    let up = Axis::over(tables.iter().map(|table| table.full), high);
    let all: Vec<(f64, f64)> = points(tables, panel, |_| true).collect();
    let airy: Vec<(f64, f64)> = points(tables, panel, |table| !table.flat).collect();
    let name = panel.name;
    text(
        out,
        (left - 56.0, TOP - 50.0),
        &format!("Time over {name}"),
        "head",
        "start",
    );
    let said = format!(
        "correlation {:.3} without the flat tables, {:.3} with them",
        correlation(&airy),
        correlation(&all)
    );
    text(out, (left - 56.0, TOP - 32.0), &said, "soft", "start");
    text(out, (left - 28.0, TOP - 12.0), "time, us", "soft", "middle");
    for &number in &across.marks {
        let x = left + across.at(number);
        line(out, "grid", (x, TOP), (0.0, high));
        if across.roomy() || number.log10().fract() == 0.0 {
            text(out, (x, foot + 18.0), &mark(number), "soft", "middle");
        }
    }
    for &number in &up.marks {
        let y = foot - up.at(number);
        line(out, "grid", (left, y), (wide, 0.0));
        text(out, (left - 8.0, y + 4.0), &mark(number), "soft", "end");
    }
    let place = |(x, y): (f64, f64)| (left + across.at(x.max(1.0)), foot - up.at(y));
    if let Some(each) = panel.each {
        // From where it enters at the foot or the left to where it leaves at the top or the right.
        let (ends, sides) = (across.ends(), up.ends());
        let from = ends.0.max(sides.0 / each);
        let upto = ends.1.min(sides.1 / each);
        let (start, end) = (place((from, each * from)), place((upto, each * upto)));
        line(out, "even", start, (end.0 - start.0, end.1 - start.1));
        let words = format!("{:.0} ns each", 1e3 * each);
        let (x, y) = place((2.0 * from, 2.0 * each * from));
        text(out, (x + 8.0, y + 12.0), &words, "soft halo", "start");
    }
    line(out, "axis", (left, TOP), (0.0, high));
    line(out, "axis", (left, foot), (wide, 0.0));
    text(
        out,
        (left + wide / 2.0, foot + 38.0),
        &format!("{name} of the call"),
        "",
        "middle",
    );
    dots(
        out,
        "flat",
        points(tables, panel, |table| table.flat).map(place),
    );
    for number in 0..GROUPS.len() {
        let which = move |table: &Measured| !table.flat && group(table.shape) == number;
        dots(
            out,
            &format!("g{number}"),
            points(tables, panel, which).map(place),
        );
    }
}

/// The whole picture of tables that were timed so many times each.
pub fn picture(tables: &[Measured], rounds: usize) -> String {
    let mut out = String::new();
    let many = whole(tables.len() as f64);
    text(
        &mut out,
        (MARGIN, 40.0),
        "What the time of a call goes with",
        "title",
        "start",
    );
    let said = format!(
        "Each of {many} drawn tables is a point: microseconds of its accumulating call, the median of {rounds}. Both scales are logarithmic."
    );
    text(&mut out, (MARGIN, 64.0), &said, "soft", "start");
    let panels = [
        Panel {
            name: "rotations",
            count: |table| table.answer.rotations as f64,
            each: Some(0.1),
        },
        Panel {
            name: "passes",
            count: |table| table.answer.passes as f64,
            each: None,
        },
    ];
    for (left, shown) in LEFT.into_iter().zip(&panels) {
        panel(&mut out, left, shown, tables);
    }
    let mut y = TOP + ROOM.1 + 74.0;
    let mut key = |kind: &str, words: &str| {
        let dot = format!("dots key {kind}");
        line(&mut out, &dot, (MARGIN + 6.0, y - 4.0), (0.0, 0.0));
        text(&mut out, (MARGIN + 20.0, y), words, "", "start");
        y += 20.0;
    };
    for number in 0..GROUPS.len() {
        let shapes = (0..SHAPES.len()).filter(|&shape| group(shape) == number);
        let values = |shape: usize| SHAPES[shape].0.min(SHAPES[shape].1);
        let sizes: Vec<usize> = shapes.clone().map(values).collect();
        let (least, most) = (sizes.iter().min(), sizes.iter().max());
        let (least, most) = (least.expect("a shape"), most.expect("a shape"));
        let names: Vec<String> = shapes
            .map(|shape| format!("{} x {}", SHAPES[shape].0, SHAPES[shape].1))
            .collect();
        let values = match least == most {
            true => format!("{most} values"),
            false => format!("{least} to {most} values"),
        };
        key(
            &format!("g{number}"),
            &format!("{values}: {}", names.join(", ")),
        );
    }
    key(
        "flat",
        "flat tables of any size: all readings equal, or all zero but one station's or one pass's; many of their rotations need no root",
    );
    let high = y + 4.0;
    format!(
        r#"<svg xmlns="http://www.w3.org/2000/svg" viewBox="0 0 {WIDE} {high}" width="{WIDE}" height="{high}" role="img">
<title>Time over rotations and over passes, {many} tables</title>
<!-- Made by beside/battery. -->
<style>{STYLE}</style>
<rect class="page" width="{WIDE}" height="{high}"/>
{out}</svg>
"#
    )
}
