//! A fixed list of survey texts: well-formed ones, and ones damaged at each kind of place in each
//! way that a rule speaks of; and drawn texts without end, well formed and damaged.

use crate::cases::{Draw, READINGS};
use crate::kinds::{Sizes, drawn as drawn_run};
use crate::readings::{every_choice, spoil};
use crate::rotations::{self, INFINITE, SHOWING, Turned};
use crate::run::{Call, Run};
use crate::survey::split;
use crate::text::patterns;
use crate::{Settings, cases};

/// A survey as it is to be written: id, rows, columns, readings.
type Survey = (usize, usize, usize, Vec<f64>);

/// The surveys as a text.
fn written(surveys: &[Survey]) -> Vec<u8> {
    let mut text = format!("{}\n", surveys.len());
    for (id, rows, cols, _) in surveys {
        text += &format!("{id} {rows} {cols}\n");
    }
    for (_, _, cols, readings) in surveys {
        for row in readings.chunks(*cols) {
            text += &patterns(row);
            text.push('\n');
        }
    }
    text.into_bytes()
}

fn drawn(draw: &mut Draw, id: usize, rows: usize, cols: usize, kind: usize) -> Survey {
    let reading = READINGS[kind % READINGS.len()];
    let readings = (0..rows * cols).map(|_| reading(draw, 1e-21)).collect();
    (id, rows, cols, readings)
}

/// The example of the rules.
const EXAMPLE: &str = "1\n7 2 1\n4008000000000000\n4010000000000000\n";

/// A survey with two bad readings, the first in row 1 and column 0.
const REFUSED: &str = "1\n40 2 3\n\
3FF0000000000000 4000000000000000 4008000000000000\n\
7FF0000000000000 4014000000000000 FFF8000000000001\n";

/// A survey that ends quiet, and one that stops with as many passes.
const QUIET: &str = "1\n7 2 2\n\
0000000000000000 0000000000000000\n\
0000000000000000 0000000000000000\n";
const STOPPED: &str = "1\n7 2 2\n\
0000000000000000 3FF0000000000000\n\
0000000000000000 3FF0000000000000\n";

/// Two surveys, a 2 x 3 and a 2 x 1: the text that is damaged.
const BASE: &str = "2\n31 2 3\n7 2 1\n\
3FF0000000000000 4000000000000000 BFE0000000000000\n\
4008000000000000 0000000000000000 3FF8000000000000\n\
C010000000000000\n3FA999999999999A\n";

/// Shapes, kinds of readings, counts and ids.
fn well_formed(texts: &mut Vec<Vec<u8>>) {
    let mut draw = Draw(0x7E57);
    texts.push(EXAMPLE.into());
    texts.push(BASE.into());
    let shapes = [
        (1, 1),
        (1, 2),
        (2, 1),
        (2, 2),
        (3, 3),
        (4, 2),
        (2, 5),
        (5, 5),
    ];
    for (number, &(rows, cols)) in shapes.iter().cycle().take(40).enumerate() {
        let id = [1, 9, 10, 65535, 256][number % 5];
        texts.push(written(&[drawn(&mut draw, id, rows, cols, number / 5)]));
    }
    for (rows, cols) in [(1, 48), (48, 1), (48, 2), (2, 48), (12, 12)] {
        texts.push(written(&[drawn(&mut draw, 300, rows, cols, 2)]));
    }
    texts.push(written(&[drawn(&mut draw, 65535, 48, 48, 2)]));
    for many in 1..=8 {
        let surveys: Vec<Survey> = (1..=many)
            .map(|at| {
                let (rows, cols) = (1 + draw.below(4) as usize, 1 + draw.below(4) as usize);
                drawn(&mut draw, 10 * at + 1, rows, cols, at + many)
            })
            .collect();
        texts.push(written(&surveys));
    }
    // Rank one, all ones and zeros: tables that stop, and such as are quiet.
    for readings in [vec![1.0; 9], vec![0.0; 9], vec![-0.0; 9]] {
        texts.push(written(&[(5, 3, 3, readings)]));
    }
}

/// Surveys that end quiet, and such as miss it by one coupling or not at all.
fn quiet(texts: &mut Vec<Vec<u8>>) {
    texts.push(QUIET.into());
    texts.push(STOPPED.into());
    let least = f64::from_bits(1);
    let tables: [(usize, usize, &[f64]); 16] = [
        // Zeros, in both forms and of either sign.
        (2, 3, &[0.0; 6]),
        (3, 2, &[-0.0; 6]),
        (2, 2, &[0.0, -0.0, 0.0, 0.0]),
        (2, 3, &[0.0, 0.0, 0.0, -0.0, 0.0, 0.0]),
        // All but one station, and all but one pass: the second settles.
        (3, 3, &[1.25, 0.5, 2.0, 0.0, 0.0, 0.0, 0.0, 0.0, 0.0]),
        (3, 2, &[0.0, 1.25, 0.0, 0.5, 0.0, 2.0]),
        (2, 3, &[0.0, 0.0, 0.0, 1.25, 0.5, 2.0]),
        (3, 3, &[1.0, 0.0, 0.0, 0.0, 0.0, 0.0, 0.0, 0.0, 0.0]),
        // One coupling alone: the first and the last of two, and the smallest that there is.
        (3, 3, &[0.0, 1.0, 0.0, 0.0, 0.0, 0.0, 0.0, 0.0, 0.0]),
        (3, 3, &[0.0, 0.0, 0.0, 0.0, 0.0, 1.0, 0.0, 0.0, 0.0]),
        (2, 2, &[0.0, least, 0.0, 0.0]),
        (2, 3, &[0.0, 0.0, 0.0, least, 0.0, 0.0]),
        (3, 2, &[0.0, -least, 0.0, 0.0, 0.0, 0.0]),
        // Something else than a coupling: across the diagonal, behind it, and a coupling that was dropped.
        (2, 3, &[0.0, 1e-22, 0.0, 0.0, 0.0, 0.0]),
        (3, 3, &[0.0, 0.0, 1e-22, 0.0, 0.0, 0.0, 0.0, 0.0, 0.0]),
        (3, 3, &[0.0, 0.0, 0.0, 0.0, 0.0, 1e-13, 0.0, 0.0, 1.0]),
    ];
    for (id, (rows, cols, readings)) in (21..).zip(tables) {
        texts.push(written(&[(id, rows, cols, readings.to_vec())]));
    }
    // Between surveys that settled and one that stopped.
    let of = |id: usize, readings: [f64; 4]| (id, 2, 2, readings.to_vec());
    texts.push(written(&[
        of(1, [2.0, 0.0, 0.0, 1.0]),
        of(2, [0.0; 4]),
        of(3, [0.0, 1.0, 0.0, 1.0]),
        of(4, [-0.0; 4]),
        of(5, [2.0, 0.0, 0.0, 1.0]),
    ]));
}

/// Surveys with rotations over several ranges, of (0, b) too, and with a value that is infinite.
fn turned(texts: &mut Vec<Vec<u8>>) {
    let tables = SHOWING.into_iter().chain(INFINITE);
    let surveys: Vec<Survey> = (50..)
        .zip(tables)
        .map(|(id, (rows, cols, readings))| (id, rows, cols, readings.to_vec()))
        .collect();
    texts.extend(surveys.chunks(1).map(written));
    texts.push(written(&surveys));
}

/// Readings that are infinite or NaN: in every choice of a 2 x 3's places, in large tables, and in one
/// survey of several.
fn bad_readings(texts: &mut Vec<Vec<u8>>) {
    let mut draw = Draw(0xBAD);
    let (_, rows, cols, readings) = drawn(&mut draw, 40, 2, 3, 0);
    for (id, readings) in (40..).zip(every_choice(&readings)) {
        texts.push(written(&[(id, rows, cols, readings)]));
    }
    // The last of many, all of them, and as many as make the longest line.
    for (id, size, good) in [(9, 12, 143), (9, 12, 0), (65535, 48, 10 * 48 + 10)] {
        let (_, _, _, mut readings) = drawn(&mut draw, id, size, size, 2);
        readings[good..].fill(f64::NAN);
        texts.push(written(&[(id, size, size, readings)]));
    }
    // The last finite patterns are no bad readings.
    texts.push(b"1\n1 1 2\n7FEFFFFFFFFFFFFF FFEFFFFFFFFFFFFF\n".to_vec());
    // Refused surveys before, between and after accepted ones.
    let good = "3FF0000000000000";
    let nan = "7FF8000000000000";
    for places in ["100", "010", "001", "111", "101"] {
        let mut text = "3\n8 1 1\n3 1 1\n5 1 1\n".to_string();
        for place in places.bytes() {
            text += if place == b'1' { nan } else { good };
            text.push('\n');
        }
        texts.push(text.clone().into());
        // And a line more than there should be.
        texts.push(format!("{text}{good}\n").into());
    }
}

/// The base cut at every byte.
fn cut(texts: &mut Vec<Vec<u8>>) {
    texts.extend((0..BASE.len()).map(|end| BASE.as_bytes()[..end].to_vec()));
}

/// One place of each kind: count, LF, id, space, rows, columns, the digits and the ends of a body.
const PLACES: [usize; 18] = [
    0, 1, 2, 3, 4, 5, 6, 7, 8, 14, 15, 22, 30, 31, 32, 65, 133, 150,
];

/// Each place with another byte, one byte more, and one less.
fn bytes_wrong(texts: &mut Vec<Vec<u8>>) {
    let wrong = b"\n\r\t \0/09:@AFG`afg+-.\x7f\x80\xff";
    for place in PLACES.into_iter().filter(|&place| place < BASE.len()) {
        for &byte in wrong {
            let mut text = BASE.as_bytes().to_vec();
            text[place] = byte;
            texts.push(text);
        }
        for &byte in b"\n\r 0A" {
            let mut text = BASE.as_bytes().to_vec();
            text.insert(place, byte);
            texts.push(text);
        }
        let mut text = BASE.as_bytes().to_vec();
        text.remove(place);
        texts.push(text);
    }
}

/// Each line of the base changed as a whole.
fn lines_wrong(texts: &mut Vec<Vec<u8>>) {
    let lines: Vec<&str> = BASE.lines().collect();
    for at in 0..=lines.len() {
        let with = |new: Option<String>, kept: bool| {
            let mut text = String::new();
            for (number, line) in lines.iter().enumerate() {
                if number == at {
                    text += &new.clone().unwrap_or_default();
                }
                if number != at || kept {
                    text += line;
                    text.push('\n');
                }
            }
            if at == lines.len() {
                text += &new.unwrap_or_default();
            }
            text.into_bytes()
        };
        texts.push(with(Some("\n".into()), true));
        texts.push(with(Some("1 1 1\n".into()), true));
        texts.push(with(Some("3FF0000000000000\n".into()), true));
        let Some(&line) = lines.get(at) else {
            continue;
        };
        texts.push(with(None, false));
        for new in [
            format!("{line}\r\n"),
            format!(" {line}\n"),
            format!("{line} \n"),
            format!("0{line}\n"),
            line.replacen(' ', "  ", 1) + "\n",
            line.replacen(' ', "\t", 1) + "\n",
            line.to_lowercase() + "\n",
            format!("{line}\n{line}\n"),
            format!("{line} 3FF0000000000000\n"),
            line.rsplit_once(' ')
                .map_or("", |(most, _)| most)
                .to_string()
                + "\n",
            format!("{}\n", &line[1..]),
            format!("{}\n", &line[..line.len() - 1]),
        ] {
            texts.push(with(Some(new), false));
        }
    }
}

/// Numbers at, below and above their bounds.
fn numbers(texts: &mut Vec<Vec<u8>>) {
    let one = "3FF0000000000000";
    let big = [
        "99999999999999999",
        "18446744073709551617",
        "1e1",
        "+1",
        "-1",
    ];
    for count in ["", "0", "1", "01", "2", "8", "9", "10", "00", "1 "] {
        texts.push(format!("{count}\n1 1 1\n{one}\n").into());
    }
    for count in big {
        texts.push(format!("{count}\n1 1 1\n{one}\n").into());
    }
    let ids = ["0", "1", "01", "65535", "65536", "65537", "131071", "99999"];
    for id in ids.into_iter().chain(big).chain(["4294967297"]) {
        texts.push(format!("1\n{id} 1 1\n{one}\n").into());
    }
    for size in ["0", "1", "01", "48", "49", "048", "100"] {
        let rows = format!("{one}\n").repeat(48);
        texts.push(format!("1\n5 {size} 1\n{rows}").into());
        let row = format!("{one} ").repeat(48);
        texts.push(format!("1\n5 1 {size}\n{}\n", row.trim_end()).into());
    }
    for size in big {
        texts.push(format!("1\n5 {size} 1\n{one}\n").into());
        texts.push(format!("1\n5 1 {size}\n{one}\n").into());
    }
    // An id again: next to itself, and at the end of eight.
    texts.push(format!("2\n5 1 1\n5 1 1\n{one}\n{one}\n").into());
    for last in [1, 7, 8] {
        let mut text = "8\n".to_string();
        for id in (1..8).chain([last]) {
            text += &format!("{id} 1 1\n");
        }
        text += &format!("{one}\n").repeat(8);
        texts.push(text.clone().into());
        texts.push(text.replacen('8', "7", 1).into());
        texts.push(text.replacen('8', "9", 1).into());
    }
}

/// Lines of 815 and 816 bytes, of each kind.
fn long(texts: &mut Vec<Vec<u8>>) {
    let one = "3FF0000000000000";
    for bytes in [814, 815, 816, 817, 2000] {
        let line = |start: &str, filler: &str| {
            let mut line = start.to_string();
            while line.len() < bytes {
                line += filler;
            }
            line.truncate(bytes);
            line
        };
        texts.push(format!("{}\n1 1 1\n{one}\n", line("1", "0")).into());
        texts.push(format!("{}\n1 1 1\n{one}\n", line("", " ")).into());
        texts.push(format!("1\n{}\n{one}\n", line("1 1 1", " ")).into());
        texts.push(format!("1\n1 1 48\n{}\n", line("", "3FF0000000000000 ")).into());
        texts.push(format!("1\n1 1 1\n{one}\n{}\n", line("", "0")).into());
        texts.push(line("1\n1 1 1\n", "0").into());
    }
}

/// The whole list.
pub fn all() -> Vec<Vec<u8>> {
    let mut texts = vec![Vec::new(), b"\n".to_vec(), b"\n\n".to_vec(), b"\0".to_vec()];
    well_formed(&mut texts);
    quiet(&mut texts);
    turned(&mut texts);
    bad_readings(&mut texts);
    cut(&mut texts);
    bytes_wrong(&mut texts);
    lines_wrong(&mut texts);
    numbers(&mut texts);
    long(&mut texts);
    let mut kept: Vec<Vec<u8>> = Vec::new();
    for text in texts {
        if !kept.contains(&text) {
            kept.push(text);
        }
    }
    kept
}

/// A text with its answer as it is stored: `=`, or `!` where it is wrong on purpose, the sizes of both in six digits, a
/// space apart, an LF, and then both.
fn store(out: &mut Vec<u8>, mark: char, text: &[u8], answer: &[u8]) {
    out.extend(format!("{mark} {:06} {:06}\n", text.len(), answer.len()).bytes());
    out.extend(text);
    out.extend(answer);
}

/// Answers with another number of rotations, such as a slip would tell; with none, as answers had it before they had the
/// count; and with the count before the range. The last table is of zeros: it makes rotations of (0, b) alone.
fn counts_wrong(wrong: &mut Vec<(Vec<u8>, Vec<u8>)>) {
    let zeros: rotations::Table = (2, 2, &[0.0; 4]);
    for (rows, cols, readings) in SHOWING.into_iter().chain([zeros]) {
        let run = Run::from(cases::case(rows, cols, readings, Settings::DEFAULT));
        let (reply, walked) = run.walked(Call::Plain);
        let turned = Turned::of(&run, &reply, walked).expect("a run");
        let text = written(&[(7, rows, cols, readings.to_vec())]);
        let right = split(&text);
        let (range, many) = (reply.report.range, turned.many());
        let slips = rotations::slips(&turned);
        let slips = slips.iter().map(|(_, other)| format!(" {range} {other}\n"));
        let forms = [format!(" {range}\n"), format!(" {many} {range}\n")];
        for end in slips.chain(forms) {
            let other = right.replacen(&format!(" {range} {many}\n"), &end, 1);
            wrong.push((text.clone(), other.into()));
        }
    }
}

/// Texts with answers that are wrong on purpose, each a right one with one change: each byte of an answer and of one that
/// refuses, row and column exchanged, and both as one index; another word, `quiet` for `stopped` and the like; the
/// numbers of rotations that a slip would tell, none of them printed, and the count before the range; the last byte of a
/// long one, an answer with a byte less or more at either end or with none, each byte of a text that counts, and the
/// place where the text ends and the answer begins.
fn wrong() -> Vec<(Vec<u8>, Vec<u8>)> {
    let text = EXAMPLE.as_bytes().to_vec();
    let answer = split(&text).into_bytes();
    let changed = |bytes: &[u8], place: usize| {
        let mut bytes = bytes.to_vec();
        bytes[place] ^= 1;
        bytes
    };
    let refused = split(REFUSED.as_bytes()).into_bytes();
    let mut rows: Vec<(Vec<u8>, Vec<u8>)> = Vec::new();
    for (text, answer) in [(EXAMPLE, &answer), (REFUSED, &refused)] {
        rows.extend((0..answer.len()).map(|place| (text.into(), changed(answer, place))));
    }
    for other in [
        "40 refused 8 0 1 2\n",
        "40 refused 8 3 2\n",
        "40 refused 8 3\n",
    ] {
        rows.push((REFUSED.into(), other.into()));
    }
    for (text, word) in [(QUIET, "quiet"), (STOPPED, "stopped"), (EXAMPLE, "settled")] {
        let right = split(text.as_bytes());
        for other in ["quiet", "stopped", "settled", "none"] {
            rows.push((text.into(), right.replacen(word, other, 1).into()));
        }
    }
    counts_wrong(&mut rows);
    let long = written(&[drawn(&mut Draw(0x1096), 300, 2, 48, 2)]);
    let end = split(&long).into_bytes();
    rows.push((long, changed(&end, end.len() - 1)));
    let last = answer.len() - 1;
    for other in [
        answer[1..].to_vec(),
        answer[..last].to_vec(),
        [b"7", &answer[..]].concat(),
        [&answer[..], b"\n"].concat(),
        Vec::new(),
    ] {
        rows.push((text.clone(), other));
    }
    let texts = (0..text.len()).map(|place| changed(&text, place));
    rows.extend(texts.map(|text| (text, answer.clone())));
    let (most, byte) = text.split_at(text.len() - 1);
    rows.push((most.to_vec(), [byte, &answer[..]].concat()));
    rows.push(([&text[..], &answer[..1]].concat(), answer[1..].to_vec()));
    rows.retain(|(text, answer)| split(text).as_bytes() != answer);
    rows
}

/// A right row whose form is wrong on purpose, in each byte between its sizes, and at the end one that is cut off.
fn formless() -> Vec<Vec<u8>> {
    let mut row = Vec::new();
    store(
        &mut row,
        '!',
        EXAMPLE.as_bytes(),
        split(EXAMPLE.as_bytes()).as_bytes(),
    );
    let mut rows: Vec<Vec<u8>> = [1, 8, 15]
        .into_iter()
        .map(|place| [&row[..place], b"x", &row[place + 1..]].concat())
        .collect();
    row.pop();
    rows.push(row);
    rows
}

/// The list as it is stored.
pub fn stored() -> Vec<u8> {
    let mut out = Vec::new();
    for text in all() {
        store(&mut out, '=', &text, split(&text).as_bytes());
    }
    for (text, answer) in wrong() {
        store(&mut out, '!', &text, &answer);
    }
    out.extend(formless().concat());
    out
}

/// The line that the program prints of the list where all is as it should be.
pub fn summary() -> String {
    let right = all().len();
    let wrong = wrong().len() + formless().len();
    format!("{right} texts compared, 0 differ; {wrong} wrong on purpose, {wrong} found\n")
}

/// A well-formed text with surveys of every kind; mostly small ones. One in sixteen is given bad readings;
/// some others are drawn with them.
fn any_surveys(draw: &mut Draw) -> Vec<u8> {
    let many = if draw.below(3) == 0 {
        1 + draw.below(8)
    } else {
        1
    };
    let sizes = match draw.below(40) {
        0 => Sizes::All,
        1..8 => Sizes::UpTo(8),
        _ => Sizes::UpTo(3),
    };
    let mut surveys: Vec<Survey> = Vec::new();
    while (surveys.len() as u64) < many {
        let id = [9, 99, 999, 65535][draw.below(4) as usize];
        let id = 1 + draw.below(id) as usize;
        if surveys.iter().all(|other| other.0 != id) {
            let mut run = fit(draw, sizes);
            if draw.below(16) == 0 {
                spoil(draw, run.cols, &mut run.matrix);
            }
            surveys.push((id, run.rows, run.cols, run.matrix));
        }
    }
    written(&surveys)
}

/// A drawn run whose sizes and length are those of a table; its readings may be bad ones.
fn fit(draw: &mut Draw, sizes: Sizes) -> Run {
    loop {
        let (run, _) = drawn_run(draw.bits(), 0, sizes);
        let sized = (1..=48).contains(&run.rows) && (1..=48).contains(&run.cols);
        if sized && run.matrix.len() == run.rows * run.cols {
            return run;
        }
    }
}

/// Damages the text at one place: a byte changed, put in or left out, a line doubled, left out or
/// exchanged with the next, the end cut off, or something behind the end.
fn damage(draw: &mut Draw, text: &mut Vec<u8>) {
    let any = b"\n\r\t \x00/0123456789:@ABCDEFGabcdefg+-.x\x7f\x80\xff";
    let byte = any[draw.below(any.len() as u64) as usize];
    let place = draw.below(text.len() as u64 + 1) as usize;
    let mut lines: Vec<Vec<u8>> = text
        .split_inclusive(|&b| b == b'\n')
        .map(<[u8]>::to_vec)
        .collect();
    let line = draw.below(lines.len().max(1) as u64) as usize;
    match draw.below(8) {
        0 | 1 if place < text.len() => text[place] = byte,
        2 => text.insert(place, byte),
        3 if place < text.len() => drop(text.remove(place)),
        4 => text.truncate(place),
        5 => text.extend([byte, b'\n']),
        6 if line < lines.len() => {
            lines.insert(line, lines[line].clone());
            *text = lines.concat();
        }
        7 if line + 1 < lines.len() => {
            lines.swap(line, line + 1);
            *text = lines.concat();
        }
        _ if line < lines.len() => {
            lines.remove(line);
            *text = lines.concat();
        }
        _ => text.push(byte),
    }
}

/// Text `number` of a seed: well formed, or damaged once or twice.
pub fn drawn_text(seed: u64, number: u64) -> Vec<u8> {
    let mut mixed = Draw(seed ^ number.wrapping_mul(0xD1B5_4A32_D192_ED03));
    let draw = &mut Draw(mixed.bits());
    let mut text = any_surveys(draw);
    for _ in 0..draw.below(3) {
        damage(draw, &mut text);
    }
    text
}

/// Texts `first` to `end` of a seed as they are stored, as many as fit into `most` bytes; and how
/// many these are.
pub fn lot(seed: u64, first: u64, end: u64, most: usize) -> (Vec<u8>, u64) {
    let mut out = Vec::new();
    for number in first..end {
        let before = out.len();
        let text = drawn_text(seed, number);
        store(&mut out, '=', &text, split(&text).as_bytes());
        if out.len() > most && before > 0 {
            out.truncate(before);
            return (out, number - first);
        }
    }
    (out, end - first)
}

/// Of the first texts of a seed how many surveys are refused by 8, and how many of these have more than
/// one bad reading; and how many end settled, stopped and quiet.
pub fn met(seed: u64, many: u64) -> [u64; 5] {
    let mut met = [0; 5];
    for number in 0..many {
        for line in split(&drawn_text(seed, number)).lines() {
            match line.split(' ').collect::<Vec<_>>()[..] {
                [_, "refused", "8", _, _, bad] => {
                    met[0] += 1;
                    met[1] += u64::from(bad != "1");
                }
                [_, "settled", ..] => met[2] += 1,
                [_, "stopped", ..] => met[3] += 1,
                [_, "quiet", ..] => met[4] += 1,
                _ => {}
            }
        }
    }
    met
}
