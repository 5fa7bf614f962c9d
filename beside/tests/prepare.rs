//! A source that reads otherwise, where a change is made, is refused with file and text.

#[allow(dead_code)]
#[path = "../prepare.rs"]
mod prepare;

use prepare::{Change, FILES, File, prepare};
use std::fs;
use std::path::Path;

fn original(file: &File) -> String {
    fs::read_to_string(Path::new(env!("SOURCE_FOLDER")).join(file.path)).unwrap()
}

fn refused(file: &File, source: &str, expected: &str) {
    let message = prepare(file, source).err().expect(file.path);
    assert!(
        message.contains(file.path) && message.contains(expected),
        "{message}"
    );
}

#[test]
fn only_the_listed_lines_change() {
    for file in FILES {
        let source = original(file);
        let prepared = prepare(file, &source).unwrap();
        assert_eq!(prepared.listing.is_empty(), file.changes.is_empty());
        assert_eq!(prepared.copy == source, file.changes.is_empty());
        let told = |sign: char| {
            let mark = format!(" {sign}");
            let lines = prepared.listing.lines();
            lines
                .filter(|line| line.split_once(':').unwrap().1[1..].contains(&mark))
                .count()
        };
        let lines = |text: &str| text.lines().count();
        assert_eq!(
            lines(&prepared.copy) + told('-'),
            lines(&source) + told('+'),
            "{}",
            file.path
        );
    }
}

/// All that is put in, by file and line of the original: two settings and the counters.
#[test]
fn the_lines_that_are_put_in() {
    let put_in: Vec<String> = FILES
        .iter()
        .flat_map(|file| {
            let listing = prepare(file, &original(file)).unwrap().listing;
            let lines = listing.lines().map(str::to_string);
            lines
                .filter(|line| line.contains(" + "))
                .collect::<Vec<_>>()
        })
        .map(|line| {
            let (place, text) = line.split_once(" + ").unwrap();
            format!("{place} {}", text.trim())
        })
        .collect();
    let walk = |file: &str, pass: [usize; 2]| {
        pass.map(|line| {
            [
                format!("svd/{file}.rs:{line} crate::record::pass();"),
                format!("svd/{file}.rs:{} crate::record::sweep(range);", line + 14),
                format!("svd/{file}.rs:{} crate::record::left(range);", line + 16),
            ]
        })
        .concat()
    };
    let mut must: Vec<String> = [
        "francis/givens.rs:1 crate::record::rotation(a);",
        "francis/primitives.rs:20 if max_element.abs() < crate::record::floor() {",
        "svd/primitives.rs:37 *curriter = curriter.saturating_sub(crate::record::credit());",
        "svd/primitives.rs:37 crate::record::drop();",
    ]
    .map(str::to_string)
    .into();
    must.extend(walk("bulge_chasing", [26, 63]));
    must.extend(walk("verify", [153, 193]));
    assert_eq!(put_in, must);
}

/// The rotation counts itself, before all else. Nothing calls it but the four sweeps, each at its first
/// rotation, at two in a step, and at its last.
#[test]
fn where_rotations_are_computed() {
    let mut calls = Vec::new();
    for file in FILES {
        let copy = prepare(file, &original(file)).unwrap().copy;
        let lines: Vec<&str> = copy.lines().map(str::trim).collect();
        let mut function = "";
        for (at, line) in lines.iter().enumerate() {
            if let Some((_, rest)) = line.split_once("fn ") {
                function = rest.split('(').next().unwrap();
            }
            if line.contains("fn implicit_givens_rotation(") {
                assert_eq!(lines[at + 1], "crate::record::rotation(a);");
            } else if line.contains("implicit_givens_rotation(") {
                calls.push(function.to_string());
            }
        }
    }
    let sweeps = [
        "ugivens_iteration",
        "lgivens_iteration",
        "full_ugivens_iteration",
        "full_lgivens_iteration",
    ];
    let must: Vec<&str> = sweeps.iter().flat_map(|sweep| [*sweep; 4]).collect();
    assert_eq!(calls, must);
}

#[test]
fn every_expected_text_is_needed() {
    for file in FILES {
        let source = original(file);
        for change in file.changes {
            match *change {
                Change::Replace { text, .. } => {
                    for line in text.lines() {
                        let altered = text.replacen(line, &format!("{line} "), 1);
                        refused(file, &source.replacen(text, &altered, 1), text);
                    }
                    refused(file, &format!("{source}{text}\n"), text);
                }
                Change::Cut { from, upto, .. } => {
                    refused(file, &source.replacen(from, "", 1), from);
                    refused(file, &source.replacen(upto, "", 1), upto);
                    let inside = source.replacen(from, &format!("{from}\n"), 1);
                    refused(file, &inside, "fingerprint");
                }
            }
        }
    }
}

#[test]
fn fused_products_are_refused() {
    for file in FILES {
        refused(
            file,
            &format!("{}// a.mul_add(b, c)\n", original(file)),
            "mul_add",
        );
    }
}
