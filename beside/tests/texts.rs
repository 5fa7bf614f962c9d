//! The list of survey texts is what it is meant to be, and the answers keep the rules.

use beside::survey::split;
use beside::texts::{all, stored, summary};
use std::fs;

#[test]
fn the_stored_file() {
    let folder = concat!(env!("CARGO_MANIFEST_DIR"), "/../crates/texts/");
    let file = |name: &str| fs::read(format!("{folder}{name}")).unwrap();
    assert!(stored() == file("stdin"), "write crates/texts/stdin");
    assert_eq!(summary().as_bytes(), file("stdout"));
}

/// The longest text and one byte more, which the program `split` itself is run on.
#[test]
fn the_longest_text() {
    let folder = concat!(env!("CARGO_MANIFEST_DIR"), "/../crates/split/");
    let file = |name: &str| fs::read(format!("{folder}{name}")).unwrap();
    assert!(
        split(&file("stdin")).as_bytes() == file("stdout"),
        "write crates/split/stdout"
    );
}

#[test]
fn the_example() {
    let text = b"1\n7 2 1\n4008000000000000\n4010000000000000\n";
    let answer = "7 settled 0 0 0 1 0\nC014000000000000\n0000000000000000\n";
    assert_eq!(split(text), answer);
    assert_eq!(split(&text[..text.len() - 1]), "refused 9 4\n");
    let more = [text as &[u8], b"\n"].concat();
    assert_eq!(split(&more), format!("{answer}refused 9 5\n"));
}

#[test]
fn one_line_of_each_kind() {
    let one = "3FF0000000000000";
    let say = |text: String| split(text.as_bytes());
    assert_eq!(
        say(format!("1\n5 1 1\n{one}\n")),
        format!("5 settled 0 0 0 1 0\n{one}\n")
    );
    assert_eq!(say(format!("01\n5 1 1\n{one}\n")), "refused 9 1\n");
    assert_eq!(say(format!("9\n5 1 1\n{one}\n")), "refused 9 1\n");
    assert_eq!(say(format!("1\n5  1 1\n{one}\n")), "refused 9 2\n");
    assert_eq!(say(format!("1\n5 1 1\r\n{one}\n")), "refused 9 2\n");
    assert_eq!(
        say(format!("2\n5 1 1\n5 1 1\n{one}\n{one}\n")),
        "refused 9 3\n"
    );
    assert_eq!(say("1\n5 1 1\n3ff0000000000000\n".into()), "refused 9 3\n");
    assert_eq!(say("1\n5 1 1\n".into()), "refused 9 3\n");
    assert_eq!(
        say(format!(
            "2\n5 1 1\n6 1 2\nFFF0000000000000\n{one} 7FF8000000000000\n"
        )),
        "5 refused 8 0 0 1\n6 refused 8 0 1 1\n"
    );
}

#[test]
fn the_list() {
    let texts = all();
    assert!(texts.len() >= 200);
    let kinds = |kind: fn(&str) -> bool| texts.iter().filter(|text| kind(&split(text))).count();
    assert!(kinds(|answer| answer.contains(" refused 8 ")) >= 10);
    assert!(kinds(|answer| answer.starts_with("refused 9 ")) >= 100);
    assert!(kinds(|answer| answer.contains("\nrefused 9 ")) >= 100);
    assert!(kinds(|answer| !answer.contains("refused")) >= 50);
}
