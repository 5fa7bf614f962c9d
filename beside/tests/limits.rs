//! What the program `limits` has to print is what is stored.

#[test]
fn the_stored_file() {
    let stored = include_str!("../../crates/limits/stdout");
    assert!(
        beside::limits::printed() == stored,
        "write crates/limits/stdout"
    );
}
