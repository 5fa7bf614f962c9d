//! Prints what the program `limits` is to print.

fn main() {
    print!("{}", beside::limits::printed());
}
