//! Prints the fixed list of small cases, a line each, as `oracle` reads them.

fn main() {
    for case in beside::cases::all() {
        println!("{case}");
    }
}
