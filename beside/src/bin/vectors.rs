//! Prints the stored runs with their answers, as the program `vectors` replays them; `vectors
//! summary` prints instead the line that it is to print of them. `vectors lot SEED MANY` and
//! `vectors lot-summary SEED MANY` do the same for the first drawn runs of a seed.

use beside::vectors::{lot, stored_summary, summary, write, write_stored};
use std::io::{self, BufWriter, Write};

fn main() -> io::Result<()> {
    let mut out = BufWriter::new(io::stdout().lock());
    let words: Vec<String> = std::env::args().skip(1).collect();
    let words: Vec<&str> = words.iter().map(String::as_str).collect();
    let number = |word: &str| -> u64 { word.parse().expect("a number") };
    match words[..] {
        [] => write_stored(&mut out)?,
        ["summary"] => out.write_all(stored_summary().as_bytes())?,
        ["lot", seed, many] => write(lot(number(seed), number(many)), &mut out)?,
        ["lot-summary", seed, many] => {
            out.write_all(summary(lot(number(seed), number(many)), 0).as_bytes())?;
        }
        _ => {
            return Err(io::Error::other(
                "vectors [summary | lot SEED MANY | lot-summary SEED MANY]",
            ));
        }
    }
    out.flush()
}
