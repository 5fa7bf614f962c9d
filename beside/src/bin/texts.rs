//! Prints the fixed list of survey texts with their answers, as the program `texts` replays them;
//! `texts summary` prints instead the line that it is to print of them, and `texts split` the answer
//! to the survey text of standard input; `texts lot SEED FIRST END` prints drawn texts with their
//! answers, as many as the program has room for, and on standard error how many; `texts met SEED MANY`
//! says how many surveys of the first drawn texts have bad readings, and how many end with which word.

use std::io::{self, Read, Write};

fn main() -> io::Result<()> {
    let mut out = io::stdout().lock();
    if std::env::args().nth(1).as_deref() == Some("split") {
        let mut text = Vec::new();
        io::stdin().lock().read_to_end(&mut text)?;
        return out.write_all(beside::survey::split(&text).as_bytes());
    }
    let words: Vec<String> = std::env::args().skip(1).collect();
    if words.first().map(String::as_str) == Some("summary") {
        return out.write_all(beside::texts::summary().as_bytes());
    }
    let number = |at: usize| -> u64 { words[at].parse().expect("a number") };
    if words.first().map(String::as_str) == Some("met") {
        let [refused, several, settled, stopped, quiet] = beside::texts::met(number(1), number(2));
        return writeln!(
            out,
            "surveys refused 8: {refused}, with more than one bad reading: {several}; settled {settled}, \
             stopped {stopped}, quiet {quiet}"
        );
    }
    if words.first().map(String::as_str) == Some("lot") {
        let (lot, many) = beside::texts::lot(number(1), number(2), number(3), 490_000);
        eprintln!("{many}");
        return out.write_all(&lot);
    }
    out.write_all(&beside::texts::stored())
}
