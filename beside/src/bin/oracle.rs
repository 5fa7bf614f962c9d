//! Answers the cases of standard input, a line each; `oracle changes` prints instead every line in
//! which what was built differs from the original, `oracle refused` the fixed small tables with bad
//! readings, each with what is told of them, and `oracle profiles` the small cases by a profile's number with
//! their answers.

use beside::run::{Call, Reply, Run};
use beside::text::{Case, hexes, patterns};
use beside::{by_number, refusals};
use std::io::{self, BufRead, Write};
use std::process::ExitCode;

fn main() -> ExitCode {
    let arguments: Vec<String> = std::env::args().skip(1).collect();
    let words: Vec<&str> = arguments.iter().map(String::as_str).collect();
    let done = match words[..] {
        [] => answers(),
        ["changes"] => {
            print!("{}", beside::CHANGES);
            Ok(())
        }
        ["refused"] => {
            refused();
            Ok(())
        }
        ["profiles"] => {
            profiles();
            Ok(())
        }
        _ => Err("oracle < cases, oracle changes, oracle refused, or oracle profiles".to_string()),
    };
    match done {
        Ok(()) => ExitCode::SUCCESS,
        Err(message) => {
            eprintln!("{message}");
            ExitCode::FAILURE
        }
    }
}

fn answers() -> Result<(), String> {
    let mut out = io::BufWriter::new(io::stdout().lock());
    for (number, line) in (1..).zip(io::stdin().lock().lines()) {
        let line = line.map_err(|error| error.to_string())?;
        let answer = Case::read(&line)
            .and_then(|case| case.answer())
            .map_err(|message| format!("line {number}: {message}"))?;
        writeln!(out, "{answer}").map_err(|error| error.to_string())?;
    }
    out.flush().map_err(|error| error.to_string())
}

/// Rows, columns, the readings, and then number, row, column and how many.
fn refused() {
    let such = |(call, number, _): &(Call, u64, Run)| (*call, *number) == (Call::Plain, 8);
    for (call, _, run) in refusals::all().into_iter().filter(such) {
        let [number, row, column, bad, ..] = run.reply(call).report.words();
        let readings = patterns(&run.matrix);
        println!(
            "{} {} | {readings} | {number} {row} {column} {bad}",
            run.rows, run.cols
        );
    }
}

/// The call, rows, columns, the number of the profile and the four lists; then the words of the report and the
/// lists afterwards. Lists that the call is not lent are empty.
fn profiles() {
    let lists = |reply: &Reply, digits: fn(&[f64]) -> String| {
        [&reply.matrix, &reply.u, &reply.v, &reply.values]
            .map(|list| digits(list))
            .join(" | ")
    };
    for run in by_number::few() {
        let (lent, reply) = (run.lent(run.call), run.reply(run.call));
        let words = reply.report.words().map(|word| word.to_string());
        println!(
            "{} {} {} {} | {} | {} | {}",
            run.call.name(),
            run.rows,
            run.cols,
            run.profile.expect("by a profile"),
            lists(&lent, patterns),
            words.join(" "),
            lists(&reply, hexes)
        );
    }
}
