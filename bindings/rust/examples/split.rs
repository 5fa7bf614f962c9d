//! Splits a table of 4 stations and 3 passes, read with a vane, and prints what an app would show.
use merotunki::{Instrument, Refusal, Table};

fn main() -> Result<(), Refusal> {
    let mut readings = [1.2, 1.4, 1.1, 2.4, 2.5, 2.9, 1.9, 2.6, 1.8, 0.7, 0.9, 1.3];
    let mut table = Table::new(&mut readings, 4, 3)?;
    let (report, factors) = table.split_full_by(Instrument::Vane)?;
    println!("{report}");
    println!("values {:.6?}", table.values().collect::<Vec<f64>>());
    println!("station 0 {:.6?}", factors.station(0).unwrap_or_default());
    Ok(())
}
