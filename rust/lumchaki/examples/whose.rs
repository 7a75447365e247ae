//! Runs a sheet and says of every vessel whose flour is in it:
//! `cargo run -p lumchaki --example whose ../examples/six-movements.sheet`.

use lumchaki::{held, name, read, run, PLACES, VESSELS};
use std::error::Error;
use std::{env, fs};

fn main() -> Result<(), Box<dyn Error>> {
    let path = env::args().nth(1).ok_or("usage: whose SHEET")?;
    let sheet = fs::read(path)?;
    let vessels = read(&sheet)?.vessels;
    let mut table = vec![0; 4 * PLACES];
    let run = run(&sheet, &mut table)?;

    let word = |vessel| name(&sheet, vessel).map(String::from_utf8_lossy);
    let mut report = [0; VESSELS];
    for vessel in 0..vessels {
        let weights = held(&run.head, &table, vessel, &mut report)?;
        let balance = run.head.balances[vessel as usize];
        println!("{} holds {balance} g", word(vessel)?);
        for (origin, weight) in (0..).zip(weights).filter(|&(_, &weight)| weight > 0) {
            println!("  {weight} g from {}", word(origin)?);
        }
    }
    if let Some(stop) = run.stop {
        println!("stopped at movement {}: {}", stop.index, stop.refusal);
    }
    Ok(())
}
