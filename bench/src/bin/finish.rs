//! Fills the finish table of the sheet on standard input many times, and tells a checksum of all entries.
//!
//! In table j, arrival k of each inlet comes at goal × k + j.

use plain::fault::Fault;
use plain::finish::{finish_table, MOST_FIRINGS};
use plain::sheet::Sheet;
use std::io::{self, Read};

const TABLES: u64 = 400;

fn checksum(sheet: &Sheet) -> Result<u64, Fault> {
    let inlets = sheet.tasks.iter().filter(|task| task.inlet).count();
    let mut times = vec![0; inlets * MOST_FIRINGS];
    let mut table = vec![0; sheet.tasks.len() * MOST_FIRINGS];
    let mut sum = 0;
    for j in 0..TABLES {
        for (at, time) in times.iter_mut().enumerate() {
            *time = sheet.goal * (at % MOST_FIRINGS) as u64 + j;
        }
        finish_table(sheet, MOST_FIRINGS, &times, &mut table)?;
        sum = table
            .iter()
            .fold(sum, |sum, entry| (sum * 31 + entry) % 1_000_000_007);
    }
    Ok(sum)
}

fn main() -> io::Result<()> {
    let mut text = Vec::new();
    io::stdin().read_to_end(&mut text)?;
    match Sheet::read(&text).and_then(|sheet| checksum(&sheet)) {
        Ok(sum) => println!("tables {TABLES} checksum {sum}"),
        Err(fault) => println!("{fault}"),
    }
    Ok(())
}
