use crate::calls::Call;
use crate::fault::Fault;
use crate::finish::Ledger;
use crate::runner::{Record, Runner};
use crate::sheet::Sheet;
use std::io::{self, Write};

/// Plays calls on the tasks of a sheet.
pub struct Player {
    names: Vec<String>,
    runner: Runner,
    ledger: Ledger,
    claims: Vec<bool>,
    records: Vec<Record>,
}

impl Player {
    pub fn new(sheet: Sheet) -> Player {
        Player {
            runner: Runner::new(&sheet),
            ledger: Ledger::new(&sheet),
            claims: vec![false; sheet.tasks.len()],
            records: Vec::with_capacity(sheet.tasks.len()),
            names: sheet.tasks.into_iter().map(|task| task.name).collect(),
        }
    }

    fn task(&self, name: &[u8]) -> Result<usize, Fault> {
        self.names
            .iter()
            .position(|known| known.as_bytes() == name)
            .ok_or(Fault::runner(13))
    }

    fn arrive(&mut self, task: &[u8], times: u64) -> Result<(), Fault> {
        let task = self.task(task)?;
        for _ in 0..times {
            self.runner.arrive(task)?;
            self.ledger.arrive(task, self.runner.clock);
        }
        Ok(())
    }

    fn need(&mut self, task: &[u8], ticks: u64) -> Result<(), Fault> {
        let task = self.task(task)?;
        self.runner.need(task, ticks)
    }

    fn write_records(&mut self, out: &mut impl Write) -> io::Result<()> {
        for Record {
            task,
            firing,
            clock,
        } in self.records.drain(..)
        {
            let bound = self.ledger.bound(task);
            writeln!(out, "{} {} {} {}", self.names[task], firing, clock, bound)?;
        }
        Ok(())
    }

    fn ticks(
        &mut self,
        claimed: bool,
        times: u64,
        out: &mut impl Write,
    ) -> io::Result<Result<(), Fault>> {
        self.claims.fill(claimed);
        for _ in 0..times {
            if let Err(fault) = self.runner.tick(&self.claims, &mut self.records) {
                return Ok(Err(fault));
            }
            self.write_records(out)?;
        }
        Ok(Ok(()))
    }

    /// Does the calls of a line up to the first refusal, which is written.
    pub fn play(&mut self, call: Call, out: &mut impl Write) -> io::Result<()> {
        let done = match call {
            Call::Arrive { task, times } => self.arrive(task, times),
            Call::Need { task, ticks } => self.need(task, ticks),
            Call::Ticks { claimed, times } => self.ticks(claimed, times, out)?,
        };
        done.or_else(|fault| writeln!(out, "{fault}"))
    }
}
