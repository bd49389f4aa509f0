//! A small ingest engine: sixteen workers are moved by turns over one register of scan keys.

use std::process::ExitCode;
use welmuzra::{Kind, Limits, Refusal, Register, Step};

const WORKERS: u32 = 16;
const SCANS: u32 = 2_000;

/// A worker's round on one scan: it is registered, asked for, and every third one is withdrawn and asked for again.
const ROUND: [Kind; 4] = [Kind::Insert, Kind::Find, Kind::Delete, Kind::Find];

/// What one worker is at.
#[derive(Clone, Copy)]
struct Desk {
    scan: u32,
    at: usize,
    running: bool,
}

#[derive(Default)]
struct Tally {
    yes: u32,
    no: u32,
    full: u32,
    steps: u64,
    turns: u64,
}

impl Tally {
    fn ended(&mut self, steps: u32) {
        self.steps += u64::from(steps);
    }

    fn take(&mut self, step: Step) -> bool {
        match step {
            Step::Going => return false,
            Step::Yes { steps } => {
                self.yes += 1;
                self.ended(steps);
            }
            Step::No { steps } => {
                self.no += 1;
                self.ended(steps);
            }
            Step::Full { steps } | Step::NoDummy { steps } => {
                self.full += 1;
                self.ended(steps);
            }
        }
        true
    }
}

impl Desk {
    /// The operations of a scan's round.
    fn round(&self) -> &'static [Kind] {
        match self.scan % 3 {
            0 => &ROUND,
            _ => &ROUND[..2],
        }
    }

    /// One turn of this desk's worker: a step, or the next operation where it is idle.
    fn turn(
        &mut self,
        worker: u32,
        register: &mut Register,
        tally: &mut Tally,
    ) -> Result<(), Refusal> {
        if self.running {
            self.running = !tally.take(register.step(worker)?);
            return Ok(());
        }
        if self.at == self.round().len() {
            self.scan += WORKERS;
            self.at = 0;
        }
        if self.scan < SCANS {
            register.start(worker, self.round()[self.at], self.scan)?;
            self.at += 1;
            self.running = true;
        }
        Ok(())
    }

    fn done(&self) -> bool {
        self.scan >= SCANS
    }
}

fn engine() -> Result<(Register, Tally), Refusal> {
    let mut register = Register::new(Limits {
        buckets: 1024,
        keys: 4096,
        workers: WORKERS,
        load: 2,
    })?;
    let mut tally = Tally::default();
    let mut desks: Vec<Desk> = (0..WORKERS)
        .map(|scan| Desk {
            scan,
            at: 0,
            running: false,
        })
        .collect();
    while !desks.iter().all(Desk::done) {
        for (worker, desk) in (0..).zip(&mut desks) {
            tally.turns += 1;
            desk.turn(worker, &mut register, &mut tally)?;
        }
    }
    Ok((register, tally))
}

fn main() -> ExitCode {
    match engine() {
        Ok((register, tally)) => {
            println!("turns {} steps {}", tally.turns, tally.steps);
            println!("yes {} no {} full {}", tally.yes, tally.no, tally.full);
            println!("count {} size {}", register.count(), register.size());
            ExitCode::SUCCESS
        }
        Err(Refusal(number)) => {
            println!("refused {number}");
            ExitCode::FAILURE
        }
    }
}
