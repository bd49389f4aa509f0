//! Runs random schedules and bad tables through the library and the peer, and compares all that a call leaves after every call.

mod pair;
mod random;
mod rounds;
mod tables;
mod tally;

use random::Random;
use std::process::ExitCode;
use tally::Tally;

/// The next number on the command line, or what stands for it.
fn number(args: &mut impl Iterator<Item = String>, otherwise: u64) -> u64 {
    args.next()
        .and_then(|word| word.parse().ok())
        .unwrap_or(otherwise)
}

fn main() -> ExitCode {
    let mut args = std::env::args().skip(1);
    let steps = number(&mut args, 10_000_000);
    let seed = number(&mut args, 2006);
    let mut random = Random::new(seed);
    let mut tally = Tally::default();
    while tally.moved < steps {
        rounds::schedule(&mut random, &mut tally, false);
        rounds::schedule(&mut random, &mut tally, true);
        for _ in 0..40 {
            tables::bad_tables(&mut random, &mut tally);
        }
    }
    tally.print();
    if tally.differences == 0 {
        ExitCode::SUCCESS
    } else {
        ExitCode::FAILURE
    }
}
