//! `differ COUNT SEED` gives COUNT random commands to the library and to the
//! bus in ordinary Rust and stops at the first difference. `differ 60s SEED`
//! goes on for 60 seconds.

#[path = "../tests/compare/mod.rs"]
mod compare;

use std::process::ExitCode;
use std::time::{Duration, Instant};

use compare::compare;

/// When to stop.
enum Until {
    Commands(u64),
    Time(Duration),
}

fn arguments() -> Option<(Until, u64)> {
    let mut arguments = std::env::args().skip(1);
    let until = arguments.next()?;
    let until = match until.strip_suffix('s') {
        Some(seconds) => Until::Time(Duration::from_secs(seconds.parse().ok()?)),
        None => Until::Commands(until.parse().ok()?),
    };
    let seed = arguments.next()?.parse().ok()?;
    arguments.next().is_none().then_some((until, seed))
}

fn main() -> ExitCode {
    let Some((until, seed)) = arguments() else {
        eprintln!("usage: differ COUNT SEED | differ SECONDSs SEED");
        return ExitCode::from(2);
    };
    let start = Instant::now();
    let mut said = 0;
    let done = compare(seed, |tally| {
        if tally.commands >= said + 10_000_000 {
            said = tally.commands;
            eprintln!("{said} commands");
        }
        match until {
            Until::Commands(count) => tally.commands >= count,
            Until::Time(time) => start.elapsed() >= time,
        }
    });
    match done {
        Ok(tally) => {
            println!("seed {seed}: no difference in {tally}");
            ExitCode::SUCCESS
        }
        Err(difference) => {
            println!("seed {seed}: {difference}");
            ExitCode::FAILURE
        }
    }
}
