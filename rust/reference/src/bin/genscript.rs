//! `genscript SEED LINES PROFILE` writes a random script for the line program.

use std::io::{self, Write};
use std::process::ExitCode;

use reference::script::{Generator, Profile};

fn arguments() -> Option<(u64, usize, Profile)> {
    let mut arguments = std::env::args().skip(1);
    let seed = arguments.next()?.parse().ok()?;
    let lines = arguments.next()?.parse().ok()?;
    let profile = Profile::from_name(&arguments.next()?)?;
    arguments.next().is_none().then_some((seed, lines, profile))
}

fn main() -> ExitCode {
    let Some((seed, lines, profile)) = arguments() else {
        let names = Profile::ALL.map(Profile::name).join(" | ");
        eprintln!("usage: genscript SEED LINES PROFILE, PROFILE one of {names}");
        return ExitCode::from(2);
    };
    let script = Generator::new(seed, lines, profile).script();
    match io::stdout().lock().write_all(&script) {
        Ok(()) => ExitCode::SUCCESS,
        Err(error) => {
            eprintln!("genscript: {error}");
            ExitCode::FAILURE
        }
    }
}
