//! `bench [ROUNDS]` times the reference library, frames in memory, no I/O, and
//! prints nanoseconds a command for each case. `bench write CASE` writes a case
//! as a script for the line program.

use std::io::{self, BufWriter, Write};
use std::process::ExitCode;

use reference::bench::{measure, Core, Reference, Script};

fn write(script: &Script) -> io::Result<()> {
    let mut out = BufWriter::new(io::stdout().lock());
    for frame in script.frames() {
        for byte in frame {
            write!(out, "{byte:02x}")?;
        }
        out.write_all(b"\n")?;
    }
    out.flush()
}

/// Times every core on every script. Another core is added to the list.
fn time(rounds: usize) -> Result<(), String> {
    let mut reference = Reference::default();
    let mut cores: [(&str, &mut dyn Core); 1] = [("reference", &mut reference)];

    println!("Nanoseconds a command: median of {rounds} runs, best run, and each block of");
    println!("commands in its fastest run (quiet). Every run starts from a fresh bus.");
    print!("{:4} {:66} {:>8}", "case", "", "commands");
    for (name, _) in &cores {
        print!("  {name:>16} {:>7} {:>7}", "best", "quiet");
    }
    println!();
    for (case, script) in Script::all().iter().enumerate() {
        let mut timed: Vec<&mut dyn Core> = Vec::new();
        for (_, core) in &mut cores {
            timed.push(*core);
        }
        let times = measure(&mut timed, script, rounds)?;
        print!("{case:4} {:66} {:8}", script.name, script.timed());
        for time in &times {
            print!(
                "  {:16.1} {:7.1} {:7.1}",
                time.median, time.best, time.quiet
            );
        }
        for time in &times[1..] {
            let (median, quiet) = (time.median / times[0].median, time.quiet / times[0].quiet);
            print!("  ratio {median:.2}, quiet {quiet:.2}");
        }
        println!();
    }
    Ok(())
}

fn main() -> ExitCode {
    let arguments: Vec<String> = std::env::args().skip(1).collect();
    let done = match &arguments[..] {
        [] => time(7),
        [word, case] if word == "write" => {
            let case = case.parse().ok().and_then(|n: usize| {
                let mut scripts = Script::all();
                (n < scripts.len()).then(|| scripts.swap_remove(n))
            });
            match case {
                Some(script) => write(&script).map_err(|error| error.to_string()),
                None => Err("no such case".into()),
            }
        }
        [rounds] if rounds.parse().is_ok_and(|n: usize| n > 0) => time(rounds.parse().unwrap_or(1)),
        _ => Err("usage: bench [ROUNDS] | bench write CASE".into()),
    };
    match done {
        Ok(()) => ExitCode::SUCCESS,
        Err(error) => {
            eprintln!("bench: {error}");
            ExitCode::FAILURE
        }
    }
}
