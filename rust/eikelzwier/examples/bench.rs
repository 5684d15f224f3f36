//! `bench [ROUNDS]` times the library beside the bus in ordinary Rust, in one
//! run: frames in memory, no input or output. Both give the same answers and
//! refuse nothing, which is tested before the clock runs.

use std::process::ExitCode;

use eikelzwier::{Bus, ANSWER_LEN};
use reference::bench::{measure, Core, Reference, Script};

/// The library as a core to be timed.
struct Library(Bus);

impl Core for Library {
    fn reset(&mut self) {
        self.0.reset();
    }

    #[inline]
    fn command(&mut self, frame: &[u8], answer: &mut [u8; ANSWER_LEN]) -> (u8, usize) {
        let outcome = self.0.command(frame, answer);
        (outcome.number, outcome.len)
    }
}

/// Times both on every script.
fn time(rounds: usize) -> Result<(), String> {
    let mut reference = Reference::default();
    let mut library = Library(Bus::new());

    println!("Milliseconds for all commands of a case, and nanoseconds a command, the");
    println!("median of {rounds} runs; the ratio of the medians, and of the sums over blocks");
    println!("of commands, each in its fastest run (quiet). Every run starts from a fresh");
    println!("bus; making it, in cleared buffers, is not timed.");
    println!(
        "{:66} {:>8}  {:>10} {:>7}  {:>10} {:>7}  {:>5} {:>6}",
        "case", "commands", "reference", "ns", "library", "ns", "ratio", "quiet"
    );
    for script in &Script::all() {
        let times = measure(&mut [&mut reference, &mut library], script, rounds)?;
        let [theirs, ours] = times[..] else {
            return Err("not two times".into());
        };
        let commands = script.timed() as f64;
        println!(
            "{:66} {:8}  {:10.1} {:7.1}  {:10.1} {:7.1}  {:5.2} {:6.2}",
            script.name,
            script.timed(),
            theirs.median * commands / 1e6,
            theirs.median,
            ours.median * commands / 1e6,
            ours.median,
            ours.median / theirs.median,
            ours.quiet / theirs.quiet
        );
    }
    Ok(())
}

fn main() -> ExitCode {
    let arguments: Vec<String> = std::env::args().skip(1).collect();
    let rounds = match &arguments[..] {
        [] => Some(7),
        [rounds] => rounds.parse().ok().filter(|n| *n > 0),
        _ => None,
    };
    let Some(rounds) = rounds else {
        eprintln!("usage: bench [ROUNDS]");
        return ExitCode::from(2);
    };
    match time(rounds) {
        Ok(()) => ExitCode::SUCCESS,
        Err(error) => {
            eprintln!("bench: {error}");
            ExitCode::FAILURE
        }
    }
}
