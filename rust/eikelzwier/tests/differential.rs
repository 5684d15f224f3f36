//! The library against the bus in ordinary Rust, 1.2 million random commands.
//! The seed is fresh and printed; `SEED=n` repeats a run.

mod compare;

use std::io::Write;
use std::time::{SystemTime, UNIX_EPOCH};

use compare::compare;

#[test]
fn same_answers_as_the_reference() {
    let seed = match std::env::var("SEED") {
        Ok(seed) => seed.parse().expect("SEED is a number"),
        Err(_) => SystemTime::now()
            .duration_since(UNIX_EPOCH)
            .map_or(1, |time| time.as_nanos() as u64),
    };
    // Straight to standard error: cargo hides what a passing test prints.
    writeln!(std::io::stderr(), "seed {seed}").expect("standard error");
    match compare(seed, |tally| tally.commands >= 1_200_000) {
        Ok(tally) => {
            writeln!(std::io::stderr(), "{tally}").expect("standard error");
            assert!(tally.commands >= 1_000_000);
            // Every refusal but 5 and 75, which no such script can reach.
            for number in [0, 1, 6, 9, 11, 17, 22, 25, 28, 34, 90, 108, 113, 122] {
                assert!(tally.numbers[number] > 0, "seed {seed}: never {number}");
            }
        }
        Err(difference) => panic!("seed {seed}: {difference}"),
    }
}
