//! The vectors of the line program, `tests/vectors`, by the library: each line
//! that is a frame must be answered as the vector says.

use std::fs;
use std::path::{Path, PathBuf};

use eikelzwier::{Bus, ANSWER_LEN, MAX_FRAME};

/// The frame of a line. `None` if the line program refuses the line itself.
fn frame(line: &str) -> Option<Vec<u8>> {
    let good = |c: u8| c.is_ascii_digit() || (b'a'..=b'f').contains(&c);
    let digits = line.strip_suffix('\n')?;
    if digits.len() % 2 != 0 || digits.len() > 2 * MAX_FRAME || !digits.bytes().all(good) {
        return None;
    }
    (0..digits.len() / 2)
        .map(|n| u8::from_str_radix(&digits[2 * n..2 * n + 2], 16).ok())
        .collect()
}

/// Runs a script; how many of its lines were frames.
fn run(script: &Path) -> usize {
    let name = script.display();
    let read = |path: &Path| {
        let bytes = fs::read(path).unwrap_or_else(|error| panic!("{}: {error}", path.display()));
        // Bytes that are no UTF-8 are no digits either.
        String::from_utf8_lossy(&bytes).into_owned()
    };
    let (input, expected) = (read(script), read(&script.with_extension("out")));
    let mut expected = expected.lines();
    let mut bus = Bus::new();
    let mut answer = [0; ANSWER_LEN];
    let mut frames = 0;
    for (line, number) in input.split_inclusive('\n').zip(1..) {
        let written: String = match frame(line) {
            Some(frame) => {
                frames += 1;
                let outcome = bus.command(&frame, &mut answer);
                let hex = |byte: &u8| format!("{byte:02x}");
                answer[..outcome.len].iter().map(hex).collect()
            }
            None => "16".into(),
        };
        assert_eq!(expected.next(), Some(&written[..]), "{name}, line {number}");
    }
    assert_eq!(expected.next(), None, "{name}");
    frames
}

#[test]
fn vectors() {
    let folder = Path::new(env!("CARGO_MANIFEST_DIR")).join("../../tests/vectors");
    let (mut scripts, mut frames) = (0, 0);
    for part in ["rules", "random"] {
        let entries = fs::read_dir(folder.join(part)).expect("there are vectors");
        let paths = entries.map(|entry| entry.expect("a folder's entry").path());
        for path in paths.filter(|path: &PathBuf| path.extension().is_some_and(|e| e == "in")) {
            frames += run(&path);
            scripts += 1;
        }
    }
    println!("{scripts} scripts, {frames} frames");
    assert!(scripts > 0 && frames > 0);
}
