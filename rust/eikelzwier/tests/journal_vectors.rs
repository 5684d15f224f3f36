//! The vectors of the journal, `tests/vectors-journal`, on the library and on
//! the bus in ordinary Rust. Its README.md says how they are written.

use std::fs;
use std::path::Path;
use std::str::SplitWhitespace;

use eikelzwier::{bus_buffers, bus_call, raw, Bus, Stopped, ANSWER_LEN};
use reference::journal;

/// The place that the line reader told. Where a vector says none, none is
/// compared: before change request 7 they say none.
type Place = Option<usize>;

/// A bus with a journal, of which any used length may be told.
trait Kept {
    fn with_journal(
        &mut self,
        frame: &[u8],
        journal: &mut [u8],
        used: usize,
    ) -> (u8, Vec<u8>, usize);
    fn alone(&mut self, frame: &[u8]) -> (u8, Vec<u8>);
    /// The used length, or the line and the place.
    fn recovered(&mut self, kept: &[u8]) -> Result<usize, (usize, Place)>;
}

macro_rules! tables {
    ([$($name:ident: [$element:ty; $len:expr], $constant:ident;)*]) => {
        /// The library's bus in buffers of this test's, for the raw functions.
        struct Tables {
            $($name: Vec<$element>,)*
        }

        impl Tables {
            fn new() -> Tables {
                let mut tables = Tables {
                    $($name: vec![0xaa; raw::$constant],)*
                };
                assert_eq!(tables.recovered(b""), Ok(0));
                tables
            }
        }
    };
}
bus_buffers!(tables);

impl Kept for Tables {
    fn with_journal(
        &mut self,
        frame: &[u8],
        journal: &mut [u8],
        used: usize,
    ) -> (u8, Vec<u8>, usize) {
        let mut answer = [0; ANSWER_LEN];
        // Safety: pointers and lengths are those of vectors and slices.
        let report = unsafe {
            bus_call!(
                raw::bus_command_with_journal,
                self,
                frame.as_ptr(),
                frame.len(),
                answer.as_mut_ptr(),
                answer.len(),
                journal.as_mut_ptr(),
                journal.len(),
                used
            )
        };
        (report.number, answer[..report.len].to_vec(), report.used)
    }

    fn alone(&mut self, frame: &[u8]) -> (u8, Vec<u8>) {
        let mut answer = [0; ANSWER_LEN];
        // Safety: pointers and lengths are those of vectors and slices.
        let outcome = unsafe {
            bus_call!(
                raw::bus_command,
                self,
                frame.as_ptr(),
                frame.len(),
                answer.as_mut_ptr(),
                answer.len()
            )
        };
        (outcome.number, answer[..outcome.len].to_vec())
    }

    fn recovered(&mut self, kept: &[u8]) -> Result<usize, (usize, Place)> {
        // Safety: pointers and lengths are those of vectors and slices.
        let r = unsafe { bus_call!(raw::bus_recover, self, kept.as_ptr(), kept.len()) };
        match r.number {
            0 => Ok(r.used),
            _ => {
                assert_eq!((r.number, r.used), (5, 0));
                Err((r.line, (r.place != raw::NO_PLACE).then_some(r.place)))
            }
        }
    }
}

impl Kept for reference::Bus {
    fn with_journal(
        &mut self,
        frame: &[u8],
        journal: &mut [u8],
        used: usize,
    ) -> (u8, Vec<u8>, usize) {
        let mut answer = [0; ANSWER_LEN];
        let report = self.command_with_journal(frame, &mut answer, journal, used);
        (report.number, answer[..report.len].to_vec(), report.used)
    }

    fn alone(&mut self, frame: &[u8]) -> (u8, Vec<u8>) {
        let mut answer = [0; ANSWER_LEN];
        let outcome = self.command(frame, &mut answer);
        (outcome.number, answer[..outcome.len].to_vec())
    }

    fn recovered(&mut self, kept: &[u8]) -> Result<usize, (usize, Place)> {
        match journal::recover(kept) {
            Ok(found) => {
                *self = found.bus;
                Ok(found.used)
            }
            Err(stop) => {
                *self = reference::Bus::new();
                Err((stop.line, stop.place))
            }
        }
    }
}

/// The bytes of a field; `-` is none.
fn unhex(field: &str) -> Vec<u8> {
    if field == "-" {
        return Vec::new();
    }
    assert_eq!(field.len() % 2, 0, "{field}");
    (0..field.len() / 2)
        .map(|n| u8::from_str_radix(&field[2 * n..2 * n + 2], 16).expect("hexadecimal"))
        .collect()
}

/// A number of a field; `-` is none.
fn number(field: &str) -> Option<usize> {
    (field != "-").then(|| field.parse().expect("a number"))
}

/// The lines of a file that say something, with their numbers.
fn lines(file: &str) -> Vec<(usize, String)> {
    let path = Path::new(env!("CARGO_MANIFEST_DIR"))
        .join("../../tests/vectors-journal")
        .join(file);
    let text = fs::read_to_string(&path).unwrap_or_else(|error| panic!("{file}: {error}"));
    (1..)
        .zip(text.lines().map(str::to_owned))
        .filter(|(_, line)| !line.is_empty() && !line.starts_with('#'))
        .collect()
}

fn next<'a>(words: &mut SplitWhitespace<'a>) -> &'a str {
    words.next().expect("another field")
}

/// What a case has come to.
struct Case {
    bus: Box<dyn Kept>,
    journal: Vec<u8>,
    used: usize,
    /// After a recovery commands are given without the journal.
    recovered: bool,
}

impl Case {
    fn new(bus: Box<dyn Kept>) -> Case {
        Case {
            bus,
            journal: Vec::new(),
            used: 0,
            recovered: false,
        }
    }

    /// A command; its number, answer and, with the journal, used length.
    fn command(&mut self, frame: &[u8], expected: &mut SplitWhitespace, name: &str) {
        let before = self.journal.clone();
        let (returned, written, used) = if self.recovered {
            let (returned, written) = self.bus.alone(frame);
            (returned, written, None)
        } else {
            let (returned, written, used) =
                self.bus.with_journal(frame, &mut self.journal, self.used);
            (returned, written, Some(used))
        };
        assert_eq!(
            Some(usize::from(returned)),
            number(next(expected)),
            "{name}"
        );
        assert_eq!(written, unhex(next(expected)), "{name}");
        let Some(used) = used else { return };
        assert_eq!(Some(used), number(next(expected)), "{name}");
        let (front, back) = (self.used.min(before.len()), used.min(before.len()));
        assert_eq!(self.journal[..front], before[..front], "{name}");
        assert_eq!(self.journal[back..], before[back..], "{name}");
        self.used = used;
    }

    /// A recovery; its number, line, place and used length.
    fn recover(&mut self, kept: &[u8], expected: &mut SplitWhitespace, name: &str) {
        self.recovered = true;
        let mut told = || number(next(expected));
        let [returned, line, place, used] = [told(), told(), told(), told()];
        let (found, fault) = match self.bus.recovered(kept) {
            Ok(used) => ((Some(0), None, Some(used)), None),
            Err((line, fault)) => ((Some(5), Some(line), None), fault),
        };
        assert_eq!((returned, line, used), found, "{name}");
        assert!(place.is_none() || place == fault, "{name}");
    }

    /// A line of a file, with what must come of it.
    fn line(&mut self, verb: &str, field: &str, expected: &mut SplitWhitespace, name: &str) {
        match verb {
            "with" => assert_eq!(field, "2", "{name}"),
            "length" => self.journal = vec![b'x'; number(field).expect("a length")],
            "journal" => {
                let bytes = unhex(field);
                self.journal[..bytes.len()].copy_from_slice(&bytes);
            }
            "used" => self.used = number(field).expect("a length"),
            "cmd" => self.command(&unhex(field), expected, name),
            "recover" => self.recover(&unhex(field), expected, name),
            "dump" => {
                let kept = self.journal.get(..self.used).unwrap_or(&[]);
                assert_eq!(kept, unhex(next(expected)), "{name}");
            }
            _ => panic!("{name}: {verb}"),
        }
    }
}

/// Runs a file; the number of its cases and of the answers compared.
fn run(file: &str, new: impl Fn() -> Box<dyn Kept>) -> (usize, usize) {
    let (mut cases, mut compared) = (0, 0);
    let mut case = Case::new(new());
    let mut lines = lines(file).into_iter().peekable();
    while let Some((number, line)) = lines.next() {
        let name = format!("{file}:{number}");
        let (verb, field) = line.split_once(' ').unwrap_or((&line, ""));
        if verb == "case" {
            case = Case::new(new());
            cases += 1;
            continue;
        }
        let answer = lines.next_if(|(_, line)| line.starts_with("-> "));
        let answer = answer.map_or(String::new(), |(_, line)| line[3..].to_owned());
        let mut expected = answer.split_whitespace();
        compared += usize::from(!answer.is_empty());
        case.line(verb, field, &mut expected, &name);
        assert_eq!(expected.next(), None, "{name}");
    }
    (cases, compared)
}

#[test]
fn appending() {
    let library = run("journal.txt", || Box::new(Tables::new()));
    let reference = run("journal.txt", || Box::new(reference::Bus::new()));
    println!("journal.txt: cases, answers: {library:?}");
    assert_eq!(library, reference);
    assert!(library.0 >= 14 && library.1 >= 120);
}

#[test]
fn recovering() {
    let library = run("recover.txt", || Box::new(Tables::new()));
    let reference = run("recover.txt", || Box::new(reference::Bus::new()));
    println!("recover.txt: cases, answers: {library:?}");
    assert_eq!(library, reference);
    assert!(library.0 >= 40 && library.1 >= 690);
}

/// The wrapper tells a stop as the raw function does.
#[test]
fn stopped() {
    let mut bus = Bus::new();
    let stop = |line, place| Err(Stopped { line, place });
    assert_eq!(bus.recover(b"010000\n010000\n"), stop(2, None));
    assert_eq!(bus.recover(b"010000\n090000\n"), stop(2, None));
    assert_eq!(bus.recover(b"\n"), stop(1, None));
    assert_eq!(bus.recover(b"0100g0\n"), stop(1, Some(4)));
    assert_eq!(bus.recover(b"010\n"), stop(1, Some(3)));
    assert_eq!(
        bus.recover(&[b"010000\n", &[b'0'; 1294][..], b"\n"].concat()),
        stop(2, Some(1292))
    );
    assert!(bus == Bus::new());
}
