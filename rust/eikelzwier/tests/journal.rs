//! Journals of random scripts, cut at every byte and recovered, by the library
//! and by the bus in ordinary Rust: what is found must be the same, and the
//! library's bus, to the byte, the one after as many commands as LFs were kept.
//!
//! The seed is fresh and printed; `SEED=n` repeats a run. `JOURNALS=n` says how
//! many journals, 12 without it.

use std::io::Write;
use std::time::{SystemTime, UNIX_EPOCH};

use eikelzwier::{Bus, Journal, Recovered, ANSWER_LEN};
use reference::journal;
use reference::script::{Generator, Profile, Random};
use reference::Peer;

fn variable(name: &str) -> Option<u64> {
    let value = std::env::var(name).ok()?;
    Some(value.parse().expect("a number"))
}

fn unhex(line: &[u8]) -> Option<Vec<u8>> {
    let digit = |c: u8| match c {
        b'0'..=b'9' => Some(c - b'0'),
        b'a'..=b'f' => Some(c - b'a' + 10),
        _ => None,
    };
    line.chunks(2)
        .map(|pair| match pair {
            [high, low] => Some(16 * digit(*high)? + digit(*low)?),
            _ => None,
        })
        .collect()
}

/// The frames of a random script.
fn frames(seed: u64, lines: usize, profile: Profile) -> Vec<Vec<u8>> {
    let mut generator = Generator::new(seed, lines, profile);
    let mut line = Vec::new();
    (0..lines)
        .filter_map(|_| {
            line.clear();
            generator.line(&mut line);
            unhex(&line[..line.len() - 1])
        })
        .collect()
}

/// Both buses, each with a journal.
#[derive(Clone)]
struct Pair {
    library: Bus,
    reference: reference::Bus,
    journals: [Vec<u8>; 2],
    used: usize,
}

impl Pair {
    fn fresh(length: usize) -> Pair {
        Pair {
            library: Bus::new(),
            reference: reference::Bus::new(),
            journals: [vec![0xff; length], vec![0xff; length]],
            used: 0,
        }
    }

    /// One command with the journal to both; the number.
    fn keep(&mut self, frame: &[u8]) -> u8 {
        let (mut ours, mut theirs) = ([0xee; ANSWER_LEN], [0xee; ANSWER_LEN]);
        let [journal, other] = &mut self.journals;
        let mut journal = Journal::resumed(journal, self.used).expect("it has so many");
        let outcome = self
            .library
            .command_with_journal(frame, &mut ours, &mut journal);
        let report = self
            .reference
            .command_with_journal(frame, &mut theirs, other, self.used);
        let told = (outcome.number, outcome.len, journal.used());
        assert_eq!(told, (report.number, report.len, report.used));
        assert!(ours == theirs, "the answers differ");
        self.used = report.used;
        outcome.number
    }

    /// One command without it to both; the number.
    fn ask(&mut self, frame: &[u8]) -> u8 {
        let (mut ours, mut theirs) = ([0xee; ANSWER_LEN], [0xee; ANSWER_LEN]);
        let outcome = self.library.command(frame, &mut ours);
        let report = self.reference.command(frame, &mut theirs);
        assert_eq!((outcome.number, outcome.len), (report.number, report.len));
        assert!(ours == theirs, "the answers differ");
        outcome.number
    }

    /// Every question, every seed, and then everything that is queued.
    fn look(mut self) {
        for peer in Peer::all() {
            for user in 0..4 {
                self.ask(&[0x09, peer.number(), user]);
            }
            for view in self.reference.handles(peer) {
                let mut frame = vec![0x0a, peer.number()];
                frame.extend(view.id.to_bytes());
                self.ask(&frame);
            }
        }
        for peer in Peer::all() {
            self.ask(&[0x0c, peer.number(), 0xff, 0xff]);
            while self.ask(&[0x08, peer.number(), 0xff, 0xff]) == 0 {}
        }
    }
}

/// What both make of the bytes kept; the buses are compared by the caller.
fn recover(library: &mut Bus, kept: &[u8]) -> Option<journal::Found> {
    let ours = library.recover(kept);
    match (ours, journal::recover(kept)) {
        (Ok(ours), Ok(theirs)) => {
            assert_eq!((ours.lines, ours.used), (theirs.lines, theirs.used));
            Some(theirs)
        }
        (Err(ours), Err(theirs)) => {
            assert_eq!((ours.line, ours.place), (theirs.line, theirs.place));
            assert!(*library == Bus::new(), "a stop leaves a fresh bus");
            None
        }
        (ours, theirs) => panic!("{ours:?}, but {:?}", theirs.map(|found| found.lines)),
    }
}

#[derive(Default, Debug)]
struct Tally {
    journals: usize,
    commands: usize,
    kept: usize,
    full: usize,
    cuts: usize,
    went_on: usize,
    damaged: usize,
    stopped: usize,
}

/// A run with a journal: the pair before and after each command that was kept,
/// and the place in the script behind it.
fn run(script: &[Vec<u8>], length: usize, tally: &mut Tally) -> (Pair, Vec<(Pair, usize)>) {
    let mut pair = Pair::fresh(length);
    let mut after = vec![(pair.clone(), 0)];
    for (at, frame) in script.iter().enumerate() {
        let used = pair.used;
        let before = pair.library.clone();
        let number = pair.keep(frame);
        tally.commands += 1;
        tally.full += usize::from(number == 27);
        if pair.used == used {
            assert!(pair.library == before, "what is not kept changes nothing");
            continue;
        }
        after.push((pair.clone(), at + 1));
        tally.kept += 1;
    }
    let [ours, theirs] = &pair.journals;
    assert!(ours == theirs, "the journals differ");
    assert!(ours[pair.used..].iter().all(|b| *b == 0xff));
    (pair, after)
}

/// The journal of a run cut at every byte, with any bytes but LF behind it.
fn cut(end: &Pair, after: &[(Pair, usize)], random: &mut Random, tally: &mut Tally) {
    let whole = &end.journals[0][..end.used];
    // A bus in use: recovery begins on a fresh one, whatever it is given.
    let mut library = end.library.clone();
    let mut lines = 0;
    for place in 0..=whole.len() {
        lines += usize::from(place > 0 && whole[place - 1] == b'\n');
        let mut kept = whole[..place].to_vec();
        match place % 4 {
            1 => kept.extend([0xff; 17]),
            2 => kept.push(b'0'),
            3 => kept.extend((0..random.below(40)).map(|_| 11 + random.below(245) as u8)),
            _ => {}
        }
        let found = recover(&mut library, &kept).expect("no line is refused");
        let (pair, _) = &after[lines];
        assert_eq!(
            (found.lines, found.used),
            (lines, pair.used),
            "cut at {place}"
        );
        assert!(library == pair.library, "cut at {place}: another bus");
        tally.cuts += 1;
    }
}

/// On from the end of each line with the rest of the script, to the same end.
fn go_on(script: &[Vec<u8>], end: &Pair, after: &[(Pair, usize)], tally: &mut Tally) {
    for (pair, place) in after {
        let mut again = end.clone();
        let kept = pair.journals[0][..pair.used].to_vec();
        let found = recover(&mut again.library, &kept).expect("no line is refused");
        again.reference = found.bus;
        again.used = found.used;
        for journal in &mut again.journals {
            journal.fill(0xff);
            journal[..kept.len()].copy_from_slice(&kept);
        }
        again.clone().look();
        for frame in &script[*place..] {
            again.keep(frame);
        }
        assert_eq!(again.used, end.used);
        assert!(again.journals == end.journals, "another journal at the end");
        assert!(again.library == end.library, "another bus at the end");
        tally.went_on += 1;
    }
}

/// The lines before the one that stops a recovery are a journal by themselves.
fn before_the_stop(library: &mut Bus, kept: &[u8]) {
    let stop = library.recover(kept).expect_err("it stopped before");
    let good = kept
        .split_inclusive(|c| *c == b'\n')
        .take(stop.line - 1)
        .map(<[u8]>::len)
        .sum();
    let found = recover(library, &kept[..good]).expect("they were carried out");
    assert_eq!((found.lines, found.used), (stop.line - 1, good));
}

/// The journal with something changed in it.
fn damage(end: &Pair, random: &mut Random, tally: &mut Tally) {
    let whole = &end.journals[0][..end.used];
    let mut library = end.library.clone();
    for _ in 0..200 {
        let mut kept = whole.to_vec();
        for _ in 0..1 + random.below(3) {
            let at = random.below(kept.len() + 1);
            let start = kept[..at]
                .iter()
                .rposition(|c| *c == b'\n')
                .map_or(0, |n| n + 1);
            match random.below(8) {
                0 => kept.insert(at, b'\n'),
                1 if at < kept.len() => drop(kept.remove(at)),
                2 if at < kept.len() => kept[at] ^= 1 << random.below(8),
                3 if at < kept.len() => kept[at] = random.draw() as u8,
                4 => drop(kept.splice(start..start, *b"090000\n")),
                5 => drop(kept.splice(start..start, whole[..whole.len().min(21)].to_vec())),
                6 => drop(kept.splice(start..start, vec![b'0'; 1290 + random.below(6)])),
                _ => kept.truncate(at),
            }
        }
        tally.damaged += 1;
        match recover(&mut library, &kept) {
            None => {
                tally.stopped += 1;
                before_the_stop(&mut library, &kept);
            }
            Some(found) => Pair {
                library: library.clone(),
                reference: found.bus,
                journals: [Vec::new(), Vec::new()],
                used: 0,
            }
            .look(),
        }
    }
}

#[test]
fn every_byte() {
    let seed = variable("SEED").unwrap_or_else(|| {
        let now = SystemTime::now().duration_since(UNIX_EPOCH);
        now.map_or(1, |time| time.as_nanos() as u64)
    });
    let journals = variable("JOURNALS").unwrap_or(12);
    // Straight to standard error: cargo hides what a passing test prints.
    writeln!(std::io::stderr(), "seed {seed}").expect("standard error");
    let mut random = Random::new(seed);
    let mut tally = Tally::default();
    for number in 0..journals {
        let profile = Profile::ALL[number as usize % Profile::ALL.len()];
        let script = frames(random.draw(), 40 + random.below(120), profile);
        let length = match random.below(8) {
            0 => random.below(300),
            _ => 1500 + random.below(4500),
        };
        let (end, after) = run(&script, length, &mut tally);
        cut(&end, &after, &mut random, &mut tally);
        go_on(&script, &end, &after, &mut tally);
        damage(&end, &mut random, &mut tally);
        tally.journals += 1;
    }
    writeln!(std::io::stderr(), "{tally:?}").expect("standard error");
    assert!(tally.cuts > tally.kept && tally.stopped > 0 && tally.stopped < tally.damaged);
}

/// Script S of the README with a journal: the used lengths, and 27 in the
/// place of the receive where its line has no room.
#[test]
fn script_s() {
    let script = [
        "010000",
        "010101",
        "03000000000000000008",
        "0600000000000000000801",
        "070101000001000000000000000733",
        "08000001",
        "08000001",
    ]
    .map(|line| unhex(line.as_bytes()).expect("hexadecimal"));
    let numbers = |length: usize| {
        let mut pair = Pair::fresh(length);
        let told = script.clone().map(|frame| (pair.keep(&frame), pair.used));
        (told, pair)
    };
    let ends = [7, 14, 35, 58, 89, 98];
    let (told, pair) = numbers(200);
    assert_eq!(told.map(|(_, used)| used)[..6], ends);
    assert_eq!(told[6], (11, 98));
    let mut bus = Bus::new();
    let kept = &pair.journals[0][..60];
    assert_eq!(bus.recover(kept), Ok(Recovered { lines: 4, used: 58 }));
    let (told, mut pair) = numbers(97);
    assert_eq!(told[5], (27, 89));
    assert_eq!(told[6], (27, 89), "the message is still there");
    assert_eq!(pair.ask(&script[5]), 0);
}

/// The version is the header's, by which a journal is told from one of other
/// rules.
#[test]
fn version() {
    let header = concat!(env!("CARGO_MANIFEST_DIR"), "/../../include/eikelzwier.h");
    let header = std::fs::read_to_string(header).expect("the header");
    let line = format!("#define EZ_VERSION \"{}\"", env!("CARGO_PKG_VERSION"));
    assert!(header.lines().any(|l| l == line), "{line}");
}
