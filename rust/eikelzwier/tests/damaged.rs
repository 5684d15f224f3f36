//! The raw functions on buffers of wrong lengths, with numbers out of their
//! ranges, and with random contents. Every buffer stands between guard
//! elements, which no call may change.

use std::fmt::Debug;

use eikelzwier::raw::{self, BusOutcome, BusRecovery, BusReport};
use eikelzwier::{bus_buffers, bus_call, ANSWER_LEN};
use reference::script::Random;

const GUARD: usize = 16;

/// An element of a buffer.
trait Element: Copy + PartialEq + Debug {
    /// What stands around a buffer.
    const GUARD: Self;

    /// The low bits of a number.
    fn of(number: u64) -> Self;
}

macro_rules! element {
    ($element:ty) => {
        impl Element for $element {
            const GUARD: $element = 0xa5a5_a5a5_a5a5_a5a5_u64 as $element;

            fn of(number: u64) -> $element {
                number as $element
            }
        }
    };
}
element!(u64);
element!(u16);
element!(u8);

/// A buffer between guard elements.
#[derive(Clone, PartialEq, Debug)]
struct Buffer<T>(Vec<T>);

impl<T: Element> Buffer<T> {
    fn new(len: usize, mut draw: impl FnMut() -> T) -> Buffer<T> {
        let mut all = vec![T::GUARD; len + 2 * GUARD];
        all[GUARD..GUARD + len].fill_with(&mut draw);
        Buffer(all)
    }

    fn len(&self) -> usize {
        self.0.len() - 2 * GUARD
    }

    fn get(&mut self) -> &mut [T] {
        let end = self.0.len() - GUARD;
        &mut self.0[GUARD..end]
    }

    fn as_mut_ptr(&mut self) -> *mut T {
        self.get().as_mut_ptr()
    }

    fn check(&self) {
        let (front, back) = (&self.0[..GUARD], &self.0[self.0.len() - GUARD..]);
        assert!(front.iter().chain(back).all(|x| *x == T::GUARD), "guards");
    }
}

macro_rules! tables {
    ([$($name:ident: [$element:ty; $len:expr], $constant:ident;)*]) => {
        /// The bus buffers.
        #[derive(Clone, PartialEq, Debug)]
        struct Tables {
            $($name: Buffer<$element>,)*
        }

        const NAMES: &[&str] = &[$(stringify!($name)),*];

        const LENGTHS: [usize; NAMES.len()] = [$(raw::$constant),*];

        impl Tables {
            /// Tables of these lengths with the numbers that are drawn.
            fn drawn(lengths: [usize; NAMES.len()], mut draw: impl FnMut() -> u64) -> Tables {
                let mut lengths = lengths.into_iter();
                Tables {
                    $($name: Buffer::new(lengths.next().expect("as many"), || Element::of(draw())),)*
                }
            }

            fn check(&self) {
                $(self.$name.check();)*
            }
        }
    };
}
bus_buffers!(tables);

impl Tables {
    /// Tables of these lengths with numbers of at most `most`.
    fn new(lengths: [usize; NAMES.len()], most: u64, random: &mut Random) -> Tables {
        Tables::drawn(lengths, || match most {
            u64::MAX => random.draw(),
            _ => random.draw() % (most + 1),
        })
    }

    fn fresh(&mut self) -> u8 {
        // Safety: pointers and lengths are those of the tables' vectors.
        let number = unsafe { bus_call!(raw::bus_fresh, self) };
        self.check();
        number
    }

    /// One command, and what holds of every one.
    fn command(&mut self, frame: &[u8], answer_len: usize) -> (BusOutcome, Vec<u8>) {
        let before = self.clone();
        let mut answer = Buffer::new(answer_len, || 0xeeu8);
        // Safety: pointers and lengths are those of vectors and a slice.
        let outcome = unsafe {
            bus_call!(
                raw::bus_command,
                self,
                frame.as_ptr(),
                frame.len(),
                answer.as_mut_ptr(),
                answer.len(),
            )
        };
        self.check();
        answer.check();
        let answer = answer.get();
        assert!(outcome.len <= ANSWER_LEN);
        assert!(answer[outcome.len..].iter().all(|b| *b == 0xee));
        if answer_len < ANSWER_LEN {
            assert_eq!(outcome, BusOutcome { number: 22, len: 0 });
        } else {
            assert_eq!(answer[0], outcome.number);
        }
        if outcome.number != 0 {
            assert!(outcome.len <= 1);
            assert!(*self == before, "a refusal changed the bus");
        }
        (outcome, answer[..outcome.len].to_vec())
    }

    /// One command with a journal, and the answer buffer behind it.
    fn journal_call(
        &mut self,
        frame: &[u8],
        answer_len: usize,
        journal: &mut [u8],
        used: usize,
    ) -> (BusReport, Vec<u8>) {
        let mut bytes = journal.iter().copied();
        let mut lent = Buffer::new(journal.len(), || bytes.next().expect("as many"));
        let mut answer = Buffer::new(answer_len, || 0xeeu8);
        // Safety: pointers and lengths are those of vectors and a slice.
        let report = unsafe {
            bus_call!(
                raw::bus_command_with_journal,
                self,
                frame.as_ptr(),
                frame.len(),
                answer.as_mut_ptr(),
                answer.len(),
                lent.as_mut_ptr(),
                lent.len(),
                used,
            )
        };
        self.check();
        answer.check();
        lent.check();
        journal.copy_from_slice(lent.get());
        (report, answer.get().to_vec())
    }

    /// The same, and what holds of every one: it is the command without a
    /// journal, but for 27 and for the used length's 5; it is kept exactly where
    /// it is accepted and no question; and no byte but the line's is written.
    fn keep(
        &mut self,
        frame: &[u8],
        answer_len: usize,
        journal: &mut [u8],
        used: usize,
    ) -> BusReport {
        let (tables, lines) = (self.clone(), journal.to_vec());
        let mut without = self.clone();
        let (outcome, expected) = without.command(frame, answer_len);
        let (report, answer) = self.journal_call(frame, answer_len, journal, used);
        let line = line_of(frame);
        let counts = outcome.number == 0 && !matches!(frame[0], 0x09 | 0x0a);
        let roomy = used <= lines.len() && line.len() <= lines.len() - used;
        let (number, len, after) = match (answer_len < ANSWER_LEN, used > lines.len()) {
            (true, _) => (22, 0, used),
            (false, true) => (5, 1, used),
            _ if counts && !roomy => (27, 1, used),
            _ if counts => (0, outcome.len, used + line.len()),
            _ => (outcome.number, outcome.len, used),
        };
        assert_eq!(
            (report.number, report.len, report.used),
            (number, len, after)
        );
        assert!(answer[len..].iter().all(|b| *b == 0xee));
        if (number, len) == (outcome.number, outcome.len) {
            assert!(*self == without && answer[..len] == expected);
        } else {
            assert!(*self == tables, "a refusal changed the bus");
            assert_eq!(answer[..len], [number][..len]);
        }
        let mut kept = lines;
        if after > used {
            kept[used..after].copy_from_slice(&line);
        }
        assert!(
            *journal == kept[..],
            "another byte of the journal was written"
        );
        report
    }

    fn recover(&mut self, kept: &[u8]) -> BusRecovery {
        // Safety: pointers and lengths are those of vectors and a slice.
        let recovery = unsafe { bus_call!(raw::bus_recover, self, kept.as_ptr(), kept.len(),) };
        self.check();
        recovery
    }
}

/// The line of a frame.
fn line_of(frame: &[u8]) -> Vec<u8> {
    let digits = frame.iter().map(|byte| format!("{byte:02x}"));
    (digits.collect::<String>() + "\n").into_bytes()
}

const OPEN: [u8; 3] = [0x01, 0, 0];
const EIO: BusOutcome = BusOutcome { number: 5, len: 1 };

/// A bus in use: two open peers, a node that both hold, a queued message, a seed.
fn in_use() -> Tables {
    let mut tables = Tables::new(LENGTHS, u64::MAX, &mut Random::new(1));
    assert_eq!(tables.fresh(), 0);
    let frames: [&[u8]; 6] = [
        &OPEN,
        &[0x01, 1, 1],
        &[0x03, 0, 0, 0, 0, 0, 0, 0, 0, 8],
        &[0x06, 0, 0, 0, 0, 0, 0, 0, 0, 8, 1],
        &[0x07, 1, 1, 0, 0, 1, 0, 0, 0, 0, 0, 0, 0, 7, 0x33],
        &[0x07, 1, 0, 1, 0, 1, 0, 0, 0, 0, 0, 0, 0, 7, 0x5a],
    ];
    for frame in frames {
        assert_eq!(tables.command(frame, ANSWER_LEN).0.number, 0);
    }
    tables
}

#[test]
fn fresh_over_any_contents() {
    let mut random = Random::new(2);
    let mut first = Tables::new(LENGTHS, u64::MAX, &mut random);
    let mut second = Tables::new(LENGTHS, 3, &mut random);
    assert_eq!((first.fresh(), second.fresh()), (0, 0));
    assert!(first == second);
}

#[test]
fn wrong_lengths() {
    let mut random = Random::new(3);
    for (table, name) in NAMES.iter().enumerate() {
        for len in [LENGTHS[table] - 1, LENGTHS[table] + 1, 0] {
            for most in [u64::MAX, 0] {
                let mut lengths = LENGTHS;
                lengths[table] = len;
                let mut tables = Tables::new(lengths, most, &mut random);
                let before = tables.clone();
                assert_eq!(tables.fresh(), 5, "{name} of {len}");
                assert!(tables == before, "{name} of {len}: written");
                for frame in [&OPEN[..], &[], &[0xff]] {
                    let (outcome, answer) = tables.command(frame, ANSWER_LEN);
                    assert_eq!((outcome, &answer[..]), (EIO, &[5][..]));
                    // The answer buffer comes first.
                    let (outcome, _) = tables.command(frame, ANSWER_LEN - 1);
                    assert_eq!(outcome, BusOutcome { number: 22, len: 0 });
                }
                let mut journal = [0xff; 40];
                for used in [0, 40, 41] {
                    assert_eq!(tables.keep(&OPEN, ANSWER_LEN, &mut journal, used).number, 5);
                }
                let unfit = BusRecovery {
                    number: 5,
                    line: 0,
                    place: raw::NO_PLACE,
                    used: 0,
                };
                for kept in [&b""[..], b"010000\n", b"010000\n010000\n"] {
                    assert_eq!(tables.recover(kept), unfit);
                }
                assert!(tables == before, "{name} of {len}: written");
            }
        }
    }
}

/// Recovery writes a fresh bus first: what the tables held before does not
/// matter, nor what the bytes are.
#[test]
fn recovery_over_any_contents() {
    let mut random = Random::new(5);
    let (mut whole, mut stopped) = (0, 0);
    for round in 0..300 {
        let most = [u64::MAX, 3][round % 2];
        let mut tables = Tables::new(LENGTHS, most, &mut random);
        let mut kept = b"010000\n010101\n03000000000000000008\n0600".to_vec();
        for _ in 0..round % 4 {
            let at = random.below(kept.len());
            kept[at] = random.draw() as u8;
        }
        let recovery = tables.recover(&kept);
        let mut expected = Tables::new(LENGTHS, u64::MAX, &mut random);
        assert_eq!(expected.fresh(), 0);
        if recovery.number == 0 {
            whole += 1;
            for line in kept[..recovery.used].split_inclusive(|c| *c == b'\n') {
                let digits = std::str::from_utf8(&line[..line.len() - 1]).expect("digits");
                let frame: Vec<u8> = (0..digits.len() / 2)
                    .map(|n| u8::from_str_radix(&digits[2 * n..2 * n + 2], 16).expect("digits"))
                    .collect();
                assert_eq!(expected.command(&frame, ANSWER_LEN).0.number, 0);
            }
        } else {
            stopped += 1;
            assert_eq!((recovery.number, recovery.used), (5, 0));
            assert!(recovery.line > 0);
        }
        assert!(tables == expected, "round {round}");
    }
    assert!(whole > 0 && stopped > 0);
}

#[test]
fn short_answer_buffer() {
    let mut tables = in_use();
    let before = tables.clone();
    for len in [0, 1, ANSWER_LEN - 1] {
        for frame in [&OPEN[..], &[], &[0xff], &[0x08, 0, 0, 1]] {
            tables.command(frame, len);
        }
    }
    assert!(tables == before);
}

/// Each number that a command tests, at its bound and one over it.
#[test]
fn ranges() {
    let question = [0x09, 0, 0];
    let tables = in_use();
    let words = (0..8)
        .flat_map(|p| [(1 + 3 * p, 2), (2 + 3 * p, 3), (3 + 3 * p, (1 << 44) - 1)])
        .chain([(0, (1 << 40) - 1)]);
    for (place, bound) in words {
        let mut at = tables.clone();
        at.peers.get()[place] = bound;
        assert_ne!(at.command(&question, ANSWER_LEN).0, EIO, "peers {place}");
        for over in [bound + 1, u64::MAX] {
            at.peers.get()[place] = over;
            assert_eq!(at.command(&question, ANSWER_LEN).0, EIO, "peers {place}");
        }
    }
    for place in 0..16 {
        let bound = 511 + place as u16 % 2;
        let mut at = tables.clone();
        at.ends.get()[place] = bound;
        assert_ne!(at.command(&question, ANSWER_LEN).0, EIO, "ends {place}");
        for over in [bound + 1, u16::MAX] {
            at.ends.get()[place] = over;
            assert_eq!(at.command(&question, ANSWER_LEN).0, EIO, "ends {place}");
        }
    }
}

/// The last command that is accepted, and what comes after it.
#[test]
fn last_command() {
    let mut tables = in_use();
    tables.peers.get()[0] = (1 << 40) - 2;
    assert_eq!(tables.command(&[0x01, 2, 2], ANSWER_LEN).0.number, 0);
    assert_eq!(tables.command(&[0x01, 3, 2], ANSWER_LEN).0.number, 75);
    assert_eq!(tables.command(&[0x08, 0, 0, 1], ANSWER_LEN).0.number, 75);
    assert_eq!(tables.command(&[0x0c, 1, 0, 9], ANSWER_LEN).0.number, 75);
    assert_eq!(tables.command(&[0x09, 0, 1], ANSWER_LEN).0.number, 0);
}

/// Any contents of the seeds have a meaning (docs/BUFFERS.md): more than 8 slots
/// are 8, more than 512 bytes are 512, a slot counts modulo 128, 1 alone is a seed.
#[test]
fn seeds_of_any_contents() {
    let (mut tables, show) = (in_use(), [0x0c, 1, 0xff, 0xff]);
    let seeds = tables.seeds.get();
    seeds[12..24].copy_from_slice(&[1, 255, 255, 255, 128, 128, 128, 128, 128, 128, 128, 128]);
    seeds[96 + 512..96 + 1024].fill(0x5a);
    let (outcome, answer) = tables.command(&show, ANSWER_LEN);
    assert_eq!((outcome.number, outcome.len), (0, ANSWER_LEN));
    let seven = [0, 0, 0, 0, 0, 0, 0, 7].repeat(8);
    let head = [&[0, 4][..], &[0xff; 8], &[1, 0, 2, 0, 8]].concat();
    assert_eq!(answer, [head, seven, vec![0x5a; 512]].concat());
    for set in [0, 2, 255] {
        tables.seeds.get()[12] = set;
        assert_eq!(tables.command(&show, ANSWER_LEN).0.number, 11);
    }
}

/// Random contents and random frames: every call returns, and writes only
/// what it may.
#[test]
fn random_contents() {
    let mut random = Random::new(4);
    let mut numbers = [0u64; 256];
    for round in 0..600 {
        let most = [u64::MAX, 15, 255, u64::MAX][round % 4];
        let mut tables = match round % 8 {
            7 => in_use(),
            _ => Tables::new(LENGTHS, most, &mut random),
        };
        if round % 4 != 3 {
            let peers = tables.peers.get();
            peers[0] %= 1 << 40;
            for p in 0..8 {
                peers[1 + 3 * p] = if random.chance(90) { 1 } else { 2 };
                peers[2 + 3 * p] %= 4;
                peers[3 + 3 * p] %= 1 << 44;
            }
            let ends = tables.ends.get();
            for p in 0..8 {
                ends[2 * p] %= 512;
                ends[2 * p + 1] %= 513;
            }
        }
        for _ in 0..30 {
            let frame = random_frame(&mut random, &mut tables);
            let number = if random.chance(50) {
                tables
                    .command(&frame, ANSWER_LEN + random.below(3))
                    .0
                    .number
            } else {
                // A journal with much room, little or none, and any used length.
                let mut journal = vec![0xff; random.below(1500)];
                let used = random.below(journal.len() + 3);
                let answer_len = ANSWER_LEN - usize::from(random.chance(3)) + random.below(3);
                tables.keep(&frame, answer_len, &mut journal, used).number
            };
            numbers[usize::from(number)] += 1;
        }
    }
    println!("answers to random contents:");
    for (number, times) in numbers.iter().enumerate().filter(|(_, n)| **n > 0) {
        println!("{number}: {times}");
    }
    assert!(numbers[0] > 0 && numbers[5] > 0 && numbers[27] > 0);
}

/// A frame of random bytes, or a command with IDs from the handle table.
fn random_frame(random: &mut Random, tables: &mut Tables) -> Vec<u8> {
    if random.chance(10) {
        let len = random.below(700);
        return (0..len).map(|_| random.draw() as u8).collect();
    }
    let peer = random.below(8);
    let mut frame = vec![1 + random.below(12) as u8, peer as u8];
    let mut id = |random: &mut Random| {
        let row = 128 * peer + random.below(128);
        tables.handles.get()[2 * row].to_be_bytes()
    };
    match frame[0] {
        0x01 | 0x09 => frame.push(random.below(4) as u8),
        0x02 => {}
        0x06 => {
            frame.extend(id(random));
            frame.push(random.below(8) as u8);
        }
        0x07 => {
            let (nd, nh, nb) = (random.below(9), random.below(9), random.below(513));
            frame.extend([nd as u8, nh as u8, (nb >> 8) as u8, nb as u8]);
            for _ in 0..nd + nh {
                frame.extend(id(random));
            }
            frame.extend((0..nb).map(|_| random.draw() as u8));
        }
        0x08 | 0x0c => frame.extend((random.draw() as u16).to_be_bytes()),
        _ => frame.extend(id(random)),
    }
    frame
}
