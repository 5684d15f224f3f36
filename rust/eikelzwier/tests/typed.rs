//! The typed layer and the bus without a heap: the same answers as frames of
//! bytes give, on the heap and inline, with and without a journal.

use std::fs;
use std::path::Path;

use eikelzwier::{
    archive_version, Bus, Commands, HandleId, Holders, InlineBus, Journal, Journalled, Message,
    Peer, Received, Refusal, Seed, User, ANSWER_LEN, MAX_PAYLOAD, VERSION,
};

/// One that notes the frames that the methods build, and answers as it is told.
struct Noted {
    frames: Vec<Vec<u8>>,
    answer: Vec<u8>,
}

impl Commands for Noted {
    fn command(&mut self, frame: &[u8], answer: &mut [u8]) -> eikelzwier::Outcome {
        self.frames.push(frame.to_vec());
        answer[..self.answer.len()].copy_from_slice(&self.answer);
        eikelzwier::Outcome {
            number: self.answer[0],
            len: self.answer.len(),
        }
    }
}

/// The bytes of each frame, by hand from docs/WIRE.md.
#[test]
fn frames() {
    let mut bus = Noted {
        frames: Vec::new(),
        answer: vec![122],
    };
    let id = HandleId(0x0102030405060708);
    let mut answer = [0; ANSWER_LEN];
    assert_eq!(bus.open(Peer(5), User(3)), Err(Refusal::Quota));
    assert_eq!(bus.disconnect(Peer(6)), Err(Refusal::Quota));
    assert_eq!(bus.create(Peer(0), id), Err(Refusal::Quota));
    assert_eq!(bus.destroy(Peer(1), HandleId(8)), Err(Refusal::Quota));
    assert_eq!(bus.release(Peer(2), HandleId(11)), Err(Refusal::Quota));
    assert_eq!(
        bus.transfer(Peer(3), HandleId::INVALID, Peer(4)),
        Err(Refusal::Quota)
    );
    let sent = bus.send(Peer(1), &[id, HandleId(7)], &[HandleId(8)], b"3!");
    assert_eq!(sent, Err(Refusal::Quota));
    let taken = bus.receive_within(Peer(0), 0x0102, &mut answer);
    assert_eq!(taken, Err(Refusal::Quota));
    assert_eq!(bus.receive(Peer(7), &mut answer), Err(Refusal::Quota));
    assert_eq!(bus.quota(Peer(4), User(2)), Err(Refusal::Quota));
    assert_eq!(bus.holders(Peer(7), HandleId(12)), Err(Refusal::Quota));
    let set = bus.set_seed(Peer(1), &[HandleId(8)], b"3!");
    assert_eq!(set, Err(Refusal::Quota));
    assert_eq!(bus.set_seed(Peer(7), &[], b""), Err(Refusal::Quota));
    let shown = bus.show_seed_within(Peer(2), 0x0102, &mut answer);
    assert_eq!(shown, Err(Refusal::Quota));
    assert_eq!(bus.show_seed(Peer(3), &mut answer), Err(Refusal::Quota));
    let hex: Vec<String> = bus.frames.iter().map(|frame| to_hex(frame)).collect();
    let wanted = [
        "010503",
        "0206",
        "03000102030405060708",
        "04010000000000000008",
        "0502000000000000000b",
        "0603ffffffffffffffff04",
        "070102010002010203040506070800000000000000070000000000000008 3321",
        "08000102",
        "08070240",
        "090402",
        "0a07000000000000000c",
        "070100010002 0000000000000008 3321",
        "070700000000",
        "0c020102",
        "0c030240",
    ];
    assert_eq!(hex, wanted.map(|frame| frame.replace(' ', "")));
}

fn to_hex(bytes: &[u8]) -> String {
    bytes.iter().map(|byte| format!("{byte:02x}")).collect()
}

/// The answers, by hand from docs/WIRE.md.
#[test]
fn answers() {
    let mut bus = Noted {
        frames: Vec::new(),
        answer: vec![0, 1, 2, 3, 4, 5, 6, 7, 8],
    };
    let mut answer = [0; ANSWER_LEN];
    let there = bus.transfer(Peer(0), HandleId(8), Peer(1));
    assert_eq!(there, Ok(HandleId(0x0102030405060708)));
    bus.answer = vec![0, 0, 32, 2, 0, 0, 3, 0xff, 0xf4, 1, 0, 0x80, 0];
    let quota = bus.quota(Peer(0), User(0)).expect("answered");
    assert_eq!((quota.messages, quota.bytes, quota.handles), (32, 512, 3));
    assert_eq!(
        (quota.messages_left, quota.bytes_left, quota.handles_left),
        (-12, 256, -32768)
    );
    bus.answer = vec![0, 0x83, 3];
    let holders = bus.holders(Peer(0), HandleId(8)).expect("answered");
    assert_eq!((holders, holders.count()), (Holders(0x83), 3));
    assert!(holders.contains(Peer(7)) && !holders.contains(Peer(2)) && !holders.contains(Peer(8)));
    bus.answer = vec![0, 2, 0, 0, 0, 0, 0, 0, 0, 7];
    let taken = bus.receive(Peer(0), &mut answer);
    assert_eq!(taken, Ok(Some(Received::Destroyed(HandleId(7)))));
    bus.answer[1] = 3;
    let taken = bus.receive(Peer(0), &mut answer);
    assert_eq!(taken, Ok(Some(Received::Released(HandleId(7)))));
    bus.answer = vec![11];
    assert_eq!(bus.receive(Peer(0), &mut answer), Ok(None));
    assert_eq!(bus.show_seed(Peer(0), &mut answer), Ok(None));
    message(&mut bus, &mut answer);
    seed(&mut bus, &mut answer);
}

fn seed(bus: &mut Noted, answer: &mut [u8]) {
    bus.answer = [&[0, 4][..], &[0xff; 8], &[2, 0, 0, 3, 2]].concat();
    bus.answer.extend([0, 0, 0, 0, 0, 0, 0, 11]);
    bus.answer.extend([0xff; 8]);
    bus.answer.extend(b"38!");
    let Ok(Some(Seed {
        user,
        handles,
        payload,
    })) = bus.show_seed(Peer(0), answer)
    else {
        panic!("a seed")
    };
    assert_eq!((user, payload), (User(2), &b"38!"[..]));
    let handles: Vec<HandleId> = handles.iter().collect();
    assert_eq!(handles, [HandleId(11), HandleId::INVALID]);
}

fn message(bus: &mut Noted, answer: &mut [u8]) {
    bus.answer = vec![0, 1, 0, 0, 0, 0, 0, 0, 0, 8, 2, 1, 0, 3, 2];
    bus.answer.extend([0, 0, 0, 0, 0, 0, 0, 11]);
    bus.answer.extend([0xff; 8]);
    bus.answer.extend(b"38!");
    let Ok(Some(Received::Message(got))) = bus.receive(Peer(0), answer) else {
        panic!("a message")
    };
    let Message {
        to,
        user,
        more,
        handles,
        payload,
    } = got;
    assert_eq!((to, user, more), (HandleId(8), User(2), true));
    assert_eq!(payload, b"38!");
    let handles: Vec<HandleId> = handles.iter().collect();
    assert_eq!(handles, [HandleId(11), HandleId::INVALID]);
}

/// A send over a limit is refused before a frame is built; one at it is not.
#[test]
fn limits() {
    let mut bus = Noted {
        frames: Vec::new(),
        answer: vec![0],
    };
    let (ids, long) = ([HandleId(8); 9], [0; MAX_PAYLOAD + 1]);
    let mut send = |nd: usize, nh: usize, nb: usize| {
        let sent = bus.send(Peer(0), &ids[..nd], &ids[..nh], &long[..nb]);
        (sent, bus.frames.len())
    };
    assert_eq!(send(0, 0, 0), (Err(Refusal::Invalid), 0));
    assert_eq!(send(9, 0, 0), (Err(Refusal::TooLarge), 0));
    assert_eq!(send(1, 9, 0), (Err(Refusal::TooLarge), 0));
    assert_eq!(send(1, 0, 513), (Err(Refusal::TooLarge), 0));
    assert_eq!(send(8, 8, 512), (Ok(()), 1));
    assert_eq!(bus.frames[0].len(), 646);
    let mut set = |nh: usize, nb: usize| {
        let set = bus.set_seed(Peer(0), &ids[..nh], &long[..nb]);
        (set, bus.frames.len())
    };
    assert_eq!(set(9, 0), (Err(Refusal::TooLarge), 1));
    assert_eq!(set(0, 513), (Err(Refusal::TooLarge), 1));
    assert_eq!(set(8, 512), (Ok(()), 2));
    assert_eq!(bus.frames[1].len(), 582);
}

/// A seed is shown each time, and each time its handles count once more.
#[test]
fn seeds() {
    let (lamp, one, two) = (Peer(3), HandleId(8), HandleId(12));
    let mut bus = Bus::new();
    let mut answer = [0; ANSWER_LEN];
    assert_eq!(bus.open(lamp, User(1)), Ok(()));
    assert_eq!(bus.show_seed(lamp, &mut answer), Ok(None));
    assert_eq!(bus.create(lamp, one), Ok(()));
    assert_eq!(bus.create(lamp, two), Ok(()));
    assert_eq!(bus.set_seed(lamp, &[one, two], b"oil"), Ok(()));
    assert_eq!(bus.destroy(lamp, two), Ok(()));
    let narrow = bus.show_seed_within(lamp, 18, &mut answer);
    assert_eq!(narrow, Err(Refusal::OverRoom));
    for _ in 0..2 {
        let shown = bus.show_seed_within(lamp, 19, &mut answer);
        let seed = shown.expect("there is room").expect("it was set");
        assert_eq!((seed.user, seed.payload), (User(1), &b"oil"[..]));
        assert!(seed.handles.iter().eq([one, HandleId::INVALID]));
    }
    for expected in [Ok(()), Ok(()), Err(Refusal::NotPermitted)] {
        assert_eq!(bus.release(lamp, one), expected);
    }
    let quota = bus.quota(lamp, User(1)).expect("answered");
    assert_eq!((quota.messages, quota.bytes_left), (0, 2048));
}

/// The lines of a script that are frames.
fn script(name: &str) -> Vec<Vec<u8>> {
    let here = Path::new(env!("CARGO_MANIFEST_DIR")).join("../../tests/vectors");
    let text = fs::read(here.join(name)).expect("a script");
    let frame = |line: &[u8]| -> Option<Vec<u8>> {
        let text = std::str::from_utf8(line).ok()?;
        let at = (0..text.len()).step_by(2);
        at.map(|i| u8::from_str_radix(text.get(i..i + 2)?, 16).ok())
            .collect()
    };
    text.split(|byte| *byte == b'\n')
        .filter_map(frame)
        .collect()
}

/// The bus without a heap answers as the one on the heap does, with a journal
/// too, and is recovered alike.
#[test]
fn inline() {
    assert_eq!(archive_version(), VERSION);
    for name in [
        "rules/S.in",
        "random/churn-904.in",
        "random/bytes-901.in",
        "random/seed-5039.in",
    ] {
        let (mut heap, mut inline, mut kept) = (
            Bus::new(),
            Box::new(InlineBus::new()),
            Box::new(InlineBus::new()),
        );
        let (mut ours, mut theirs) = (vec![0; 1 << 16], vec![0; 1 << 16]);
        let (mut journal, mut other) = (Journal::new(&mut ours), Journal::new(&mut theirs));
        for frame in script(name) {
            let mut answers = [[0xee; ANSWER_LEN]; 3];
            let outcome = heap.command_with_journal(&frame, &mut answers[0], &mut journal);
            assert_eq!(inline.command(&frame, &mut answers[1]), outcome);
            assert_eq!(
                kept.with_journal(&mut other)
                    .command(&frame, &mut answers[2]),
                outcome
            );
            assert!(answers[0] == answers[1] && answers[0] == answers[2]);
        }
        assert!(inline == kept && journal.kept() == other.kept());
        let mut again = Box::new(InlineBus::new());
        let recovered = again
            .recover(journal.kept())
            .expect("a journal of this run");
        assert_eq!(recovered.used, journal.used());
        assert!(again == kept);
        again.reset();
        assert!(*again == InlineBus::new());
    }
    let mut bus = Box::new(InlineBus::new());
    let stopped = bus.recover(b"010000\n01000x\n").expect_err("a bad digit");
    assert_eq!((stopped.line, stopped.place), (2, Some(5)));
}

/// Every refusal by its number, and no other number.
#[test]
fn refusals() {
    let known: Vec<u8> = (0..=255)
        .filter(|n| Refusal::try_from(*n).is_ok())
        .collect();
    assert_eq!(
        known,
        [1, 5, 6, 9, 11, 17, 22, 25, 27, 28, 34, 75, 90, 108, 113, 122]
    );
    for refusal in Refusal::ALL {
        let text = refusal.to_string();
        assert!(text.starts_with(&format!("{} ({}): ", refusal.name(), refusal.number())));
    }
    let error: Box<dyn std::error::Error> = Refusal::Destroyed.into();
    assert_eq!(
        error.to_string(),
        "EHOSTUNREACH (113): the node was destroyed"
    );
    let unknown = Refusal::try_from(2).expect_err("2 is none");
    assert_eq!(unknown.to_string(), "2 is no refusal's number");
}
