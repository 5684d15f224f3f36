//! Script S of the README, and what holds of every [`Bus`].

use eikelzwier::{Bus, Outcome, Refusal, ANSWER_LEN};

const S: [(&str, &str); 7] = [
    ("010000", "00"),
    ("010101", "00"),
    ("03000000000000000008", "00"),
    ("0600000000000000000801", "000000000000000007"),
    ("070101000001000000000000000733", "00"),
    ("08000001", "00010000000000000008010000010033"),
    ("08000001", "0b"),
];

fn unhex(line: &str) -> Vec<u8> {
    (0..line.len() / 2)
        .map(|n| u8::from_str_radix(&line[2 * n..2 * n + 2], 16).expect("hexadecimal"))
        .collect()
}

fn run(bus: &mut Bus) {
    let mut answer = [0xee; ANSWER_LEN + 9];
    for (frame, expected) in S {
        answer.fill(0xee);
        let outcome = bus.command(&unhex(frame), &mut answer);
        assert_eq!(answer[..outcome.len], unhex(expected), "{frame}");
        assert_eq!(outcome.number, answer[0], "{frame}");
        assert!(
            answer[outcome.len..].iter().all(|b| *b == 0xee),
            "{frame}: written behind the answer"
        );
    }
}

#[test]
fn script_s() {
    let mut bus = Bus::new();
    run(&mut bus);
    bus.reset();
    run(&mut bus);
}

#[test]
fn a_copy_is_a_bus_of_its_own() {
    let mut bus = Bus::new();
    let mut copy = bus.clone();
    run(&mut bus);
    run(&mut copy);
}

#[test]
fn short_answer_buffer() {
    let mut bus = Bus::new();
    let mut answer = [0xee; ANSWER_LEN - 1];
    for len in [0, 1, ANSWER_LEN - 1] {
        let outcome = bus.command(&[0x01, 0, 0], &mut answer[..len]);
        assert_eq!(outcome, Outcome { number: 22, len: 0 });
        assert_eq!(outcome.refusal(), Some(Refusal::Invalid));
        assert!(answer.iter().all(|b| *b == 0xee));
    }
    run(&mut bus);
}

#[test]
fn refusal_numbers() {
    for refusal in Refusal::ALL {
        assert_eq!(Refusal::from_number(refusal.number()), Some(refusal));
    }
    assert_eq!(Refusal::from_number(0), None);
}
