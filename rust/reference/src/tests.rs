//! Tests for the clauses of document 01 and of document 02, No. 1 and No. 2, that
//! are easy to get wrong.
//! Frames and answers are in hexadecimal; blanks are for the reader.

use std::cell::RefCell;
use std::collections::BTreeMap;
use std::io::{self, Read, Write};
use std::rc::Rc;

use crate::bench::{digest, measure, Core, Reference, Script};
use crate::bus::NodeIndex;
use crate::handles::HandleTable;
use crate::script::{Generator, Profile, Random};
use crate::{answer_lines, left, Bus, HandleId, Outcome, Peer, ANSWER_LEN, MAX_DIGITS};

fn bytes(hex: &str) -> Vec<u8> {
    let digits: String = hex.split_whitespace().collect();
    (0..digits.len())
        .step_by(2)
        .map(|at| u8::from_str_radix(&digits[at..at + 2], 16).expect("hexadecimal"))
        .collect()
}

fn hex(bytes: &[u8]) -> String {
    bytes.iter().map(|byte| format!("{byte:02x}")).collect()
}

impl Bus {
    /// The answer to a frame, after the sums were audited.
    fn ask(&mut self, frame: &str) -> String {
        let mut answer = [0xee; ANSWER_LEN];
        let outcome = self.command(&bytes(frame), &mut answer);
        assert_eq!(answer[0], outcome.number, "{frame}");
        assert!(answer[outcome.len..].iter().all(|b| *b == 0xee), "{frame}");
        self.audit();
        hex(&answer[..outcome.len])
    }

    /// Runs frames that must all be answered by 00 alone.
    fn accept(&mut self, frames: &[&str]) {
        for frame in frames {
            assert_eq!(self.ask(frame), "00", "{frame}");
        }
    }
}

/// Runs pairs of frame and answer on a bus.
fn check(bus: &mut Bus, pairs: &[(&str, &str)]) {
    for (number, (frame, answer)) in pairs.iter().enumerate() {
        let expected = hex(&bytes(answer));
        assert_eq!(bus.ask(frame), expected, "pair {number}: {frame}");
    }
}

/// A long ID.
fn id(number: u64) -> String {
    format!("{number:016x}")
}

fn send(peer: u8, to: &[u64], attached: &[u64], payload: &[u8]) -> String {
    let ids: String = to.iter().chain(attached).map(|n| id(*n)).collect();
    let (nd, nh, nb) = (to.len(), attached.len(), payload.len());
    format!("07{peer:02x}{nd:02x}{nh:02x}{nb:04x}{ids}{}", hex(payload))
}

/// Peer 4 owns node 8; peers 0 to 3, of users 0 to 3, hold it as 7.
fn four_users() -> Bus {
    let mut bus = Bus::new();
    bus.accept(&["010000", "010101", "010202", "010303", "010400"]);
    bus.accept(&["0304 0000000000000008"]);
    for peer in 0..4 {
        let frame = format!("0604{}{peer:02x}", id(8));
        assert_eq!(bus.ask(&frame), format!("00{}", id(7)));
    }
    bus
}

#[test]
fn script_s() {
    check(
        &mut Bus::new(),
        &[
            ("010000", "00"),
            ("010101", "00"),
            ("0300 0000000000000008", "00"),
            ("0600 0000000000000008 01", "00 0000000000000007"),
            ("0701 01 00 0001 0000000000000007 33", "00"),
            ("0800 0001", "00 01 0000000000000008 01 00 0001 00 33"),
            ("0800 0001", "0b"),
        ],
    );
}

#[test]
fn short_answer_buffer_comes_first() {
    let mut bus = Bus::new();
    for frame in ["010000", "", "ff"] {
        let mut answer = [0xee; ANSWER_LEN - 1];
        let outcome = bus.command(&bytes(frame), &mut answer);
        assert_eq!(outcome, Outcome { number: 22, len: 0 });
        assert!(answer.iter().all(|byte| *byte == 0xee));
    }
    assert_eq!(bus.ask("010000"), "00");
}

#[test]
fn order_of_refusals() {
    let mut bus = Bus::new();
    check(
        &mut bus,
        &[
            // Empty frame, unknown command, length, peer.
            ("", "16"),
            ("00", "19"),
            ("0b", "19"),
            ("ff ffffffff", "19"),
            ("01", "16"),
            ("0100", "16"),
            ("01000000", "16"),
            ("010800", "16"),
            ("010004", "16"),
            ("02", "16"),
            ("0208", "16"),
            // EINVAL before EBADF.
            ("0300 0000000000000006", "16"),
            ("0300 0000000000000005", "16"),
            ("0300 0000000000000004", "09"),
            ("0600 0000000000000004 08", "16"),
            ("0900 04", "16"),
            // Send: under 6 bytes, peer, sizes, length; nd 0 is a seed.
            ("07", "16"),
            ("0700 09 09 ff", "16"),
            ("0708 09 00 0000", "16"),
            ("0700 00 09 ffff", "5a"),
            ("0700 00 00 0201", "5a"),
            ("0700 00 01 0000", "16"),
            ("0700 00 00 0000 00", "16"),
            ("0700 00 00 0000", "09"),
            ("0700 09 00 0000", "5a"),
            ("0700 01 09 0000", "5a"),
            ("0700 01 00 0201", "5a"),
            ("0700 01 00 0000", "16"),
            ("0700 01 00 0001 0000000000000004", "16"),
            ("0700 01 00 0000 0000000000000004", "09"),
            ("0200", "09"),
            ("0800 0000", "09"),
            ("0900 00", "09"),
            ("0a00 0000000000000004", "09"),
            // Laid out as 08.
            ("0c", "16"),
            ("0c00 00", "16"),
            ("0c00 000000", "16"),
            ("0c08 0000", "16"),
            ("0c00 0000", "09"),
        ],
    );
    bus.accept(&["010000", "010101", "010202", "0202"]);
    check(
        &mut bus,
        &[
            // The acting peer wholly, then the destination peer.
            ("0602 0000000000000004 03", "6c"),
            ("0603 0000000000000004 02", "09"),
            ("0600 0000000000000004 03", "09"),
            ("0600 0000000000000004 02", "6c"),
            ("0600 0000000000000004 01", "06"),
            ("010201", "6c"),
            ("010001", "11"),
            ("010004", "16"),
            ("0202", "6c"),
            ("0902 00", "6c"),
            ("0702 00 01 0000 0000000000000004", "6c"),
            ("0c02 0000", "6c"),
            // The seed: every attached ID, then nothing more to test.
            ("0700 00 01 0000 0000000000000004", "06"),
            ("0c00 0000", "0b"),
        ],
    );
    bus.accept(&["0300 0000000000000004", "0300 0000000000000008"]);
    check(
        &mut bus,
        &[
            ("0600 0000000000000004 01", "00 0000000000000007"),
            ("0600 0000000000000008 01", "00 000000000000000b"),
            ("0300 0000000000000004", "11"),
            // ENXIO before EPERM before EHOSTUNREACH.
            ("0401 0000000000000004", "06"),
            ("0401 0000000000000007", "01"),
            ("0a01 0000000000000007", "01"),
            ("0a00 0000000000000004", "00 03 02"),
            ("0500 0000000000000004", "01"),
            ("0400 0000000000000004", "00"),
            ("0401 0000000000000007", "01"),
            ("0400 0000000000000004", "71"),
            ("0a00 0000000000000004", "00 03 02"),
            ("0601 0000000000000007 00", "71"),
            ("0300 0000000000000004", "11"),
            // A dead destination and an unknown attached handle: ENXIO.
            ("0701 01 01 0000 0000000000000007 0000000000000004", "06"),
            ("0701 02 00 0000 0000000000000007 00000000000000ff", "06"),
            ("0701 01 00 0000 0000000000000007", "71"),
            // The invalid ID is never held.
            ("0501 ffffffffffffffff", "06"),
            ("0701 01 01 0000 000000000000000b ffffffffffffffff", "06"),
            // A dead node may be attached.
            ("0701 01 01 0000 000000000000000b 0000000000000007", "00"),
        ],
    );
    // A dead destination and a full peer: EHOSTUNREACH.
    for _ in 0..31 {
        bus.accept(&[&send(1, &[0xb], &[], &[])]);
    }
    assert_eq!(bus.ask(&send(1, &[0xb], &[], &[])), "7a");
    assert_eq!(bus.ask(&send(1, &[0xb, 7], &[], &[])), "71");
}

#[test]
fn eexist_before_enospc_and_room_used_again() {
    let mut bus = Bus::new();
    bus.accept(&["010000"]);
    for n in 0..16 {
        bus.accept(&[&format!("0300{}", id(4 * n))]);
    }
    check(
        &mut bus,
        &[
            ("0300 0000000000000008", "11"),
            ("0300 0000000000000040", "1c"),
            ("0400 0000000000000008", "00"),
            ("0300 0000000000000040", "1c"),
            ("0500 0000000000000008", "00"),
            // The notice went with the handle.
            ("0800 ffff", "0b"),
            ("0300 0000000000000008", "00"),
            ("0300 0000000000000040", "1c"),
        ],
    );
}

#[test]
fn m1_to_m5() {
    let mut bus = four_users();
    for (peer, accepted) in [(0, 32), (1, 16), (2, 8), (3, 4)] {
        if peer == 3 {
            // M5: -12, -4, 0, 4.
            for (user, own, left) in [
                (0, "0020", "fff4"),
                (1, "0010", "fffc"),
                (2, "0008", "0000"),
                (3, "0000", "0004"),
            ] {
                let answer = bus.ask(&format!("0904{user:02x}"));
                assert_eq!(answer[2..6], *own);
                assert_eq!(answer[14..18], *left);
            }
        }
        for _ in 0..accepted {
            bus.accept(&[&send(peer, &[7], &[], &[])]);
        }
        assert_eq!(bus.ask(&send(peer, &[7], &[], &[])), "7a");
    }
}

#[test]
fn m6() {
    let mut bus = four_users();
    for _ in 0..4 {
        bus.accept(&[&send(0, &[7], &[], &[0x55; 512])]);
    }
    assert_eq!(bus.ask(&send(0, &[7], &[], &[0])), "7a");
    bus.accept(&[&send(0, &[7], &[], &[])]);
}

#[test]
fn m7() {
    let mut bus = four_users();
    for _ in 0..30 {
        bus.accept(&[&send(0, &[7], &[], &[])]);
    }
    let mut other = bus.clone();
    bus.accept(&[&send(0, &[7, 7], &[], &[])]);
    assert_eq!(bus.ask("090400"), "00002000000000000008000020");
    other.accept(&[&send(0, &[7], &[], &[])]);
    assert_eq!(other.ask(&send(0, &[7, 7], &[], &[])), "7a");
    assert_eq!(other.ask("090400"), "00001f00000000000108000020");
}

#[test]
fn m8_and_half_of_what_others_leave() {
    assert_eq!(left(1024, 512, 128), 128);
    assert_eq!(left(64, 0, 20), 12);
    assert_eq!(left(64, 1, 0), 31);
    assert_eq!(left(64, 24, 32), -12);
}

#[test]
fn balance_below_zero_refuses_what_adds_nothing() {
    let mut bus = four_users();
    // User 0 has 32 handles queued at peer 4, user 1 then 16.
    for (peer, times) in [(0, 4), (1, 2)] {
        for _ in 0..times {
            bus.accept(&[&send(peer, &[7], &[7; 8], &[])]);
        }
    }
    assert_eq!(
        bus.ask("090400"),
        "0000040000002000 1b 0800 fff8".replace(' ', "")
    );
    assert_eq!(bus.ask(&send(0, &[7], &[], &[])), "7a");
}

#[test]
fn m9() {
    let mut bus = four_users();
    bus.accept(&[&send(0, &[7], &[7], &[0x33])]);
    check(
        &mut bus,
        &[
            ("0804 0008", "22"),
            (
                "0804 0009",
                "00 01 0000000000000008 00 00 0001 01 0000000000000008 33",
            ),
        ],
    );
}

#[test]
fn m10() {
    let mut bus = four_users();
    bus.accept(&["0300 000000000000000c", "0304 0000000000000010"]);
    bus.accept(&[&send(0, &[7], &[0xc, 0xc], &[])]);
    check(
        &mut bus,
        &[
            (
                "0804 0010",
                "00 01 0000000000000008 00 00 0000 02 0000000000000007 0000000000000007",
            ),
            ("0504 0000000000000007", "00"),
            ("0a00 000000000000000c", "00 11 02"),
            ("0504 0000000000000007", "00"),
            ("0a00 000000000000000c", "00 01 01"),
            ("0504 0000000000000007", "06"),
        ],
    );
}

#[test]
fn transfer_to_oneself_adds_one() {
    let mut bus = Bus::new();
    check(
        &mut bus,
        &[
            ("010000", "00"),
            ("0300 0000000000000008", "00"),
            ("0600 0000000000000008 00", "00 0000000000000008"),
            ("0500 0000000000000008", "00"),
            // The sum fell from 2 to 1.
            ("0800 0000", "00 03 0000000000000008"),
            ("0500 0000000000000008", "01"),
        ],
    );
}

#[test]
fn notices_in_order_of_owner_id() {
    // Peer 0 owns c, 4, 8; peer 1 owns 20, 10, 18; each holds all of the
    // other's. Peer 1 disconnects: destroy notices, then release notices.
    let mut bus = Bus::new();
    bus.accept(&["010000", "010101"]);
    for node in ["0c", "04", "08"] {
        bus.accept(&[&format!("0300 00000000000000{node}")]);
        bus.ask(&format!("0600 00000000000000{node} 01"));
    }
    for (n, node) in ["20", "10", "18"].iter().enumerate() {
        bus.accept(&[&format!("0301 00000000000000{node}")]);
        let shown = bus.ask(&format!("0601 00000000000000{node} 00"));
        assert_eq!(shown, format!("00{}", id(4 * n as u64 + 7)));
    }
    bus.accept(&["0201"]);
    check(
        &mut bus,
        &[
            ("0800 0000", "00 02 000000000000000b"),
            ("0800 0000", "00 02 000000000000000f"),
            ("0800 0000", "00 02 0000000000000007"),
            ("0800 0000", "00 03 0000000000000004"),
            ("0800 0000", "00 03 0000000000000008"),
            ("0800 0000", "00 03 000000000000000c"),
            ("0800 0000", "0b"),
        ],
    );
}

#[test]
fn release_notice_withdrawn_and_back_at_the_end() {
    let mut bus = Bus::new();
    bus.accept(&["010000", "010101"]);
    bus.accept(&["0300 0000000000000004", "0300 0000000000000008"]);
    check(
        &mut bus,
        &[
            ("0600 0000000000000004 01", "00 0000000000000007"),
            ("0600 0000000000000008 01", "00 000000000000000b"),
            ("0501 0000000000000007", "00"),
            ("0501 000000000000000b", "00"),
            // 4 goes out again: its notice is withdrawn; a new ID there.
            ("0600 0000000000000004 01", "00 000000000000000f"),
            ("0501 000000000000000f", "00"),
            ("0800 0000", "00 03 0000000000000008"),
            ("0800 0000", "00 03 0000000000000004"),
            ("0800 0000", "0b"),
            // Withdrawn by destroy: the destroy notice alone.
            ("0600 0000000000000004 01", "00 0000000000000013"),
            ("0501 0000000000000013", "00"),
            ("0400 0000000000000004", "00"),
            ("0800 0000", "00 02 0000000000000004"),
            ("0800 0000", "0b"),
        ],
    );
}

#[test]
fn release_notice_withdrawn_by_a_receive() {
    let mut bus = Bus::new();
    bus.accept(&["010000", "010101", "0300 0000000000000004"]);
    bus.accept(&["0301 0000000000000008"]);
    check(
        &mut bus,
        &[
            ("0600 0000000000000004 01", "00 0000000000000007"),
            ("0601 0000000000000008 00", "00 0000000000000007"),
            // The handle to 4 travels back to peer 1 in a message.
            ("0700 01 01 0000 0000000000000007 0000000000000004", "00"),
            ("0501 0000000000000007", "00"),
            (
                "0801 ffff",
                "00 01 0000000000000008 00 00 0000 01 000000000000000b",
            ),
            ("0800 ffff", "0b"),
        ],
    );
}

#[test]
fn destroy_notice_withdrawn_with_the_handle_only() {
    let mut bus = Bus::new();
    bus.accept(&["010000", "010101", "0300 0000000000000004"]);
    check(
        &mut bus,
        &[
            ("0600 0000000000000004 01", "00 0000000000000007"),
            ("0600 0000000000000004 01", "00 0000000000000007"),
            ("0400 0000000000000004", "00"),
            ("0501 0000000000000007", "00"),
            ("0801 0000", "00 02 0000000000000007"),
            ("0501 0000000000000007", "00"),
            ("0500 0000000000000004", "00"),
            ("0800 0000", "0b"),
        ],
    );
}

#[test]
fn flag_after_its_sibling_was_dropped() {
    let mut bus = Bus::new();
    bus.accept(&["010000", "010101"]);
    bus.accept(&["0300 0000000000000004", "0300 0000000000000008"]);
    bus.ask("0600 0000000000000004 01");
    bus.ask("0600 0000000000000008 01");
    // Places 4, 8, 4: one send. Then one more send to 4.
    bus.accept(&[&send(1, &[7, 0xb, 7], &[], &[1]), &send(1, &[7], &[], &[2])]);
    let first = "00 01 0000000000000004 01 01 0001 00 01";
    let last = "00 01 0000000000000004 01 00 0001 00 01";
    let other = "00 01 0000000000000004 01 00 0001 00 02";
    let mut twice = bus.clone();
    check(
        &mut bus,
        &[
            ("0800 ffff", first),
            ("0800 ffff", "00 01 0000000000000008 01 01 0001 00 01"),
            ("0800 ffff", last),
            ("0800 ffff", other),
            ("0800 ffff", "0b"),
        ],
    );
    // The middle one dropped: the first still has a sibling behind it.
    twice.accept(&["0400 0000000000000008", "0500 0000000000000008"]);
    check(
        &mut twice,
        &[
            ("0800 ffff", first),
            ("0800 ffff", last),
            ("0800 ffff", other),
        ],
    );
    // The only sibling behind dropped: flag 0.
    let mut bus = Bus::new();
    bus.accept(&["010000", "010101"]);
    bus.accept(&["0300 0000000000000004", "0300 0000000000000008"]);
    bus.ask("0600 0000000000000004 01");
    bus.ask("0600 0000000000000008 01");
    bus.accept(&[&send(1, &[7, 0xb], &[], &[1])]);
    bus.accept(&["0400 0000000000000008", "0500 0000000000000008"]);
    assert_eq!(bus.ask("0800 ffff"), hex(&bytes(last)));
    assert_eq!(bus.ask("0900 01"), "00000000000000002008000020");
}

#[test]
fn siblings_at_another_peer_give_no_flag() {
    let mut bus = Bus::new();
    bus.accept(&["010000", "010101"]);
    bus.accept(&["0300 0000000000000004", "0301 0000000000000008"]);
    bus.ask("0601 0000000000000008 00");
    bus.accept(&[&send(0, &[4, 7], &[], &[])]);
    check(
        &mut bus,
        &[
            ("0800 ffff", "00 01 0000000000000004 00 00 0000 00"),
            ("0801 ffff", "00 01 0000000000000008 00 00 0000 00"),
        ],
    );
}

#[test]
fn invalid_id_shown_to_a_holder() {
    let mut bus = Bus::new();
    bus.accept(&["010000", "010101"]);
    bus.accept(&["0300 0000000000000004", "0301 0000000000000008"]);
    check(
        &mut bus,
        &[
            ("0600 0000000000000004 01", "00 0000000000000007"),
            ("0601 0000000000000008 00", "00 0000000000000007"),
            ("0300 000000000000000c", "00"),
            ("0400 0000000000000004", "00"),
            ("0700 01 01 0000 0000000000000007 0000000000000004", "00"),
            // To the owner itself, too.
            ("0700 01 01 0000 000000000000000c 0000000000000004", "00"),
            ("0801 ffff", "00 02 0000000000000007"),
            (
                "0801 ffff",
                "00 01 0000000000000008 00 00 0000 01 ffffffffffffffff",
            ),
            ("0800 ffff", "00 02 0000000000000004"),
            (
                "0800 ffff",
                "00 01 000000000000000c 00 00 0000 01 ffffffffffffffff",
            ),
            // Counts stayed at 1.
            ("0501 0000000000000007", "00"),
            ("0501 0000000000000007", "06"),
            ("0500 0000000000000004", "00"),
            ("0500 0000000000000004", "06"),
        ],
    );
}

#[test]
fn messages_for_a_dead_node_until_the_owner_handle_goes() {
    let mut bus = four_users();
    bus.accept(&[&send(0, &[7], &[], &[1]), &send(0, &[7], &[], &[2])]);
    bus.accept(&["0404 0000000000000008"]);
    check(
        &mut bus,
        &[
            ("0804 ffff", "00 01 0000000000000008 00 00 0001 00 01"),
            ("0504 0000000000000008", "00"),
            ("0804 ffff", "0b"),
            ("0904 00", "00 0000 0000 0000 0020 0800 0020"),
            ("0504 0000000000000008", "06"),
        ],
    );
}

#[test]
fn disconnect_keeps_what_was_sent() {
    let mut bus = four_users();
    // Peer 0 sends two messages, one with its own node, and leaves.
    bus.accept(&["0300 000000000000000c"]);
    bus.accept(&[&send(0, &[7], &[], &[1]), &send(0, &[7], &[0xc], &[])]);
    bus.accept(&["0304 0000000000000010"]);
    bus.ask("0604 0000000000000010 00");
    bus.accept(&["0200"]);
    check(
        &mut bus,
        &[
            ("0904 00", "00 0002 0001 0001 001e 07ff 001f"),
            ("0804 ffff", "00 01 0000000000000008 00 00 0001 00 01"),
            // The node was destroyed behind the message: a new handle, then the notice.
            (
                "0804 ffff",
                "00 01 0000000000000008 00 00 0000 01 0000000000000007",
            ),
            ("0804 ffff", "00 02 0000000000000007"),
            // 8 is still held by others, 10 by nobody but its owner.
            ("0804 ffff", "00 03 0000000000000010"),
            ("0804 ffff", "0b"),
            ("0a04 0000000000000008", "00 1e 04"),
            ("0800 ffff", "6c"),
            ("010000", "6c"),
            ("0604 0000000000000008 00", "6c"),
        ],
    );
}

#[test]
fn disconnect_drops_the_queue_and_its_charges() {
    let mut bus = four_users();
    bus.accept(&["0300 000000000000000c"]);
    bus.accept(&[&send(0, &[7, 7], &[0xc], &[1])]);
    bus.accept(&["0204"]);
    check(
        &mut bus,
        &[
            ("0800 ffff", "00 02 0000000000000007"),
            ("0800 ffff", "0b"),
            ("0700 01 00 0000 0000000000000007", "71"),
            ("0801 ffff", "00 02 0000000000000007"),
            ("0400 000000000000000c", "00"),
            ("0500 000000000000000c", "00"),
            ("0300 000000000000000c", "00"),
        ],
    );
}

#[test]
fn room_not_used_again_while_named() {
    let mut bus = Bus::new();
    bus.accept(&["010000", "010101", "0301 0000000000000040"]);
    bus.ask("0601 0000000000000040 00");
    for n in 0..16 {
        bus.accept(&[&format!("0300{}", id(4 * n))]);
    }
    // Node 8 is attached to a message at peer 1, then destroyed and released.
    bus.accept(&[&send(0, &[7], &[8], &[])]);
    check(
        &mut bus,
        &[
            ("0400 0000000000000008", "00"),
            ("0500 0000000000000008", "00"),
            ("0300 0000000000000008", "1c"),
            ("0400 000000000000000c", "00"),
            ("0500 000000000000000c", "00"),
            // The old ID for a new node, in other room.
            ("0300 0000000000000008", "00"),
            ("0300 000000000000000c", "1c"),
            // The message installs the old node's handle, so its room stays taken
            // until that is let go, with its notice.
            (
                "0801 ffff",
                "00 01 0000000000000040 00 00 0000 01 0000000000000007",
            ),
            ("0300 000000000000000c", "1c"),
            ("0501 0000000000000007", "00"),
            ("0801 ffff", "0b"),
            ("0300 000000000000000c", "00"),
            ("0300 0000000000000044", "1c"),
        ],
    );
}

/// Peer 0 owns 4; peer 1 owns 8 and 10, which peer 0 holds as 7 and b; peer 2
/// owns 20, which peer 0 holds as f.
fn carriers() -> Bus {
    let mut bus = Bus::new();
    bus.accept(&["010000", "010101", "010202", "0300 0000000000000004"]);
    bus.accept(&["0301 0000000000000008", "0301 0000000000000010"]);
    bus.accept(&["0302 0000000000000020"]);
    check(
        &mut bus,
        &[
            ("0601 0000000000000008 00", "00 0000000000000007"),
            ("0601 0000000000000010 00", "00 000000000000000b"),
            ("0602 0000000000000020 00", "00 000000000000000f"),
        ],
    );
    bus
}

/// Document 02, No. 2: "such a message installs the handle, and the notice
/// follows it"; "one notice for a peer and node".
#[test]
fn earlier_messages_install_and_one_notice_follows() {
    let mut bus = carriers();
    bus.accept(&[
        &send(0, &[7], &[4, 4], &[1]),
        &send(0, &[7], &[4], &[2]),
        "0400 0000000000000004",
        &send(0, &[7], &[4], &[3]),
    ]);
    let ones = "ffffffffffffffff";
    let shows =
        |nh: &str, ids: &str, nb: &str| format!("00 01 {} 00 00 0001 {nh} {ids} {nb}", id(8));
    check(
        &mut bus,
        &[
            ("0801 ffff", &shows("02", &format!("{0} {0}", id(7)), "01")),
            // A partial release leaves the notice.
            ("0501 0000000000000007", "00"),
            ("0801 ffff", &shows("01", &id(7), "02")),
            ("0801 ffff", "00 02 0000000000000007"),
            // Sent after the destruction: invalid, also to a holder.
            ("0801 ffff", &shows("01", ones, "03")),
            ("0801 ffff", "0b"),
            ("0a00 0000000000000004", "00 03 02"),
            ("0601 0000000000000007 02", "71"),
            ("0501 0000000000000007", "00"),
            ("0501 0000000000000007", "00"),
            ("0501 0000000000000007", "06"),
            // Peer 2 was brought nothing.
            ("0802 ffff", "0b"),
        ],
    );
}

/// "It is now withdrawn as soon as the peer holds no handle and no earlier
/// message carrying the node is left": by a release, and not before.
#[test]
fn notice_kept_by_a_message_and_withdrawn() {
    let mut bus = carriers();
    check(
        &mut bus,
        &[("0600 0000000000000004 01", "00 0000000000000007")],
    );
    bus.accept(&[
        &send(0, &[7], &[4], &[]),
        &send(0, &[7], &[4], &[]),
        "0400 0000000000000004",
        // A later message keeps nothing.
        &send(0, &[7], &[4], &[]),
        // The handle goes, the messages are left.
        "0501 0000000000000007",
    ]);
    let shows = |shown: &str| format!("00 01 {} 00 00 0000 01 {shown}", id(8));
    let mut other = bus.clone();
    check(
        &mut bus,
        &[
            ("0801 ffff", &shows("000000000000000b")),
            ("0501 000000000000000b", "00"),
            ("0801 ffff", &shows("000000000000000f")),
            // The ID that is held when the notice is taken out.
            ("0801 ffff", "00 02 000000000000000f"),
            ("0801 ffff", &shows("ffffffffffffffff")),
            ("0801 ffff", "0b"),
        ],
    );
    check(
        &mut other,
        &[
            ("0801 ffff", &shows("000000000000000b")),
            ("0801 ffff", &shows("000000000000000b")),
            ("0501 000000000000000b", "00"),
            ("0501 000000000000000b", "00"),
            ("0801 ffff", &shows("ffffffffffffffff")),
            ("0801 ffff", "0b"),
        ],
    );
}

/// The same by a drop: the messages for 8 go with its owner's handle.
#[test]
fn notice_withdrawn_with_the_last_message_dropped() {
    let mut bus = carriers();
    bus.accept(&[
        &send(0, &[7, 0xb], &[4], &[]),
        "0400 0000000000000004",
        "0401 0000000000000008",
        "0501 0000000000000008",
    ]);
    let mut other = bus.clone();
    check(
        &mut bus,
        &[
            // The message for 10 is left, so the notice is.
            (
                "0801 ffff",
                "00 01 0000000000000010 00 00 0000 01 0000000000000007",
            ),
            ("0801 ffff", "00 02 0000000000000007"),
            ("0801 ffff", "0b"),
        ],
    );
    other.accept(&["0401 0000000000000010", "0501 0000000000000010"]);
    assert_eq!(other.ask("0801 ffff"), "0b");
}

/// "An owner whose own handle is gone is still shown the invalid ID."
#[test]
fn owner_without_handle_is_shown_the_invalid_id() {
    let mut bus = carriers();
    // Peer 0 sends 4's owner, itself, two messages that carry 4, to c.
    bus.accept(&[
        "0300 000000000000000c",
        &send(0, &[0xc], &[4], &[]),
        &send(0, &[0xc], &[4, 7], &[]),
        "0400 0000000000000004",
    ]);
    let shows = |nh: &str, ids: &str| format!("00 01 {} 00 00 0000 {nh} {ids}", id(0xc));
    let mut holds = bus.clone();
    check(
        &mut bus,
        &[
            ("0500 0000000000000004", "00"),
            // The ID chosen again is another node.
            ("0300 0000000000000004", "00"),
            ("0800 ffff", &shows("01", "ffffffffffffffff")),
            (
                "0800 ffff",
                &shows("02", "ffffffffffffffff 0000000000000007"),
            ),
            // Nothing was installed, and the notice went with the last message.
            ("0800 ffff", "0b"),
            ("0a00 0000000000000004", "00 01 01"),
        ],
    );
    check(
        &mut holds,
        &[
            ("0800 ffff", &shows("01", "0000000000000004")),
            // Count 2: one is released, and the second message raises it again.
            ("0500 0000000000000004", "00"),
            (
                "0800 ffff",
                &shows("02", "0000000000000004 0000000000000007"),
            ),
            ("0800 ffff", "00 02 0000000000000004"),
            ("0500 0000000000000004", "00"),
            ("0500 0000000000000004", "00"),
            ("0500 0000000000000004", "06"),
        ],
    );
}

/// Disconnect destroys too: notices by ascending owner ID, then release notices;
/// a seed shows the invalid ID from then on, and keeps no notice.
#[test]
fn disconnect_tells_who_will_be_brought_its_nodes() {
    let mut bus = carriers();
    bus.accept(&[
        "0300 0000000000000000",
        &send(0, &[7, 0xf], &[4], &[]),
        &send(0, &[7], &[0], &[]),
    ]);
    check(
        &mut bus,
        &[("0600 0000000000000004 02", "00 0000000000000007")],
    );
    bus.accept(&["0702 00 01 0000 0000000000000007", "0200"]);
    check(
        &mut bus,
        &[
            (
                "0801 ffff",
                "00 01 0000000000000008 00 00 0000 01 0000000000000007",
            ),
            (
                "0801 ffff",
                "00 01 0000000000000008 00 00 0000 01 000000000000000b",
            ),
            // 0 before 4, then the owner's own nodes that came back.
            ("0801 ffff", "00 02 000000000000000b"),
            ("0801 ffff", "00 02 0000000000000007"),
            ("0801 ffff", "00 03 0000000000000008"),
            ("0801 ffff", "00 03 0000000000000010"),
            ("0801 ffff", "0b"),
            (
                "0c02 ffff",
                "00 04 ffffffffffffffff 02 00 0000 01 ffffffffffffffff",
            ),
            ("0502 0000000000000007", "00"),
            (
                "0802 ffff",
                "00 01 0000000000000020 00 00 0000 01 000000000000000b",
            ),
            ("0502 000000000000000b", "00"),
            // The notice is withdrawn although the seed names the node.
            ("0802 ffff", "00 03 0000000000000020"),
            ("0802 ffff", "0b"),
        ],
    );
}

/// Document 02, No. 1: a seed is set, shown twice, replaced, dropped.
#[test]
fn seed_is_shown_and_stays() {
    let mut bus = four_users();
    bus.accept(&["0300 000000000000000c"]);
    bus.accept(&["0700 00 02 0001 000000000000000c 0000000000000007 33"]);
    let shown = "00 04 ffffffffffffffff 00 00 0001 02 000000000000000c 0000000000000007 33";
    check(
        &mut bus,
        &[
            // Nothing is queued, and nobody is charged.
            ("0800 ffff", "0b"),
            ("0900 00", "00 0000 0000 0000 0020 0800 0020"),
            ("0c00 0010", "22"),
            ("0c00 0011", shown),
            ("0c00 ffff", shown),
            // Each showing raised the counts: c is at 3.
            ("0500 000000000000000c", "00"),
            ("0500 000000000000000c", "00"),
            ("0800 ffff", "00 03 000000000000000c"),
            ("0500 000000000000000c", "01"),
            // 7 is at 3, then gone; the seed brings it back under a new ID.
            ("0500 0000000000000007", "00"),
            ("0500 0000000000000007", "00"),
            ("0500 0000000000000007", "00"),
            (
                "0c00 ffff",
                "00 04 ffffffffffffffff 00 00 0001 02 000000000000000c 000000000000000b 33",
            ),
        ],
    );
}

#[test]
fn seed_replaced_or_kept() {
    let mut bus = four_users();
    bus.accept(&["0702 00 00 0002 0102", "0702 00 01 0000 0000000000000007"]);
    check(
        &mut bus,
        &[
            // A refused replacement keeps the old one; the user is the peer's own.
            ("0702 00 02 0000 0000000000000007 0000000000000008", "06"),
            ("0702 00 09 0000", "5a"),
            (
                "0c02 0008",
                "00 04 ffffffffffffffff 02 00 0000 01 0000000000000007",
            ),
            // The empty seed is a seed.
            ("0702 00 00 0000", "00"),
            ("0c02 0000", "00 04 ffffffffffffffff 02 00 0000 00"),
            ("0c01 0000", "0b"),
        ],
    );
}

#[test]
fn seed_of_a_full_peer_and_of_a_dead_node() {
    let mut bus = four_users();
    for _ in 0..32 {
        bus.accept(&[&send(0, &[7], &[], &[])]);
    }
    check(
        &mut bus,
        &[
            ("0700 01 00 0000 0000000000000007", "7a"),
            ("0404 0000000000000008", "00"),
            ("0700 01 00 0000 0000000000000007", "71"),
            // Neither 122 nor 113: there is no destination.
            ("0700 00 01 0000 0000000000000007", "00"),
            (
                "0c00 ffff",
                "00 04 ffffffffffffffff 00 00 0000 01 ffffffffffffffff",
            ),
            // Nothing was added for it.
            ("0500 0000000000000007", "00"),
            ("0500 0000000000000007", "06"),
        ],
    );
}

#[test]
fn seed_shown_withdraws_a_release_notice() {
    let mut bus = Bus::new();
    bus.accept(&["010000", "010101", "0300 0000000000000004"]);
    check(
        &mut bus,
        &[
            ("0600 0000000000000004 01", "00 0000000000000007"),
            ("0701 00 02 0000 0000000000000007 0000000000000007", "00"),
            ("0501 0000000000000007", "00"),
            // The seed holds no count: the release notice is withdrawn only now.
            (
                "0c01 ffff",
                "00 04 ffffffffffffffff 01 00 0000 02 000000000000000b 000000000000000b",
            ),
            ("0800 ffff", "0b"),
            ("0501 000000000000000b", "00"),
            ("0501 000000000000000b", "00"),
            ("0800 ffff", "00 03 0000000000000004"),
        ],
    );
}

#[test]
fn seed_keeps_the_room() {
    let mut bus = Bus::new();
    bus.accept(&["010000", "010101"]);
    for n in 0..16 {
        bus.accept(&[&format!("0300{}", id(4 * n))]);
    }
    for (node, given) in [(4, 7), (8, 11)] {
        let frame = format!("0600{}01", id(node));
        assert_eq!(bus.ask(&frame), format!("00{}", id(given)));
    }
    // Peer 1's seed names 4 and 8, peer 0's names 4.
    bus.accept(&["0701 00 02 0000 0000000000000007 000000000000000b"]);
    bus.accept(&["0700 00 01 0000 0000000000000004"]);
    for node in [4, 8] {
        bus.accept(&[&format!("0400{}", id(node)), &format!("0500{}", id(node))]);
        bus.accept(&[&format!("0501{}", id(node + 3))]);
    }
    check(
        &mut bus,
        &[
            ("0300 0000000000000040", "1c"),
            ("0701 00 01 0000 0000000000000007", "06"),
            ("0300 0000000000000040", "1c"),
            ("0701 00 00 0000", "00"),
            ("0300 0000000000000008", "00"),
            ("0300 0000000000000040", "1c"),
            // An ID chosen again is another node: the seed shows the old one.
            (
                "0c00 ffff",
                "00 04 ffffffffffffffff 00 00 0000 01 ffffffffffffffff",
            ),
            ("0700 00 00 0000", "00"),
            ("0300 0000000000000004", "00"),
        ],
    );
}

#[test]
fn disconnect_drops_the_seed() {
    let mut bus = Bus::new();
    bus.accept(&["010000", "010101"]);
    for n in 0..16 {
        bus.accept(&[&format!("0300{}", id(4 * n))]);
    }
    bus.ask("0600 0000000000000004 01");
    bus.accept(&["0701 00 01 0000 0000000000000007"]);
    bus.accept(&["0400 0000000000000004", "0500 0000000000000004"]);
    check(
        &mut bus,
        &[
            ("0501 0000000000000007", "00"),
            ("0300 0000000000000040", "1c"),
            ("0201", "00"),
            ("0c01 ffff", "6c"),
            ("0300 0000000000000040", "00"),
        ],
    );
}

#[test]
fn overflow() {
    let most = (1 << 40) - 1;
    let mut bus = Bus::with_accepted(most - 2);
    check(
        &mut bus,
        &[
            ("010000", "00"),
            // A refusal and a question are not counted.
            ("010000", "11"),
            ("0900 00", "00 0000 0000 0000 0020 0800 0020"),
            ("0300 0000000000000004", "00"),
            ("0300 0000000000000008", "4b"),
            ("0900 00", "00 0000 0000 0000 0020 0800 0020"),
            ("0a00 0000000000000004", "00 01 01"),
            // After the form, before the peers.
            ("0300 0000000000000006", "16"),
            ("0700 09 00 0000", "5a"),
            ("0b", "19"),
            ("0700 00 00 0000", "4b"),
            ("0c00 ffff", "4b"),
            ("0207", "4b"),
            ("0900 04", "16"),
            ("0907 00", "09"),
        ],
    );
}

#[test]
fn handle_table_against_a_map() {
    let mut random = Random::new(7);
    let mut table = HandleTable::new();
    let mut map: BTreeMap<u64, usize> = BTreeMap::new();
    for _ in 0..40_000 {
        let id = 4 * random.below(200) as u64 + 3 * random.below(2) as u64;
        match map.remove(&id) {
            Some(_) => table.remove(HandleId(id)),
            None if map.len() < 128 => {
                let node = random.below(128);
                map.insert(id, node);
                table.insert(HandleId(id), NodeIndex::new(node));
            }
            None => {}
        }
        let asked = HandleId(4 * random.below(200) as u64);
        assert_eq!(
            table.find(asked),
            map.get(&asked.0).map(|node| NodeIndex::new(*node))
        );
        assert_eq!(table.iter().count(), map.len());
    }
    assert_eq!(table.find(HandleId::INVALID), None);
}

#[test]
fn random_scripts_keep_the_sums_and_reach_deep_states() {
    let (mut deepest, mut most_handles, mut legal, mut lines) = (0, 0, 0, 0);
    let mut seeded = 0;
    let mut lines_with = [0; 5];
    for profile in Profile::ALL {
        for seed in 0..6 {
            let mut generator = Generator::new(seed, 2000, profile);
            let mut script = Vec::new();
            for _ in 0..2000 {
                generator.line(&mut script);
                generator.bus().audit();
                for peer in Peer::all() {
                    deepest = deepest.max(generator.bus().queued(peer));
                    most_handles = most_handles.max(generator.bus().handles(peer).len());
                }
                let seeds = Peer::all().filter(|peer| generator.bus().has_seed(*peer));
                seeded = seeded.max(seeds.count());
                if profile == Profile::Order {
                    for (lines, case) in lines_with.iter_mut().zip(generator.bus().order_cases()) {
                        *lines += usize::from(case > 0);
                    }
                }
            }
            if profile == Profile::Legal {
                legal += generator.accepted();
                lines += 2000;
            }
        }
    }
    assert!(deepest >= 50, "deepest queue {deepest}");
    assert!(most_handles >= 40, "most handles {most_handles}");
    assert!(legal * 10 >= lines * 9, "{legal} of {lines} accepted");
    assert!(seeded >= 6, "peers with a seed {seeded}");
    // Of 12000 lines.
    assert!(
        lines_with.iter().all(|lines| *lines >= 1500),
        "{lines_with:?}"
    );
}

#[test]
fn scripts_are_the_same_for_a_seed() {
    for profile in Profile::ALL {
        let script = |seed| Generator::new(seed, 200, profile).script();
        assert_eq!(script(5), script(5));
        assert_ne!(script(5), script(6));
    }
}

#[test]
fn benchmark_depths_and_counts() {
    for (depth, nb) in [(1, 0), (30, 32), (4, 512)] {
        let script = Script::messages(depth, nb, 400);
        assert_eq!(script.timed(), 800);
        let mut bus = Bus::new();
        let mut receives = 0;
        for frame in script.frames() {
            if let [0x08, peer, _, _] = *frame {
                receives += 1;
                let peer = Peer::new(peer).expect("a peer");
                assert_eq!(bus.queued(peer), depth);
            }
            assert_eq!(bus.command(frame, &mut [0; ANSWER_LEN]).number, 0);
        }
        assert_eq!(receives, 400);
    }
    for (others, queued, holders, each) in [(1, 0, 0, 3), (15, 30, 7, 17)] {
        let script = Script::destroys(others, queued, holders, 300);
        assert_eq!(script.timed(), 300 * each);
        assert!(digest(&mut Reference::default(), &script).is_ok());
    }
}

/// A core that changes the last byte of long answers.
struct Wrong(Reference);

impl Core for Wrong {
    fn reset(&mut self) {
        self.0.reset();
    }

    fn command(&mut self, frame: &[u8], answer: &mut [u8; ANSWER_LEN]) -> (u8, usize) {
        let (number, len) = self.0.command(frame, answer);
        if len > 15 {
            answer[len - 1] ^= 1;
        }
        (number, len)
    }
}

#[test]
fn benchmark_tells_cores_apart() {
    let script = Script::messages(2, 32, 50);
    let (mut one, mut two) = (Reference::default(), Reference::default());
    let times = measure(&mut [&mut one, &mut two], &script, 2).expect("the same answers");
    assert_eq!(times.len(), 2);
    let mut wrong = Wrong(Reference::default());
    assert!(measure(&mut [&mut one, &mut wrong], &script, 2).is_err());
}

/// Gives its input in pieces, and checks before each read that every whole
/// line given was answered and flushed.
struct Pieces<'a> {
    rest: &'a [u8],
    size: usize,
    given: usize,
    output: Output,
}

#[derive(Clone, Default)]
struct Output(Rc<RefCell<(Vec<u8>, usize)>>);

impl Read for Pieces<'_> {
    fn read(&mut self, buffer: &mut [u8]) -> io::Result<usize> {
        let (written, flushed) = &*self.output.0.borrow();
        assert_eq!(written.iter().filter(|b| **b == b'\n').count(), self.given);
        assert_eq!(written.len(), *flushed);
        let len = self.size.min(buffer.len()).min(self.rest.len());
        let (piece, rest) = self.rest.split_at(len);
        buffer[..len].copy_from_slice(piece);
        self.given += piece.iter().filter(|byte| **byte == b'\n').count();
        self.rest = rest;
        Ok(len)
    }
}

impl Write for Output {
    fn write(&mut self, bytes: &[u8]) -> io::Result<usize> {
        self.0.borrow_mut().0.extend(bytes);
        Ok(bytes.len())
    }

    fn flush(&mut self) -> io::Result<()> {
        let mut inner = self.0.borrow_mut();
        inner.1 = inner.0.len();
        Ok(())
    }
}

/// The answers to an input, the same for every size of piece.
fn answers(input: &[u8]) -> String {
    let mut all = Vec::new();
    for size in [1, 2, 3, 7, 64, 1293, usize::MAX] {
        let output = Output::default();
        let pieces = Pieces {
            rest: input,
            size,
            given: 0,
            output: output.clone(),
        };
        answer_lines(pieces, output.clone()).expect("no error");
        let written = output.0.borrow().0.clone();
        all.push(String::from_utf8(written).expect("digits"));
    }
    all.dedup();
    assert_eq!(all.len(), 1, "pieces change the answers");
    all.remove(0)
}

#[test]
fn lines() {
    assert_eq!(answers(b""), "");
    assert_eq!(answers(b"\n"), "16\n");
    assert_eq!(answers(b"\n\n"), "16\n16\n");
    assert_eq!(answers(b"010000\n010000\n"), "00\n11\n");
    // Without its LF, not carried out.
    assert_eq!(answers(b"010000"), "16\n");
    assert_eq!(answers(b"010000\n0"), "00\n16\n");
    // Odd, uppercase, CR, blank, NUL.
    for bad in [
        "01000", "0A0000", "010000\r", " 010000", "0100 00", "\0", "01000g", "/1", ":1",
    ] {
        assert_eq!(answers(format!("{bad}\n010000\n").as_bytes()), "16\n00\n");
    }
}

#[test]
fn longest_line() {
    let nd9 = |len: usize| {
        let mut line = b"070009000000".to_vec();
        line.resize(len, b'0');
        line.extend(b"\nff\n");
        line
    };
    assert_eq!(answers(&nd9(MAX_DIGITS)), "5a\n19\n");
    assert_eq!(answers(&nd9(MAX_DIGITS + 1)), "16\n19\n");
    assert_eq!(answers(&nd9(MAX_DIGITS + 2)), "16\n19\n");
    assert_eq!(answers(&nd9(300_000)), "16\n19\n");
    // Overlong and without its LF: one line.
    assert_eq!(answers(&vec![b'0'; 200_000]), "16\n");
}
