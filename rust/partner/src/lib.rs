//! The bus in ordinary Rust under C names, as the partner of tests/fuzz: one bus,
//! for one thread.

use std::cell::RefCell;
use std::slice;

use reference::{journal, Bus};

thread_local! {
    static BUS: RefCell<Bus> = RefCell::new(Bus::new());
}

/// What comes back, laid out as `EzReport` is.
#[repr(C)]
pub struct Report {
    number: u8,
    len: usize,
    used: usize,
}

/// Makes the bus fresh.
#[no_mangle]
pub extern "C" fn partner_fresh() {
    BUS.with(|bus| *bus.borrow_mut() = Bus::new());
}

/// One command with a journal.
///
/// # Safety
/// Each pointer is good for its length, and no two overlap.
#[no_mangle]
pub unsafe extern "C" fn partner_command(
    frame: *const u8,
    frame_len: usize,
    answer: *mut u8,
    answer_len: usize,
    kept: *mut u8,
    kept_len: usize,
    used: usize,
) -> Report {
    let frame = slice::from_raw_parts(frame, frame_len);
    let answer = slice::from_raw_parts_mut(answer, answer_len);
    let kept = slice::from_raw_parts_mut(kept, kept_len);
    BUS.with(|bus| {
        let report = bus
            .borrow_mut()
            .command_with_journal(frame, answer, kept, used);
        Report {
            number: report.number,
            len: report.len,
            used: report.used,
        }
    })
}

/// Recovers the bus from the bytes kept: the number of lines carried out, or the
/// line that stopped it, negative; the bus is a fresh one then.
///
/// # Safety
/// The pointer is good for its length.
#[no_mangle]
pub unsafe extern "C" fn partner_recover(kept: *const u8, kept_len: usize) -> i64 {
    let found = journal::recover(slice::from_raw_parts(kept, kept_len));
    BUS.with(|bus| match found {
        Ok(found) => {
            *bus.borrow_mut() = found.bus;
            found.lines as i64
        }
        Err(stop) => {
            *bus.borrow_mut() = Bus::new();
            -(stop.line as i64)
        }
    })
}
