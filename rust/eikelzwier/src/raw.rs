//! The functions of the static library, as `include/eikelzwier.h` declares
//! them, there with `eikelzwier` for `bus` in their names, and the exact lengths
//! of the bus buffers in elements.
//!
//! Every buffer is passed as a pointer and its number of elements. Any length
//! and any contents are safe.

macro_rules! lengths {
    ([$($name:ident: [$element:ty; $len:expr], $constant:ident;)*]) => {
        $(
            #[doc = concat!("Elements of `", stringify!($name), "`.")]
            pub const $constant: usize = $len;
        )*
    };
}
crate::bus_buffers!(lengths);

/// What [`bus_command`] returns.
#[repr(C)]
#[derive(Clone, Copy, PartialEq, Eq, Debug)]
pub struct BusOutcome {
    /// 0, or the number of the refusal.
    pub number: u8,
    /// The answer's length.
    pub len: usize,
}

/// What [`bus_command_with_journal`] returns.
#[repr(C)]
#[derive(Clone, Copy, PartialEq, Eq, Debug)]
pub struct BusReport {
    /// 0, or the number of the refusal.
    pub number: u8,
    /// The answer's length.
    pub len: usize,
    /// The journal's used length.
    pub used: usize,
}

/// The place in a recovery that the line reader did not stop.
pub const NO_PLACE: usize = usize::MAX;

/// What [`bus_recover`] returns.
#[repr(C)]
#[derive(Clone, Copy, PartialEq, Eq, Debug)]
pub struct BusRecovery {
    /// 0 or 5.
    pub number: u8,
    /// How many lines were carried out; or the line that stopped it, from 1;
    /// or 0 where a bus buffer lacks its length.
    pub line: usize,
    /// Where the line reader refused that line, the place of its first fault,
    /// from 0; else [`NO_PLACE`].
    pub place: usize,
    /// The journal's used length; 0 where it was stopped.
    pub used: usize,
}

// The functions: each takes the bus buffers in the order of the list, a pointer
// and a number of elements each, and then what its signature says.
macro_rules! functions {
    ([$($name:ident: [$element:ty; $len:expr], $constant:ident;)*]) => {
        extern "C" {
            /// Makes a fresh bus, no peer opened, whatever the buffers held before.
            /// Returns 0; or 5 where a buffer lacks its exact length: then nothing is
            /// written.
            ///
            /// # Safety
            /// Each pointer is not null (also at length 0), aligned, and good for
            /// reading and writing as many elements as its length says. No two buffers
            /// overlap, and nobody else touches them during the call.
            #[link_name = "eikelzwier_fresh"]
            pub fn bus_fresh(
                $($name: *mut $element, _: usize,)*
            ) -> u8;

            /// Carries out one command and writes its answer to the front of the answer
            /// buffer. An answer buffer under 591 bytes gives 22 and length 0, and
            /// nothing is written; after that, a bus buffer of another length or with a
            /// number out of its range gives 5.
            ///
            /// # Safety
            /// As for [`bus_fresh`]; the frame is only read.
            #[link_name = "eikelzwier_command"]
            pub fn bus_command(
                $($name: *mut $element, _: usize,)*
                frame: *const u8,
                frame_len: usize,
                answer: *mut u8,
                answer_len: usize,
            ) -> BusOutcome;

            /// [`bus_command`] with a journal, of which `used` bytes are used: an
            /// accepted command that is no question is appended as its frame line
            /// before the bus is changed. 5 where `used` is over the journal's length;
            /// 27 where the line has no room, the last of all checks.
            ///
            /// # Safety
            /// As for [`bus_command`]; the journal is written.
            #[link_name = "eikelzwier_command_with_journal"]
            pub fn bus_command_with_journal(
                $($name: *mut $element, _: usize,)*
                frame: *const u8,
                frame_len: usize,
                answer: *mut u8,
                answer_len: usize,
                journal: *mut u8,
                journal_len: usize,
                used: usize,
            ) -> BusReport;

            /// A fresh bus, and on it each whole line of the bytes kept carried out. A
            /// line that is no frame, is refused or is a question stops it with 5 and a
            /// fresh bus. A bus buffer of another length gives 5 and line 0, and
            /// nothing is written.
            ///
            /// # Safety
            /// As for [`bus_fresh`]; the bytes kept are only read.
            #[link_name = "eikelzwier_recover"]
            pub fn bus_recover(
                $($name: *mut $element, _: usize,)*
                kept: *const u8,
                kept_len: usize,
            ) -> BusRecovery;
        }
    };
}
crate::bus_buffers!(functions);
