//! The version of this crate and that of the archive.

extern "C" {
    fn eikelzwier_version() -> u32;
}

/// A part of the version as a number.
const fn part(text: &str) -> u32 {
    let (digits, mut value, mut i) = (text.as_bytes(), 0, 0);
    while i < digits.len() {
        value = 10 * value + (digits[i] - b'0') as u32;
        i += 1;
    }
    value
}

/// The version of this crate as a number: 10,000 times its first part, 100 times
/// its second, and the third.
pub const VERSION: u32 = 10_000 * part(env!("CARGO_PKG_VERSION_MAJOR"))
    + 100 * part(env!("CARGO_PKG_VERSION_MINOR"))
    + part(env!("CARGO_PKG_VERSION_PATCH"));

/// The version of the archive that was linked.
///
/// Where it is not [`VERSION`] this crate calls nothing else of the archive:
/// [`Bus::new`](crate::Bus::new) panics, and an [`InlineBus`](crate::InlineBus)
/// refuses every command with 5.
///
/// ```
/// assert_eq!(eikelzwier::archive_version(), eikelzwier::VERSION);
/// ```
pub fn archive_version() -> u32 {
    // Safety: it has no parameter and returns a number.
    unsafe { eikelzwier_version() }
}
