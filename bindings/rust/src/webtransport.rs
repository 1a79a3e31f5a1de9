//! The codes of WebTransport's applications.

use crate::raw;

/// The code with which a stream of a WebTransport session is reset for a number of an application (draft-ietf-webtrans-http3-02, section 4.3).
pub fn code(number: u32) -> u64 {
    // SAFETY: it reads and writes no memory.
    unsafe { raw::h3_raw_webtransport_code(number) }
}

/// The number of an application for such a code. `None`: it is no such code.
pub fn number(code: u64) -> Option<u32> {
    let mut number = 0;
    // SAFETY: it writes one number.
    let answer = unsafe { raw::h3_raw_webtransport_number(code, &mut number) };
    (answer == 0).then_some(number)
}
