//! HTTP Datagrams and capsules (RFC 9297).

use crate::error::Error;
use crate::raw::{self, RawCapsule, RawReader};
use std::ops::Deref;

/// What stands in front of the payload of a datagram, or of the value of a capsule: at most 16 bytes.
#[derive(Debug, Clone, Copy)]
pub struct HeadBytes {
    pub(crate) bytes: [u8; 16],
    pub(crate) len: usize,
}

impl HeadBytes {
    pub(crate) fn new() -> HeadBytes {
        HeadBytes { bytes: [0; 16], len: 0 }
    }
}

impl Deref for HeadBytes {
    type Target = [u8];

    fn deref(&self) -> &[u8] {
        &self.bytes[..self.len]
    }
}

/// What came as the payload of a QUIC DATAGRAM frame.
#[derive(Debug, Clone, Copy, PartialEq, Eq)]
pub enum Datagram<'a> {
    /// It is for the request on a stream.
    For {
        /// The stream of the request.
        id: u64,
        /// Its payload, a part of the bytes that came.
        payload: &'a [u8],
    },
    /// It is for this stream, which is not there yet, or the peer's settings have not come: drop it, or keep it for about a round trip and
    /// read it again.
    Early(u64),
    /// Nothing more is received on its stream: drop it.
    Late,
    /// One of the sides announced no datagrams: drop it.
    Off,
}

/// What a reader tells of bytes of capsules.
#[derive(Debug, Clone, Copy, PartialEq, Eq)]
pub enum Capsule<'a> {
    /// A capsule begins.
    Head {
        /// Its type.
        capsule_type: u64,
        /// How many bytes its value has.
        length: u64,
    },
    /// The next bytes of the value.
    Value(&'a [u8]),
    /// The capsule is whole.
    End,
}

/// Reads the capsules of one stream, whose bytes come in any pieces. It takes no memory:
///
/// ```
/// use beanwhile_h3::{Capsule, CapsuleReader};
///
/// let (mut reader, mut bytes) = (CapsuleReader::new(), &[0x00, 0x02, b'h', b'i'][..]);
/// assert_eq!(reader.read(&mut bytes), Some(Capsule::Head { capsule_type: 0, length: 2 }));
/// assert_eq!(reader.read(&mut bytes), Some(Capsule::Value(b"hi")));
/// assert_eq!(reader.read(&mut bytes), Some(Capsule::End));
/// assert_eq!(reader.read(&mut bytes), None);
/// assert!(reader.may_end());
/// ```
#[derive(Debug, Default, Clone, Copy)]
pub struct CapsuleReader {
    state: RawReader,
}

impl CapsuleReader {
    /// A reader at the beginning of a stream's data.
    pub fn new() -> CapsuleReader {
        CapsuleReader::default()
    }

    /// What comes next in bytes that follow; moves `bytes` past what it took. `None`: all were taken. Skip the values of capsules whose
    /// type you do not know (RFC 9297, section 3.2).
    pub fn read<'a>(&mut self, bytes: &mut &'a [u8]) -> Option<Capsule<'a>> {
        let (given, mut used, mut told) = (*bytes, 0, RawCapsule::default());
        // SAFETY: the pointer and length are those of a slice, and the results are structs of this crate.
        unsafe { raw::h3_raw_read_capsule(&mut self.state, given.as_ptr(), given.len(), &mut used, &mut told) };
        *bytes = &given[used..];
        match told.part {
            1 => Some(Capsule::Head { capsule_type: told.capsule_type, length: told.length }),
            2 => Some(Capsule::Value(&given[..used])),
            3 => Some(Capsule::End),
            _ => None,
        }
    }

    /// Whether the data may end here. If not, a capsule is not whole, and the message is malformed (RFC 9297, section 3.3). Ask it once
    /// `read` returned `None`.
    pub fn may_end(&self) -> bool {
        let mut ends = 0;
        // SAFETY: both are values of this crate.
        unsafe { raw::h3_raw_capsule_ends(&self.state, &mut ends) };
        ends == 1
    }
}

/// What stands in front of the value of a capsule: send it, and so many bytes of a value, as a body.
///
/// # Errors
///
/// [`Error::Argument`]: the type or length is 2^62 or more.
pub fn capsule_head(capsule_type: u64, length: u64) -> Result<HeadBytes, Error> {
    let mut head = HeadBytes::new();
    // SAFETY: the pointer and length are those of an array.
    let answer = unsafe { raw::h3_raw_capsule_head(capsule_type, length, head.bytes.as_mut_ptr(), head.bytes.len(), &mut head.len) };
    match answer {
        0 => Ok(head),
        answer => Err(Error::of(answer, 0)),
    }
}
