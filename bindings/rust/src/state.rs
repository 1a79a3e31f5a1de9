use crate::raw;

/// What is to be seen of a stream, as `h3_stream_state`.
#[derive(Debug, Default, Clone, Copy, PartialEq, Eq)]
#[non_exhaustive]
pub struct StreamState {
    /// Bytes that wait to be sent.
    pub waiting: u64,
    /// Bytes that were delivered and are still held: grant credit for the others.
    pub unread: u64,
    /// Something can be sent: a local unidirectional stream, or a request stream that was opened.
    pub has_outgoing: bool,
    /// The local message was finished.
    pub is_finished: bool,
    /// Sending was reset.
    pub is_reset: bool,
    /// How often the field section that is next was tried.
    pub tries: u32,
}

/// What QUIC is to send for a stream that was closed.
#[derive(Debug, Clone, Copy, PartialEq, Eq)]
pub struct ClosedStream {
    /// STOP_SENDING: the peer's half was open.
    pub stop_sending: bool,
    /// RESET_STREAM: the local half was open.
    pub reset_stream: bool,
}

/// The type of a unidirectional stream (RFC 9114, section 6.2), as `h3_stream_type`.
#[derive(Debug, Clone, Copy, PartialEq, Eq)]
#[non_exhaustive]
pub enum StreamType {
    /// Too few bytes came.
    Untold,
    /// The control stream.
    Control,
    /// QPACK's encoder stream.
    Encoder,
    /// QPACK's decoder stream.
    Decoder,
    /// A push stream: the connection has a fault by it.
    Push,
    /// Of a WebTransport session.
    Session,
    /// What comes on it is dropped: QUIC may send STOP_SENDING with H3_STREAM_CREATION_ERROR.
    Unknown,
    /// Of another type, and delivered: with `Config::other_streams`.
    Other,
}

/// What the peer's settings allow.
#[derive(Debug, Clone, Copy, PartialEq, Eq)]
#[non_exhaustive]
pub struct PeerLimits {
    /// The capacity of its dynamic table in bytes.
    pub table: u64,
    /// How many of its streams may wait.
    pub blocked: u64,
    /// The greatest size of a field section.
    pub section: u64,
}

/// What is to be seen of the connection, as `h3_state`.
#[derive(Debug, Clone, Copy, PartialEq, Eq)]
#[non_exhaustive]
pub struct ConnectionState {
    /// The size of the dynamic table that this side writes, in bytes.
    pub sending_table: u64,
    /// The same of the table that the peer writes.
    pub receiving_table: u64,
    /// How many streams wait for insertions.
    pub waiting_heads: u64,
    /// Bytes of names, values and bodies that were sent, and 64 for each field and each call.
    pub sent: u64,
    /// The id of the peer's last GOAWAY.
    pub goaway: Option<u64>,
    /// Once its settings came.
    pub peer: Option<PeerLimits>,
}

/// An event of the connection.
#[derive(Debug, Clone, Copy, PartialEq, Eq)]
#[non_exhaustive]
pub enum ConnectionEvent {
    /// The peer's settings came.
    Settings,
    /// The peer's last GOAWAY has this id, and another one was returned before, or none: a server processes no request from there on (RFC
    /// 9114, section 5.2).
    Goaway(u64),
}

/// Which version of the library this is.
#[derive(Debug, Clone, Copy, PartialEq, Eq)]
#[non_exhaustive]
pub struct Version {
    /// Within a major version calls, numbers and structs stay.
    pub major: u8,
    /// It rises with what is new.
    pub minor: u8,
    /// It rises with what is mended.
    pub patch: u8,
    /// Whether it was built with its proofs.
    pub is_proved: bool,
}

impl Version {
    /// The version of the library that this program is linked with.
    pub fn of_library() -> Version {
        // SAFETY: it takes nothing.
        let version = unsafe { raw::h3_raw_version() };
        let [mark, major, minor, patch] = version.to_be_bytes();
        Version { major, minor, patch, is_proved: mark & 0x80 == 0 }
    }
}
