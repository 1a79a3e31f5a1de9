use std::fmt;

/// Codes of RFC 9114, section 8.1, and of RFC 9297, section 5.2, that a program names.
pub mod code {
    /// A datagram or capsule could not be parsed.
    pub const DATAGRAM_ERROR: u64 = 0x33;
    /// The connection or stream is closed with no error.
    pub const NO_ERROR: u64 = 0x100;
    /// An internal error.
    pub const INTERNAL_ERROR: u64 = 0x102;
    /// A stream that the connection needs was closed.
    pub const CLOSED_CRITICAL_STREAM: u64 = 0x104;
    /// The peer causes too much load.
    pub const EXCESSIVE_LOAD: u64 = 0x107;
    /// A server rejects a request that it has not processed.
    pub const REQUEST_REJECTED: u64 = 0x10b;
    /// A request or its response is cancelled.
    pub const REQUEST_CANCELLED: u64 = 0x10c;
    /// A request ended before it was whole.
    pub const REQUEST_INCOMPLETE: u64 = 0x10d;
    /// A message is malformed.
    pub const MESSAGE_ERROR: u64 = 0x10e;
    /// A stream of WebTransport came before its session.
    pub const WEBTRANSPORT_BUFFERED_STREAM_REJECTED: u64 = 0x3994_bd84;
    /// The session of a stream has ended.
    pub const WEBTRANSPORT_SESSION_GONE: u64 = 0x170d_7b68;
}

/// Why a call was refused: an `h3_answer`, with the number that it names.
#[derive(Debug, Clone, Copy, PartialEq, Eq)]
#[non_exhaustive]
pub enum Error {
    /// The connection had this fault before, by its code.
    Closed(u64),
    /// The connection has a fault: close it with this code.
    Connection(u64),
    /// The peer sends nothing on this stream.
    NotReceiving,
    /// The stream's end or reset came before.
    AfterEnd,
    /// Only a client opens request streams.
    NotClient,
    /// The peer takes no request from this id on.
    GoingAway(u64),
    /// There are no further ids below 2^62.
    IdsUsedUp,
    /// The stream is not open at this side.
    NotOpen,
    /// Not at this place of the message: first a header section, then bodies, then a trailer section, then the end.
    OutOfOrder,
    /// A client sends header sections of requests, a server those of responses.
    WrongSide,
    /// A trailer has no pseudo-header field.
    PseudoInTrailer,
    /// The field section is larger than the peer takes, by its size.
    TooLarge(u64),
    /// The connection needs this stream.
    Critical,
    /// The stream has ended.
    Ended,
    /// A server's GOAWAY and a datagram name a request stream: a multiple of 4.
    NotRequestId,
    /// An earlier GOAWAY had this lower id.
    Raised(u64),
    /// Out of memory. Nothing is lost: the same call may be made again.
    Memory,
    /// `table` is above 2^30 - 1.
    TableLimit,
    /// `blocked` is above 65535.
    BlockedLimit,
    /// The setting with this id cannot be announced.
    Setting(u64),
    /// `unfinished_limit` is neither 0 nor at least 256 and four times `max_field_section_size` and `table`.
    UnfinishedLimit,
    /// The name of the field with this index is empty, not in lower case, or an unknown one that begins with ':'.
    FieldName(u64),
    /// The value of the field with this index is not in the grammar of its name.
    FieldValue(u64),
    /// There are more different names than fit.
    FieldCount,
    /// A strict peer would call the message malformed, for this reason. It was not sent.
    Malformed(Malformation),
    /// This side or the peer announced no HTTP datagrams, or the peer's settings have not come.
    NoDatagrams,
    /// The request is rejected, and nothing was delivered: end its stream both ways with this code.
    Rejected(u64),
    /// `sessions` is false, or the peer's settings have not come or do not have those that sessions of WebTransport need.
    NoSessions,
    /// An argument is out of range.
    Argument,
    /// An answer that this crate does not know, as of a later library.
    Other(u32),
}

impl Error {
    /// The refusal that an answer tells, but for 0 and `H3_KEPT`, which refuse nothing.
    pub(crate) fn of(answer: u32, detail: u64) -> Error {
        match answer {
            1 => Error::Closed(detail),
            2 => Error::Connection(detail),
            3 => Error::NotReceiving,
            4 => Error::AfterEnd,
            6 => Error::NotClient,
            7 => Error::GoingAway(detail),
            8 => Error::IdsUsedUp,
            9 => Error::NotOpen,
            10 => Error::OutOfOrder,
            11 => Error::WrongSide,
            12 => Error::PseudoInTrailer,
            13 => Error::TooLarge(detail),
            14 => Error::Critical,
            15 => Error::Ended,
            16 => Error::NotRequestId,
            17 => Error::Raised(detail),
            18 => Error::Memory,
            19 => Error::TableLimit,
            20 => Error::BlockedLimit,
            21 => Error::Setting(detail),
            22 => Error::FieldName(detail),
            23 => Error::FieldValue(detail),
            24 => Error::FieldCount,
            27 => Error::Malformed(Malformation::of(detail)),
            28 => Error::UnfinishedLimit,
            29 => Error::NoDatagrams,
            30 => Error::Rejected(detail),
            31 => Error::NoSessions,
            32 => Error::Argument,
            other => Error::Other(other),
        }
    }

    /// The code to close the QUIC connection with, if it has a fault.
    pub fn connection_code(&self) -> Option<u64> {
        match self {
            Error::Closed(code) | Error::Connection(code) => Some(*code),
            _ => None,
        }
    }

    /// Whether it is out of memory: the same call may be made again.
    pub fn is_memory(&self) -> bool {
        matches!(self, Error::Memory)
    }
}

impl fmt::Display for Error {
    fn fmt(&self, f: &mut fmt::Formatter<'_>) -> fmt::Result {
        let text = match self {
            Error::Closed(code) => return write!(f, "the connection is closed, {code:#x}"),
            Error::Connection(code) => return write!(f, "the connection has a fault, {code:#x}"),
            Error::GoingAway(id) => return write!(f, "the peer takes no request from stream {id} on"),
            Error::TooLarge(size) => return write!(f, "fields of {size} bytes are larger than the peer takes"),
            Error::Raised(id) => return write!(f, "an earlier GOAWAY had the id {id}"),
            Error::Setting(id) => return write!(f, "the setting {id:#x} cannot be announced"),
            Error::FieldName(index) => return write!(f, "invalid name of field {index}"),
            Error::FieldValue(index) => return write!(f, "invalid value of field {index}"),
            Error::Malformed(why) => return write!(f, "a strict peer would call the message malformed: {why}"),
            Error::Rejected(code) => return write!(f, "the request is rejected, {code:#x}"),
            Error::Other(answer) => return write!(f, "the library answered {answer}"),
            Error::NotReceiving => "the peer sends nothing on this stream",
            Error::AfterEnd => "the stream's end or reset came before",
            Error::NotClient => "only a client opens requests",
            Error::IdsUsedUp => "there are no further stream ids",
            Error::NotOpen => "the stream is not open",
            Error::OutOfOrder => "not at this place of the message",
            Error::WrongSide => "a header section of the other side",
            Error::PseudoInTrailer => "a pseudo-header field in a trailer",
            Error::Critical => "the connection needs this stream",
            Error::Ended => "the stream has ended",
            Error::NotRequestId => "not the id of a request stream",
            Error::Memory => "out of memory",
            Error::TableLimit => "the table is above its limit",
            Error::BlockedLimit => "the count of blocked streams is above its limit",
            Error::NoDatagrams => "this side or the peer announced no HTTP datagrams",
            Error::NoSessions => "there are no sessions of WebTransport",
            Error::UnfinishedLimit => "the limit on what is unfinished is below four times what is announced",
            Error::FieldCount => "too many fields",
            Error::Argument => "an argument is out of range",
        };
        f.write_str(text)
    }
}

impl std::error::Error for Error {}

/// Why nothing more comes on a stream. The connection goes on.
#[derive(Debug, Clone, Copy, PartialEq, Eq)]
#[non_exhaustive]
pub enum Fault {
    /// The message is malformed.
    Malformed(Malformation),
    /// The peer reset the stream with this code. The local half goes on, or is ended by `reset`.
    Reset(u64),
    /// The stream was canceled by `cancel`.
    Canceled,
}

impl Fault {
    /// The code that a server or a client ends the stream with (RFC 9114, sections 4.1.1 and 4.1.2):
    ///
    /// ```
    /// use beanwhile_h3::{code, Fault, Malformation};
    ///
    /// let is_server = true;
    /// assert_eq!(Fault::Malformed(Malformation::BadPath).code(is_server), code::MESSAGE_ERROR);
    /// assert_eq!(Fault::Malformed(Malformation::NoHead).code(is_server), code::REQUEST_INCOMPLETE);
    /// ```
    pub fn code(&self, server: bool) -> u64 {
        match self {
            Fault::Malformed(Malformation::NoHead) if server => code::REQUEST_INCOMPLETE,
            Fault::Malformed(Malformation::TooLong) => code::EXCESSIVE_LOAD,
            Fault::Malformed(_) => code::MESSAGE_ERROR,
            Fault::Reset(_) | Fault::Canceled => code::REQUEST_CANCELLED,
        }
    }
}

impl fmt::Display for Fault {
    fn fmt(&self, f: &mut fmt::Formatter<'_>) -> fmt::Result {
        match self {
            Fault::Malformed(why) => write!(f, "the message is malformed: {why}"),
            Fault::Reset(code) => write!(f, "the peer reset the stream, {code:#x}"),
            Fault::Canceled => f.write_str("the stream was canceled"),
        }
    }
}

impl std::error::Error for Fault {}

/// Why a message is malformed (RFC 9114, section 4.1.2): an `h3_malformation`, which says more of each. Those from `LatePseudoField` to
/// `NoTrailerField` are found if `strict` is set, and `TooLong` if there is an `unfinished_limit`.
#[derive(Debug, Clone, Copy, PartialEq, Eq)]
#[non_exhaustive]
pub enum Malformation {
    /// A field name is invalid.
    BadName,
    /// A field value is invalid.
    BadValue,
    /// There are too many fields.
    TooMany,
    /// A request's header section from a server, or a response's from a client.
    HeadOfWrongSide,
    /// A trailer section has a pseudo-header field.
    PseudoFieldInTrailer,
    /// The stream ended before a header section.
    NoHead,
    /// A pseudo-header field comes after a regular field.
    LatePseudoField,
    /// A pseudo-header field of the other side.
    WrongPseudoField,
    /// A pseudo-header field comes twice.
    RepeatedPseudoField,
    /// A connection-specific field.
    ConnectionField,
    /// The content is not as long as content-length says, or content-length is invalid.
    BadContentLength,
    /// `:protocol` without CONNECT, or not announced.
    BadProtocol,
    /// A CONNECT request with other pseudo-header fields than it may have.
    BadConnect,
    /// A pseudo-header field is missing.
    MissingPseudoField,
    /// `:scheme` is invalid.
    BadScheme,
    /// `:authority` is missing or invalid, or `host` is unlike it.
    BadAuthority,
    /// `:path` is invalid.
    BadPath,
    /// `:status` is invalid.
    BadStatus,
    /// A field that a trailer section must not have.
    NoTrailerField,
    /// A HEADERS frame is longer than `unfinished_limit` lets it be.
    TooLong,
    /// One that this crate does not know, as of a later library.
    Other(u64),
}

impl Malformation {
    /// All that are known, in the order of their numbers.
    const KNOWN: [Malformation; 20] = [
        Malformation::BadName,
        Malformation::BadValue,
        Malformation::TooMany,
        Malformation::HeadOfWrongSide,
        Malformation::PseudoFieldInTrailer,
        Malformation::NoHead,
        Malformation::LatePseudoField,
        Malformation::WrongPseudoField,
        Malformation::RepeatedPseudoField,
        Malformation::ConnectionField,
        Malformation::BadContentLength,
        Malformation::BadProtocol,
        Malformation::BadConnect,
        Malformation::MissingPseudoField,
        Malformation::BadScheme,
        Malformation::BadAuthority,
        Malformation::BadPath,
        Malformation::BadStatus,
        Malformation::NoTrailerField,
        Malformation::TooLong,
    ];

    pub(crate) fn of(number: u64) -> Malformation {
        match usize::try_from(number) {
            Ok(at) if at < Malformation::KNOWN.len() => Malformation::KNOWN[at],
            _ => Malformation::Other(number),
        }
    }
}

impl fmt::Display for Malformation {
    fn fmt(&self, f: &mut fmt::Formatter<'_>) -> fmt::Result {
        let text = match self {
            Malformation::BadName => "invalid field name",
            Malformation::BadValue => "invalid field value",
            Malformation::TooMany => "too many fields",
            Malformation::HeadOfWrongSide => "a header section of the other side",
            Malformation::PseudoFieldInTrailer => "a pseudo-header field in a trailer",
            Malformation::NoHead => "no header section",
            Malformation::LatePseudoField => "a pseudo-header field after a regular field",
            Malformation::WrongPseudoField => "a pseudo-header field of the other side",
            Malformation::RepeatedPseudoField => "a pseudo-header field comes twice",
            Malformation::ConnectionField => "a connection-specific field",
            Malformation::BadContentLength => "the content is not as long as content-length says, or content-length is invalid",
            Malformation::BadProtocol => ":protocol is not allowed",
            Malformation::BadConnect => "a CONNECT request with other pseudo-header fields than it may have",
            Malformation::MissingPseudoField => "a pseudo-header field is missing",
            Malformation::BadScheme => "invalid :scheme",
            Malformation::BadAuthority => "invalid or missing :authority",
            Malformation::BadPath => "invalid :path",
            Malformation::BadStatus => "invalid :status",
            Malformation::NoTrailerField => "a field that no trailer has",
            Malformation::TooLong => "a HEADERS frame is longer than the limit on what is unfinished",
            Malformation::Other(number) => return write!(f, "number {number}"),
        };
        f.write_str(text)
    }
}
