use crate::error::Fault;
use crate::fields::Fields;

/// A header section, of a request or a response.
#[derive(Debug, Clone, PartialEq, Eq)]
#[non_exhaustive]
pub struct Head {
    /// Its fields, pseudo-header fields among them.
    pub fields: Fields,
    /// Of a response: its status.
    pub status: Option<u16>,
}

/// What comes on a stream.
#[derive(Debug, Clone, PartialEq, Eq)]
#[non_exhaustive]
pub enum Item {
    /// A response's header section with a status from 100 to 199, after which another one comes.
    Interim(Head),
    /// The header section.
    Head(Head),
    /// A piece of the body.
    Body(Vec<u8>),
    /// The trailer section.
    Trailer(Fields),
    /// In the place of a header section or trailer section above the local limit: its size.
    TooLargeHead(u64),
    /// A WebTransport session begins, by its id.
    Session(u64),
    /// Bytes of a session, or of a [`StreamType::Other`](crate::StreamType::Other).
    Raw(Vec<u8>),
    /// The stream has ended, and all of it was returned.
    End,
    /// Nothing more comes on this stream. The connection goes on.
    Fault(Fault),
}

impl Item {
    /// Whether it is the last item of its stream: the end, or a fault. A further call of
    /// [`Endpoint::next_item`](crate::Endpoint::next_item) returns the same item.
    pub fn is_last(&self) -> bool {
        matches!(self, Item::End | Item::Fault(_))
    }
}

/// Why there is no item yet, with nothing wrong.
#[derive(Debug, Clone, Copy, PartialEq, Eq)]
#[non_exhaustive]
pub enum Pause {
    /// The next item has not come yet.
    Pending,
    /// The next header section or trailer section needs what the peer's encoder stream brings: so many insertions in all. Ask for the next
    /// item again after a delivery on that stream.
    Waiting(u64),
    /// The stream has no messages for this side.
    NoMessages,
}

/// What comes of bytes that are read where they lie ([`Endpoint::read`](crate::Endpoint::read)).
#[derive(Debug, Clone, PartialEq, Eq)]
pub enum Came<'a> {
    /// A piece of the body: a part of the bytes that were given.
    Body(&'a [u8]),
    /// Another item, or a pause. A piece of the body that the library had to keep is an [`Item::Body`].
    Next(Next),
}

/// What is next on a stream: an item, or a pause.
#[derive(Debug, Clone, PartialEq, Eq)]
pub enum Next {
    /// The next item.
    Item(Item),
    /// No item yet.
    Pause(Pause),
}
