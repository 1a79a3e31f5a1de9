//! One endpoint of an HTTP/3 connection (RFC 9114, RFC 9204), for programs that have a QUIC library: the calls of `beanwhile/h3.h`.
//!
//! An [`Endpoint`] reads no socket and starts no thread. A program reads the items of what came on a stream ([`Endpoint::read`]; or
//! [`Endpoint::deliver`] and [`Endpoint::next_item`], which copy), sends messages ([`Endpoint::open_request`], [`Endpoint::send_head`],
//! [`Endpoint::send_body`] or [`Endpoint::send_body_of`], [`Endpoint::finish`]), and hands to QUIC what waits
//! ([`Endpoint::next_to_send`], [`Endpoint::outgoing`], [`Endpoint::advance`], [`Endpoint::end_taken`]).
//!
//! A request goes from a client to a server, with the bytes carried by hand in place of QUIC:
//!
//! ```
//! use beanwhile_h3::{Config, Endpoint, Error, Item, Next};
//!
//! fn carry(from: &mut Endpoint, to: &mut Endpoint) -> Result<(), Error> {
//!     let (mut next, mut buffer) = (0, [0; 4096]);
//!     while let Some(id) = from.next_to_send(next) {
//!         let (count, is_last) = from.outgoing(id, &mut buffer)?;
//!         to.deliver(id, &buffer[..count])?;
//!         from.advance(id, count)?;
//!         if is_last {
//!             to.deliver_end(id)?;
//!             from.end_taken(id);
//!         }
//!         next = id + 1;
//!     }
//!     Ok(())
//! }
//!
//! # fn main() -> Result<(), Error> {
//! let (mut client, mut server) = (Endpoint::new(&Config::client())?, Endpoint::new(&Config::server())?);
//! let id = client.open_request()?;
//! client.send_head(id, &[(":method", "GET"), (":scheme", "https"), (":authority", "localhost"), (":path", "/a")])?;
//! client.finish(id)?;
//! carry(&mut client, &mut server)?;
//! match server.next_item(id)? {
//!     Next::Item(Item::Head(head)) => assert_eq!(head.fields.get(":path"), Some(&b"/a"[..])),
//!     other => panic!("{other:?}"),
//! }
//! assert_eq!(server.next_item(id)?, Next::Item(Item::End));
//! # Ok(())
//! # }
//! ```
//!
//! With the feature `http` messages are the types of the crate [`http`](https://docs.rs/http/1) too: `Endpoint::send_request`,
//! `Endpoint::send_response`, and `TryFrom<&Head>` of `http::Request` and `http::Response`.
//!
//! All that is `unsafe` is in `raw`, whose declarations are those of the header, and in the calls of `endpoint`.

#![warn(missing_docs)]

mod config;
mod datagram;
mod endpoint;
mod error;
mod fields;
#[cfg(feature = "http")]
mod http_types;
mod item;
mod priority;
mod raw;
mod state;
pub mod webtransport;

pub use config::Config;
pub use datagram::{capsule_head, Capsule, CapsuleReader, Datagram, HeadBytes};
pub use endpoint::Endpoint;
pub use error::{code, Error, Fault, Malformation};
pub use fields::{AsField, Field, Fields, FieldsIter};
#[cfg(feature = "http")]
pub use http_types::Protocol;
pub use item::{Came, Head, Item, Next, Pause};
pub use priority::Priority;
pub use state::{ClosedStream, ConnectionEvent, ConnectionState, PeerLimits, StreamState, StreamType, Version};

/// The ids of the local control, encoder and decoder stream, if they are the first unidirectional streams that this side opens:
///
/// ```
/// assert_eq!(beanwhile_h3::own_ids(true), [3, 7, 11]);
/// ```
pub fn own_ids(server: bool) -> [u64; 3] {
    if server {
        [3, 7, 11]
    } else {
        [2, 6, 10]
    }
}
