use crate::config::Config;
use crate::datagram::{Datagram, HeadBytes};
use crate::error::{Error, Fault, Malformation};
use crate::fields::{in_a_row, AsField, Fields};
use crate::item::{Came, Head, Item, Next, Pause};
use crate::priority::Priority;
use crate::raw::{self, FieldSize, Handle, RawConnection, RawItem, RawStream};
use crate::state::{ClosedStream, ConnectionEvent, ConnectionState, PeerLimits, StreamState, StreamType};
use std::ptr;

const KEPT: u32 = 5;

// kinds that `read` looks at
const PENDING: u32 = 9;
const WAITING: u32 = 10;
const NO_MESSAGES: u32 = 11;
const BODY_GIVEN: u32 = 17;

/// A call of the library that sends a list of fields.
type SendsList =
    unsafe extern "C" fn(Handle, u64, *const FieldSize, usize, *const u8, usize, *const u8, usize, *mut u64, *mut Handle) -> u32;

/// One endpoint of a connection. `&mut self` is the rule of one call at a time, and `Drop` frees it. It may move between threads.
pub struct Endpoint {
    handle: Handle,
}

// SAFETY: nothing of an endpoint is shared or bound to a thread: that its handle is Send is proved (crates/h3_c/proofs, the proof of Send).
unsafe impl Send for Endpoint {}

impl Drop for Endpoint {
    fn drop(&mut self) {
        // SAFETY: the handle holds an endpoint from `new` on, and is not used after this.
        unsafe { raw::h3_raw_free(self.handle) }
    }
}

impl std::fmt::Debug for Endpoint {
    fn fmt(&self, f: &mut std::fmt::Formatter<'_>) -> std::fmt::Result {
        f.debug_struct("Endpoint").finish_non_exhaustive()
    }
}

fn answered(answer: u32, detail: u64) -> Result<(), Error> {
    match answer {
        0 => Ok(()),
        answer => Err(Error::of(answer, detail)),
    }
}

// SAFETY, of all calls below: the handle holds an endpoint, since `new` returns one only if it was made, and each call writes the handle
// back through its last argument. Pointers and lengths are those of slices and of local variables.
impl Endpoint {
    /// Makes an endpoint, whose settings wait to be sent on its control stream.
    ///
    /// # Errors
    ///
    /// [`Error::Argument`] (the value of `grease`), [`Error::TableLimit`], [`Error::BlockedLimit`], [`Error::Setting`],
    /// [`Error::UnfinishedLimit`], [`Error::Memory`].
    pub fn new(config: &Config) -> Result<Endpoint, Error> {
        let (numbers, mut handle, mut detail) = (config.numbers(), Handle { at: ptr::null_mut() }, 0);
        let answer = unsafe { raw::h3_raw_new(numbers.as_ptr(), numbers.len(), &mut detail, &mut handle) };
        answered(answer, detail)?;
        Ok(Endpoint { handle })
    }

    /// Makes an endpoint that announces further settings (an id and a value each) after those of the configuration, at most 8, for an
    /// extension that the caller speaks.
    ///
    /// # Errors
    ///
    /// [`Error::Argument`] (the value of `grease`; more than 8 settings), [`Error::TableLimit`], [`Error::BlockedLimit`],
    /// [`Error::UnfinishedLimit`], [`Error::Setting`], [`Error::Memory`].
    pub fn new_with(config: &Config, further: &[(u64, u64)]) -> Result<Endpoint, Error> {
        let (numbers, mut handle, mut detail) = (config.numbers(), Handle { at: ptr::null_mut() }, 0);
        let pairs: Vec<u64> = further.iter().flat_map(|&(id, value)| [id, value]).collect();
        let answer = unsafe {
            raw::h3_raw_new_with(numbers.as_ptr(), numbers.len(), pairs.as_ptr(), pairs.len(), &mut detail, &mut handle)
        };
        answered(answer, detail)?;
        Ok(Endpoint { handle })
    }

    /// Makes a client for a connection that sends 0-RTT data. It remembers settings of its server, as `remember_settings` returned them in an
    /// earlier connection (RFC 9114, section 7.2.4.2), and announces further settings as `new_with` does.
    ///
    /// # Errors
    ///
    /// Those of `new_with`; [`Error::Argument`] also of a server, or of bytes that are no settings.
    pub fn new_resumed(config: &Config, remembered: &[u8], further: &[(u64, u64)]) -> Result<Endpoint, Error> {
        let (numbers, mut handle, mut detail) = (config.numbers(), Handle { at: ptr::null_mut() }, 0);
        let pairs: Vec<u64> = further.iter().flat_map(|&(id, value)| [id, value]).collect();
        let (start, len) = (remembered.as_ptr(), remembered.len());
        let answer = unsafe {
            raw::h3_raw_new_resumed(numbers.as_ptr(), numbers.len(), pairs.as_ptr(), pairs.len(), start, len, &mut detail, &mut handle)
        };
        answered(answer, detail)?;
        Ok(Endpoint { handle })
    }

    /// A call that answers a number, and may name another.
    fn call(&mut self, call: impl FnOnce(Handle, *mut u64, *mut Handle) -> u32) -> Result<(), Error> {
        let mut detail = 0;
        let answer = call(self.handle, &mut detail, &mut self.handle);
        answered(answer, detail)
    }

    /// A delivery, which is taken too if an allocation failed while it was read (`H3_KEPT`): the next delivery or pull reads on.
    fn delivery(&mut self, call: impl FnOnce(Handle, *mut u64, *mut Handle) -> u32) -> Result<(), Error> {
        let mut detail = 0;
        match call(self.handle, &mut detail, &mut self.handle) {
            KEPT => Ok(()),
            answer => answered(answer, detail),
        }
    }

    /// Opens a client's next request, and returns the id of its stream: 0, 4, 8, ..
    ///
    /// QUIC counts its streams by itself. Call this first, and open no stream of QUIC if it is refused. If it gives an id and QUIC has
    /// no room, keep the id for the next stream that QUIC opens.
    ///
    /// # Errors
    ///
    /// [`Error::Closed`], [`Error::NotClient`], [`Error::GoingAway`] (the peer takes no further request), [`Error::IdsUsedUp`],
    /// [`Error::Memory`].
    pub fn open_request(&mut self) -> Result<u64, Error> {
        let mut id = 0;
        self.call(|handle, detail, out| unsafe { raw::h3_raw_open_request(handle, &mut id, detail, out) })?;
        Ok(id)
    }

    /// The id that `open_request` gives next, or its refusal. It opens nothing.
    ///
    /// # Errors
    ///
    /// Those of [`open_request`](Endpoint::open_request), but for [`Error::Memory`].
    pub fn next_request_id(&mut self) -> Result<u64, Error> {
        let mut id = 0;
        self.call(|handle, detail, out| unsafe { raw::h3_raw_next_request_id(handle, &mut id, detail, out) })?;
        Ok(id)
    }

    /// Opens the request of an id that QUIC gave, and all with lower ids that are not open.
    ///
    /// # Errors
    ///
    /// Those of [`open_request`](Endpoint::open_request), [`Error::NotRequestId`], [`Error::OutOfOrder`] (the id is below the next one),
    /// [`Error::Argument`] (the id is 2^62 or more).
    pub fn open_request_at(&mut self, id: u64) -> Result<(), Error> {
        self.call(|handle, detail, out| unsafe { raw::h3_raw_open_request_at(handle, id, detail, out) })
    }

    fn send_list<F: AsField>(&mut self, call: SendsList, id: u64, fields: &[F]) -> Result<(), Error> {
        let row = in_a_row(fields).ok_or(Error::Argument)?;
        let (sizes, flags, bytes) = (row.sizes.as_ptr(), row.flags.as_ptr(), row.bytes.as_ptr());
        let (count, len) = (fields.len(), row.bytes.len());
        self.call(|handle, detail, out| unsafe { call(handle, id, sizes, count, flags, count, bytes, len, detail, out) })
    }

    /// Sends a header section as the list that it is given as: put pseudo-header fields in front, each once. A response's with a status
    /// from 100 to 199 is an interim one, after which another goes. Fields are pairs of a name and a value, or of the type [`Field`]:
    ///
    /// ```
    /// # use beanwhile_h3::{AsField, Config, Endpoint, Error, Field};
    /// # fn main() -> Result<(), Error> {
    /// let mut client = Endpoint::new(&Config::client())?;
    /// let id = client.open_request()?;
    /// let pairs = [(":method", "GET"), (":scheme", "https"), (":authority", "localhost"), (":path", "/")];
    /// let mut fields: Vec<Field> = pairs.iter().map(AsField::as_field).collect();
    /// fields.push(Field { name: b"authorization", value: b"Basic YTpi", never_indexed: true });
    /// client.send_head(id, &fields)?;
    /// # Ok(())
    /// # }
    /// ```
    ///
    /// [`Field`]: crate::Field
    ///
    /// # Errors
    ///
    /// [`Error::FieldName`], [`Error::FieldValue`] or [`Error::FieldCount`] of the list; [`Error::Closed`], [`Error::NotOpen`],
    /// [`Error::OutOfOrder`], [`Error::WrongSide`], [`Error::Malformed`] (a strict endpoint), [`Error::TooLarge`] (for the peer),
    /// [`Error::Argument`] (the id is 2^62 or more), [`Error::Memory`]. Nothing was sent then.
    pub fn send_head<F: AsField>(&mut self, id: u64, fields: &[F]) -> Result<(), Error> {
        self.send_list(raw::h3_raw_send_head, id, fields)
    }

    /// Sends a trailer section as the list that it is given as:
    ///
    /// ```
    /// # use beanwhile_h3::{Config, Endpoint, Error};
    /// # fn main() -> Result<(), Error> {
    /// let mut client = Endpoint::new(&Config::client())?;
    /// let id = client.open_request()?;
    /// client.send_head(id, &[(":method", "POST"), (":scheme", "https"), (":authority", "localhost"), (":path", "/")])?;
    /// client.send_body(id, b"body")?;
    /// client.send_trailer(id, &[("digest", "x=1")])?;
    /// client.finish(id)?;
    /// assert!(client.stream(id)?.waiting > 0);
    /// # Ok(())
    /// # }
    /// ```
    ///
    /// # Errors
    ///
    /// [`Error::FieldName`], [`Error::FieldValue`] or [`Error::FieldCount`] of the list; [`Error::Closed`], [`Error::NotOpen`],
    /// [`Error::OutOfOrder`], [`Error::PseudoInTrailer`], [`Error::Malformed`] (a strict endpoint), [`Error::TooLarge`] (for the peer),
    /// [`Error::Argument`] (the id is 2^62 or more), [`Error::Memory`]. Nothing was sent then.
    pub fn send_trailer<F: AsField>(&mut self, id: u64, fields: &[F]) -> Result<(), Error> {
        self.send_list(raw::h3_raw_send_trailer, id, fields)
    }

    /// Sends a piece of a body. The bytes are copied.
    ///
    /// # Errors
    ///
    /// [`Error::Closed`], [`Error::NotOpen`], [`Error::OutOfOrder`], [`Error::Malformed`] (a strict endpoint: more than content-length
    /// says), [`Error::Argument`] (the id is 2^62 or more), [`Error::Memory`].
    pub fn send_body(&mut self, id: u64, bytes: &[u8]) -> Result<(), Error> {
        self.call(|handle, detail, out| unsafe { raw::h3_raw_send_body(handle, id, bytes.as_ptr(), bytes.len(), detail, out) })
    }

    /// Sends a piece of a body of this length, whose bytes stay with you: the library never reads them. `outgoing_past` says when they go
    /// out. Keep them until QUIC needs them no more.
    ///
    /// # Errors
    ///
    /// Those of [`send_body`](Endpoint::send_body).
    pub fn send_body_of(&mut self, id: u64, len: usize) -> Result<(), Error> {
        self.call(|handle, detail, out| unsafe { raw::h3_raw_send_body_of(handle, id, len, detail, out) })
    }

    /// The local message is whole: FIN goes after what waits.
    ///
    /// # Errors
    ///
    /// [`Error::Closed`], [`Error::NotOpen`], [`Error::OutOfOrder`], [`Error::Malformed`] (a strict endpoint: less than content-length
    /// says), [`Error::Argument`] (the id is 2^62 or more).
    pub fn finish(&mut self, id: u64) -> Result<(), Error> {
        self.call(|handle, detail, out| unsafe { raw::h3_raw_finish(handle, id, detail, out) })
    }

    /// Sending on a stream ends here, and what waits is dropped: QUIC sends RESET_STREAM.
    ///
    /// # Errors
    ///
    /// [`Error::Closed`], [`Error::Critical`], [`Error::NotOpen`], [`Error::Ended`] (nothing is left to be sent), [`Error::Argument`] (the
    /// id is 2^62 or more).
    pub fn reset(&mut self, id: u64) -> Result<(), Error> {
        self.call(|handle, detail, out| unsafe { raw::h3_raw_reset(handle, id, detail, out) })
    }

    /// Nothing more of a request stream is needed: QUIC sends STOP_SENDING.
    ///
    /// # Errors
    ///
    /// [`Error::Closed`], [`Error::Critical`], [`Error::NotOpen`], [`Error::Ended`] (its end was pulled, its reset came, or it was canceled),
    /// [`Error::Argument`] (the id is 2^62 or more), [`Error::Memory`].
    pub fn cancel(&mut self, id: u64) -> Result<(), Error> {
        self.call(|handle, detail, out| unsafe { raw::h3_raw_cancel(handle, id, detail, out) })
    }

    /// Cancels and resets a request stream, each if that half is open: which frames QUIC is to send for it.
    ///
    /// # Errors
    ///
    /// [`Error::Closed`], [`Error::Critical`], [`Error::NotOpen`], [`Error::Argument`] (the id is 2^62 or more), [`Error::Memory`].
    pub fn close_stream(&mut self, id: u64) -> Result<ClosedStream, Error> {
        let (mut stop_sending, mut reset_stream) = (0, 0);
        self.call(|handle, detail, out| unsafe { raw::h3_raw_close_stream(handle, id, &mut stop_sending, &mut reset_stream, detail, out) })?;
        Ok(ClosedStream {
            stop_sending: stop_sending == 1,
            reset_stream: reset_stream == 1,
        })
    }

    /// Opens a stream of the WebTransport session whose request has this id: both ways, or from this side alone. QUIC opens the stream of the
    /// id that it returns.
    ///
    /// # Errors
    ///
    /// [`Error::Closed`], [`Error::NoSessions`], [`Error::NotRequestId`], [`Error::NotOpen`] (no header section was sent on the session's
    /// request, sending there has ended, or the peer's end or reset of it came), [`Error::GoingAway`], [`Error::IdsUsedUp`],
    /// [`Error::Argument`] (the id is 2^62 or more), [`Error::Memory`].
    pub fn open_session_stream(&mut self, session: u64, both_ways: bool) -> Result<u64, Error> {
        let mut id = 0;
        self.call(|handle, detail, out| unsafe { raw::h3_raw_open_session_stream(handle, session, both_ways.into(), &mut id, detail, out) })?;
        Ok(id)
    }

    /// Sends bytes on a stream of a WebTransport session, as they are.
    ///
    /// # Errors
    ///
    /// [`Error::Closed`], [`Error::NotOpen`], [`Error::OutOfOrder`] (it was finished or reset), [`Error::Argument`] (the id is 2^62 or more),
    /// [`Error::Memory`].
    pub fn send_raw(&mut self, id: u64, bytes: &[u8]) -> Result<(), Error> {
        self.call(|handle, detail, out| unsafe { raw::h3_raw_send_raw(handle, id, bytes.as_ptr(), bytes.len(), detail, out) })
    }

    /// The lowest id from `from` on of a stream of a WebTransport session. When the session ends, close each of them.
    pub fn next_of_session(&mut self, session: u64, from: u64) -> Option<u64> {
        let mut id = 0;
        self.call(|handle, _, out| unsafe { raw::h3_raw_next_of_session(handle, session, from, &mut id, out) }).ok()?;
        Some(id)
    }

    /// A server takes no request from this id on, a multiple of 4, or a client no push (RFC 9114, section 5.2).
    ///
    /// # Errors
    ///
    /// [`Error::Closed`], [`Error::NotRequestId`], [`Error::Raised`] (an earlier GOAWAY had a lower id), [`Error::Argument`] (the id is
    /// 2^62 or more), [`Error::Memory`].
    pub fn goaway(&mut self, id: u64) -> Result<(), Error> {
        self.call(|handle, detail, out| unsafe { raw::h3_raw_goaway(handle, id, detail, out) })
    }

    /// The first step of a shutdown (RFC 9114, section 5.2): a GOAWAY with the greatest id. The peer opens no further request once it
    /// came, and all that it sent until then is processed.
    ///
    /// ```
    /// # use beanwhile_h3::{Config, Endpoint, Error};
    /// # fn main() -> Result<(), Error> {
    /// let mut server = Endpoint::new(&Config::server())?;
    /// server.shutdown_notice()?; // a round trip later:
    /// server.shutdown()?;
    /// assert_eq!(server.first_unseen(), 0); // no request came
    /// # Ok(())
    /// # }
    /// ```
    ///
    /// # Errors
    ///
    /// [`Error::Closed`], [`Error::Memory`].
    pub fn shutdown_notice(&mut self) -> Result<(), Error> {
        self.call(|handle, detail, out| unsafe { raw::h3_raw_shutdown_notice(handle, detail, out) })
    }

    /// The second step: a GOAWAY of a server with `first_unseen`, of a client with 0. A delivery of a later request is
    /// [`Error::Rejected`] then: deliver no more of its stream, and QUIC sends RESET_STREAM and STOP_SENDING with that code.
    ///
    /// # Errors
    ///
    /// [`Error::Closed`], [`Error::IdsUsedUp`] (every id was seen, and no GOAWAY was sent), [`Error::Memory`].
    pub fn shutdown(&mut self) -> Result<(), Error> {
        self.call(|handle, detail, out| unsafe { raw::h3_raw_shutdown(handle, detail, out) })
    }

    /// The first id of a request stream above all of which anything came: no request from there on was processed.
    pub fn first_unseen(&mut self) -> u64 {
        let mut id = 0;
        let _ = self.call(|handle, _, out| unsafe { raw::h3_raw_first_unseen(handle, &mut id, out) });
        id
    }

    /// Whether nothing is left to be done, so that the connection can be closed without losing a request. It needs `end_taken` for each
    /// FIN.
    pub fn is_drained(&mut self) -> bool {
        let mut drained = 0;
        self.call(|handle, _, out| unsafe { raw::h3_raw_is_drained(handle, &mut drained, out) }).is_ok() && drained == 1
    }

    /// The lowest stream from an id on whose last item was [`Pause::Waiting`] and whose insertions have come since.
    pub fn next_unblocked(&mut self, from: u64) -> Option<u64> {
        let mut id = 0;
        self.call(|handle, _, out| unsafe { raw::h3_raw_next_unblocked(handle, from, &mut id, out) }).ok()?;
        Some(id)
    }

    /// The lowest stream from an id on on which bytes wait, or an end that `end_taken` did not speak of.
    pub fn next_to_send(&mut self, from: u64) -> Option<u64> {
        let mut id = 0;
        self.call(|handle, _, out| unsafe { raw::h3_raw_next_to_send(handle, from, &mut id, out) }).ok()?;
        Some(id)
    }

    /// The stream that sends next (RFC 9218, section 10): the local streams first, then the most urgent, by turns.
    pub fn next_by_priority(&mut self) -> Option<u64> {
        let mut id = 0;
        self.call(|handle, _, out| unsafe { raw::h3_raw_next_by_priority(handle, &mut id, out) }).ok()?;
        Some(id)
    }

    /// A request stream has this priority from now on, whatever its client says.
    ///
    /// # Errors
    ///
    /// [`Error::Argument`], [`Error::Closed`], [`Error::NotRequestId`], [`Error::NotOpen`], [`Error::Memory`].
    pub fn set_priority(&mut self, id: u64, priority: Priority) -> Result<(), Error> {
        let (urgency, incremental) = (priority.urgency.into(), priority.incremental.into());
        self.call(|handle, detail, out| unsafe { raw::h3_raw_set_priority(handle, id, urgency, incremental, detail, out) })
    }

    /// Sets the priority that the request's `priority` field asks for (`Priority::read`). A PRIORITY_UPDATE frame of the client overrides
    /// it, and so does `set_priority`. The default is urgency 3, not incremental.
    ///
    /// # Errors
    ///
    /// [`Error::Argument`], [`Error::Closed`], [`Error::NotRequestId`], [`Error::NotOpen`], [`Error::Memory`].
    pub fn set_initial_priority(&mut self, id: u64, priority: Priority) -> Result<(), Error> {
        let (urgency, incremental) = (priority.urgency.into(), priority.incremental.into());
        self.call(|handle, detail, out| unsafe {
            raw::h3_raw_set_initial_priority(handle, id, urgency, incremental, detail, out)
        })
    }

    /// The priority that counts of a request stream; `None` if it is not open.
    pub fn priority(&mut self, id: u64) -> Option<Priority> {
        let (mut urgency, mut incremental) = (0, 0);
        self.call(|handle, _, out| unsafe { raw::h3_raw_priority(handle, id, &mut urgency, &mut incremental, out) })
            .ok()?;
        Some(Priority { urgency: urgency as u8, incremental: incremental != 0 })
    }

    /// Tells the server the priority of a response from now on (RFC 9218, section 7.2).
    ///
    /// # Errors
    ///
    /// [`Error::Argument`], [`Error::Closed`], [`Error::NotClient`], [`Error::NotRequestId`], [`Error::NotOpen`], [`Error::Ended`],
    /// [`Error::Memory`].
    pub fn send_priority(&mut self, id: u64, priority: Priority) -> Result<(), Error> {
        let (urgency, incremental) = (priority.urgency.into(), priority.incremental.into());
        self.call(|handle, detail, out| unsafe { raw::h3_raw_send_priority(handle, id, urgency, incremental, detail, out) })
    }

    /// QUIC has no credit for a stream, so that `next_by_priority` skips it, or has it again.
    ///
    /// # Errors
    ///
    /// [`Error::Argument`], [`Error::Closed`], [`Error::NotOpen`], [`Error::Memory`].
    pub fn hold(&mut self, id: u64, held: bool) -> Result<(), Error> {
        self.call(|handle, detail, out| unsafe { raw::h3_raw_hold(handle, id, held.into(), detail, out) })
    }

    /// Copies the first bytes that wait on a stream into the buffer. Returns how many, and whether the stream ends after them. They wait
    /// until `advance`.
    ///
    /// # Errors
    ///
    /// [`Error::Argument`]: the id is 2^62 or more, or bytes follow that you hold (`send_body_of`).
    pub fn outgoing(&mut self, id: u64, buffer: &mut [u8]) -> Result<(usize, bool), Error> {
        match self.outgoing_past(id, buffer)? {
            (count, 0, is_last) => Ok((count, is_last)),
            _ => Err(Error::Argument),
        }
    }

    /// Copies the first bytes that wait on a stream into the buffer. Returns how many; how many bytes of a body that you hold
    /// (`send_body_of`) come next; and whether the stream ends after both. All wait until `advance`, which counts both.
    ///
    /// # Errors
    ///
    /// [`Error::Argument`]: the id is 2^62 or more.
    pub fn outgoing_past(&mut self, id: u64, buffer: &mut [u8]) -> Result<(usize, usize, bool), Error> {
        let (mut count, mut past, mut end) = (0, 0, 0);
        self.call(|handle, _, out| unsafe {
            raw::h3_raw_outgoing(handle, id, buffer.as_mut_ptr(), buffer.len(), &mut count, &mut past, &mut end, out)
        })?;
        Ok((count, past, end == 1))
    }

    /// QUIC has so many bytes of a stream: at most those that wait.
    ///
    /// # Errors
    ///
    /// [`Error::Argument`]: the id is 2^62 or more, or fewer bytes wait.
    pub fn advance(&mut self, id: u64, count: usize) -> Result<(), Error> {
        self.call(|handle, _, out| unsafe { raw::h3_raw_advance(handle, id, count, out) })
    }

    /// QUIC has the FIN of a stream: `next_to_send` names it no longer. Returns whether an end was next.
    pub fn end_taken(&mut self, id: u64) -> bool {
        self.call(|handle, _, out| unsafe { raw::h3_raw_end_taken(handle, id, out) }).is_ok()
    }

    /// Delivers bytes that came on a stream, after those that came before.
    ///
    /// # Errors
    ///
    /// [`Error::Connection`]: close the connection with this code. [`Error::NotReceiving`], [`Error::NotOpen`], [`Error::AfterEnd`],
    /// [`Error::Argument`] (the id is 2^62 or more). [`Error::Memory`]: nothing was taken, deliver again.
    pub fn deliver(&mut self, id: u64, bytes: &[u8]) -> Result<(), Error> {
        self.delivery(|handle, detail, out| unsafe { raw::h3_raw_deliver(handle, id, bytes.as_ptr(), bytes.len(), detail, out) })
    }

    /// The stream's FIN came.
    ///
    /// # Errors
    ///
    /// Those of [`deliver`](Endpoint::deliver).
    pub fn deliver_end(&mut self, id: u64) -> Result<(), Error> {
        self.delivery(|handle, detail, out| unsafe { raw::h3_raw_deliver_end(handle, id, detail, out) })
    }

    /// RESET_STREAM came with this code.
    ///
    /// # Errors
    ///
    /// Those of [`deliver`](Endpoint::deliver).
    pub fn deliver_reset(&mut self, id: u64, code: u64) -> Result<(), Error> {
        self.delivery(|handle, detail, out| unsafe { raw::h3_raw_deliver_reset(handle, id, code, detail, out) })
    }

    /// Bytes came on a stream, after those that came before, and with `end` its FIN after them. Returns what is next on the stream, and
    /// moves `bytes` past what it took. Call it again, until a pause or the last item. A piece of the body is a part of `bytes`, and
    /// nothing of it is copied or kept:
    ///
    /// ```
    /// # use beanwhile_h3::{Came, Endpoint, Error, Item, Next};
    /// # fn answer(server: &mut Endpoint, id: u64, packet: &[u8], end: bool, save: impl Fn(&[u8])) -> Result<(), Error> {
    /// let mut rest = packet;
    /// loop {
    ///     match server.read(id, &mut rest, end)? {
    ///         Came::Body(piece) => save(piece),
    ///         Came::Next(Next::Item(Item::Head(_))) => server.send_head(id, &[(":status", "200")])?,
    ///         Came::Next(Next::Item(item)) if item.is_last() => return server.finish(id),
    ///         Came::Next(Next::Pause(_)) => return Ok(()),
    ///         _ => {}
    ///     }
    /// }
    /// # }
    /// ```
    ///
    /// # Errors
    ///
    /// Those of [`deliver`](Endpoint::deliver) and of [`next_item`](Endpoint::next_item). After [`Error::Memory`] nothing is lost: go on
    /// with what is left of `bytes`.
    pub fn read<'a>(&mut self, id: u64, bytes: &mut &'a [u8], end: bool) -> Result<Came<'a>, Error> {
        loop {
            let (given, mut used, mut detail, mut item) = (*bytes, 0, 0, RawItem::default());
            let (at, len, out) = (given.as_ptr(), given.len(), &mut self.handle);
            let answer = unsafe { raw::h3_raw_read(*out, id, at, len, end.into(), &mut used, &mut item, &mut detail, out) };
            *bytes = &given[used..];
            let is_pause = answer == 0 && matches!(item.kind, PENDING | WAITING | NO_MESSAGES);
            if answer == KEPT || (is_pause && !bytes.is_empty()) {
                continue;
            }
            answered(answer, detail)?;
            if item.kind == BODY_GIVEN {
                let from = item.number as usize;
                return Ok(Came::Body(&given[from..from + item.len]));
            }
            return self.next_of(item).map(Came::Next);
        }
    }

    /// What is next on a stream: an item, or a pause. All that came has been read at the pause:
    ///
    /// ```
    /// # use beanwhile_h3::{Endpoint, Error, Item, Next};
    /// # fn answer(server: &mut Endpoint, id: u64) -> Result<(), Error> {
    /// while let Next::Item(item) = server.next_item(id)? {
    ///     let is_last = item.is_last();
    ///     match item {
    ///         Item::Head(_) => server.send_head(id, &[(":status", "200")])?,
    ///         Item::Body(bytes) => server.send_body(id, &bytes)?,
    ///         Item::End => server.finish(id)?,
    ///         Item::Fault(fault) => eprintln!("stream {id}: {fault}"),
    ///         _ => {}
    ///     }
    ///     if is_last {
    ///         break;
    ///     }
    /// }
    /// # Ok(())
    /// # }
    /// ```
    ///
    /// # Errors
    ///
    /// [`Error::Connection`]: the connection has a fault, and every stream with it. [`Error::Memory`]: nothing is lost, ask again.
    /// [`Error::Argument`]: the id is 2^62 or more. A fault of this stream alone is no error but an item, [`Item::Fault`].
    pub fn next_item(&mut self, id: u64) -> Result<Next, Error> {
        let mut item = RawItem::default();
        self.call(|handle, _, out| unsafe { raw::h3_raw_pull(handle, id, &mut item, out) })?;
        self.next_of(item)
    }

    /// What the item has that the endpoint holds.
    fn next_of(&mut self, item: RawItem) -> Result<Next, Error> {
        let number = item.number;
        Ok(Next::Item(match item.kind {
            1 => Item::Interim(self.head(item)?),
            2 => Item::Head(self.head(item)?),
            3 => Item::Body(self.bytes(item.len)?),
            4 => Item::Trailer(self.fields(item)?),
            5 => Item::TooLargeHead(number),
            6 => Item::Session(number),
            7 => Item::Raw(self.bytes(item.len)?),
            8 => Item::End,
            9 => return Ok(Next::Pause(Pause::Pending)),
            10 => return Ok(Next::Pause(Pause::Waiting(number))),
            11 => return Ok(Next::Pause(Pause::NoMessages)),
            12 => return Err(Error::Connection(number)),
            13 => Item::Fault(Fault::Malformed(Malformation::of(number))),
            14 => Item::Fault(Fault::Reset(number)),
            15 => Item::Fault(Fault::Canceled),
            16 => return Err(Error::Memory),
            other => return Err(Error::Other(other)),
        }))
    }

    fn head(&mut self, item: RawItem) -> Result<Head, Error> {
        let status = u16::try_from(item.status).ok().filter(|status| *status != 0);
        Ok(Head { fields: self.fields(item)?, status })
    }

    fn fields(&mut self, item: RawItem) -> Result<Fields, Error> {
        let (count, len) = (item.fields, item.len);
        let (mut sizes, mut flags, mut bytes) = (vec![FieldSize::default(); count], vec![0; count], vec![0; len]);
        self.call(|handle, _, out| unsafe {
            raw::h3_raw_item_fields(handle, sizes.as_mut_ptr(), count, flags.as_mut_ptr(), count, bytes.as_mut_ptr(), len, out)
        })?;
        Ok(Fields::of(&sizes, flags, bytes))
    }

    fn bytes(&mut self, count: usize) -> Result<Vec<u8>, Error> {
        let (mut bytes, mut copied) = (vec![0; count], 0);
        self.call(|handle, _, out| unsafe { raw::h3_raw_item_bytes(handle, 0, bytes.as_mut_ptr(), count, &mut copied, out) })?;
        bytes.truncate(copied);
        Ok(bytes)
    }

    /// What stands in front of the payload of an HTTP datagram for the request on a stream, in 1 to 8 bytes: send both as the payload of a
    /// QUIC DATAGRAM frame (RFC 9297, section 2.1).
    ///
    /// # Errors
    ///
    /// [`Error::Closed`], [`Error::NotRequestId`], [`Error::NoDatagrams`], [`Error::NotOpen`], [`Error::Ended`] (sending on the stream was
    /// finished or reset), [`Error::Argument`] (the id is 2^62 or more).
    pub fn datagram_head(&mut self, id: u64) -> Result<HeadBytes, Error> {
        let mut head = HeadBytes::new();
        let (at, room) = (head.bytes.as_mut_ptr(), head.bytes.len());
        self.call(|handle, detail, out| unsafe { raw::h3_raw_datagram_head(handle, id, at, room, &mut head.len, detail, out) })?;
        Ok(head)
    }

    /// What came as the payload of a QUIC DATAGRAM frame. Nothing of it is kept.
    ///
    /// # Errors
    ///
    /// [`Error::Connection`]: it is malformed, or the connection had a fault before: close the connection with this code.
    pub fn read_datagram<'a>(&mut self, bytes: &'a [u8]) -> Result<Datagram<'a>, Error> {
        let (mut id, mut from) = (0, 0);
        let read = self.call(|handle, detail, out| unsafe {
            raw::h3_raw_read_datagram(handle, bytes.as_ptr(), bytes.len(), &mut id, &mut from, detail, out)
        });
        match read {
            Ok(()) => Ok(Datagram::For { id, payload: &bytes[from..] }),
            Err(Error::NotOpen) => Ok(Datagram::Early(id)),
            Err(Error::AfterEnd) => Ok(Datagram::Late),
            Err(Error::NoDatagrams) => Ok(Datagram::Off),
            Err(error) => Err(error),
        }
    }

    /// What is to be seen of a stream.
    ///
    /// # Errors
    ///
    /// [`Error::Argument`]: the id is 2^62 or more.
    pub fn stream(&mut self, id: u64) -> Result<StreamState, Error> {
        let mut state = RawStream::default();
        self.call(|handle, _, out| unsafe { raw::h3_raw_stream(handle, id, &mut state, out) })?;
        Ok(StreamState {
            waiting: state.waiting,
            unread: state.unread,
            has_outgoing: state.has_outgoing == 1,
            is_finished: state.is_finished == 1,
            is_reset: state.is_reset == 1,
            tries: state.tries,
        })
    }

    /// How many bytes of the payload of the frame under way are still to come on a request stream or the peer's control stream.
    ///
    /// # Errors
    ///
    /// [`Error::Argument`]: the id is 2^62 or more.
    pub fn frame_left(&mut self, id: u64) -> Result<u64, Error> {
        let mut left = 0;
        self.call(|handle, _, out| unsafe { raw::h3_raw_frame_left(handle, id, &mut left, out) })?;
        Ok(left)
    }

    /// The type of a unidirectional stream of the peer, by what came on it. `None`: it is another stream.
    pub fn stream_kind(&mut self, id: u64) -> Option<StreamType> {
        let mut kind = 0;
        self.call(|handle, _, out| unsafe { raw::h3_raw_stream_kind(handle, id, &mut kind, out) }).ok()?;
        match kind {
            0 => Some(StreamType::Untold),
            1 => Some(StreamType::Control),
            2 => Some(StreamType::Encoder),
            3 => Some(StreamType::Decoder),
            4 => Some(StreamType::Push),
            5 => Some(StreamType::Session),
            7 => Some(StreamType::Other),
            _ => Some(StreamType::Unknown),
        }
    }

    /// The type of a `StreamType::Other`, by the number that it begins with. `None`: it is another stream.
    pub fn other_type(&mut self, id: u64) -> Option<u64> {
        let mut found = 0;
        self.call(|handle, _, out| unsafe { raw::h3_raw_other_type(handle, id, &mut found, out) }).ok()?;
        Some(found)
    }

    /// What is to be seen of the connection.
    ///
    /// # Errors
    ///
    /// None of an endpoint that this crate made; a later library may have some.
    pub fn connection(&mut self) -> Result<ConnectionState, Error> {
        let mut state = RawConnection::default();
        self.call(|handle, _, out| unsafe { raw::h3_raw_connection(handle, &mut state, out) })?;
        let peer = PeerLimits { table: state.peer_table, blocked: state.peer_blocked, section: state.peer_section };
        Ok(ConnectionState {
            sending_table: state.sending_table,
            receiving_table: state.receiving_table,
            waiting_heads: state.waiting_heads,
            sent: state.sent,
            goaway: (state.has_goaway == 1).then_some(state.goaway),
            peer: (state.has_settings == 1).then_some(peer),
        })
    }

    /// The next event of the connection, each once, or `None`. After data on a unidirectional stream of the peer, call it until it returns
    /// `None`. Of several GOAWAY frames it returns the last one.
    pub fn next_event(&mut self) -> Option<ConnectionEvent> {
        let (mut kind, mut number) = (0, 0);
        self.call(|handle, _, out| unsafe { raw::h3_raw_next_event(handle, &mut kind, &mut number, out) }).ok()?;
        match kind {
            1 => Some(ConnectionEvent::Settings),
            _ => Some(ConnectionEvent::Goaway(number)),
        }
    }

    /// A setting that the peer announced (RFC 9114, section 7.2.4).
    pub fn peer_setting(&mut self, setting: u64) -> Option<u64> {
        let mut value = 0;
        self.call(|handle, _, out| unsafe { raw::h3_raw_peer_setting(handle, setting, &mut value, out) }).ok()?;
        Some(value)
    }

    /// The settings of the server, to be kept with its session ticket for `new_resumed`. `None`: they have not come, or there is no memory.
    pub fn remember_settings(&mut self) -> Option<Vec<u8>> {
        let (mut buffer, mut n) = (vec![0; 128], 0);
        let (start, room) = (buffer.as_mut_ptr(), buffer.len());
        self.call(|handle, _, out| unsafe { raw::h3_raw_remember_settings(handle, start, room, &mut n, out) }).ok()?;
        buffer.truncate(n);
        Some(buffer)
    }

    /// Whether the settings that came keep to those that were remembered. `None`: they have not come, or the bytes are no settings. If they do
    /// not, and the server accepted the 0-RTT data, close the connection with H3_SETTINGS_ERROR (RFC 9114, section 7.2.4.2).
    pub fn settings_kept(&mut self, remembered: &[u8]) -> Option<bool> {
        let mut kept = 0;
        let (start, len) = (remembered.as_ptr(), remembered.len());
        self.call(|handle, _, out| unsafe { raw::h3_raw_settings_kept(handle, start, len, &mut kept, out) }).ok()?;
        Some(kept == 1)
    }
}
