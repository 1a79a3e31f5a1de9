//! A QUIC connection that is a list of streams in memory, for h3 to read: nothing of it waits, and what h3 writes is dropped.
use bytes::Bytes;
use h3::quic::{self, StreamId, WriteBuf};
use std::cell::RefCell;
use std::collections::VecDeque;
use std::fmt;
use std::rc::Rc;
use std::task::{Context, Poll};

/// What stands behind the bytes of a stream.
#[derive(Clone, Copy)]
pub enum Last {
    End,
    Nothing,
    Reset,
}

/// A stream that the peer cut off, with this code.
#[derive(Debug)]
pub struct Gone(pub u64);

impl fmt::Display for Gone {
    fn fmt(&self, f: &mut fmt::Formatter<'_>) -> fmt::Result {
        write!(f, "cut off with {}", self.0)
    }
}

impl std::error::Error for Gone {}

impl quic::Error for Gone {
    fn is_timeout(&self) -> bool {
        false
    }

    fn err_code(&self) -> Option<u64> {
        Some(self.0)
    }
}

/// The codes with which h3 closed the connection and cut off streams, in their order.
pub type Codes = Rc<RefCell<Vec<String>>>;

/// One stream: `first` bytes, then `later` bytes a call, at least one, and then what `last` says.
pub struct Stream {
    pub id: u64,
    pub bytes: Bytes,
    pub first: usize,
    pub later: usize,
    pub last: Last,
    pub codes: Codes,
}

impl Stream {
    fn stream_id(&self) -> StreamId {
        StreamId::try_from(self.id).expect("an id below 2^62")
    }
}

impl quic::RecvStream for Stream {
    type Buf = Bytes;
    type Error = Gone;

    fn poll_data(&mut self, _: &mut Context<'_>) -> Poll<Result<Option<Bytes>, Gone>> {
        if self.bytes.is_empty() {
            return match self.last {
                Last::End => Poll::Ready(Ok(None)),
                Last::Nothing => Poll::Pending,
                Last::Reset => Poll::Ready(Err(Gone(0x3e7))),
            };
        }
        let piece = self.bytes.split_to(self.bytes.len().min(self.first.max(1)));
        self.first = self.later;
        Poll::Ready(Ok(Some(piece)))
    }

    fn stop_sending(&mut self, code: u64) {
        self.codes.borrow_mut().push(format!("stop {code:#x}"));
    }

    fn recv_id(&self) -> StreamId {
        self.stream_id()
    }
}

impl quic::SendStream<Bytes> for Stream {
    type Error = Gone;

    fn poll_ready(&mut self, _: &mut Context<'_>) -> Poll<Result<(), Gone>> {
        Poll::Ready(Ok(()))
    }

    fn send_data<T: Into<WriteBuf<Bytes>>>(&mut self, _: T) -> Result<(), Gone> {
        Ok(())
    }

    fn poll_finish(&mut self, _: &mut Context<'_>) -> Poll<Result<(), Gone>> {
        Poll::Ready(Ok(()))
    }

    fn reset(&mut self, code: u64) {
        self.codes.borrow_mut().push(format!("reset {code:#x}"));
    }

    fn send_id(&self) -> StreamId {
        self.stream_id()
    }
}

/// The streams of a connection: those that the peer opened, and that on which an answer to a client's own request stands.
pub struct Link {
    pub uni: VecDeque<Stream>,
    pub bidi: VecDeque<Stream>,
    pub answers: Rc<RefCell<VecDeque<Stream>>>,
    pub codes: Codes,
}

/// Opens streams for requests.
pub struct Opener {
    answers: Rc<RefCell<VecDeque<Stream>>>,
    codes: Codes,
}

impl Opener {
    fn own(&self) -> Stream {
        Stream { id: 2, bytes: Bytes::new(), first: 1, later: 1, last: Last::Nothing, codes: self.codes.clone() }
    }
}

impl Link {
    fn opener(&self) -> Opener {
        Opener { answers: self.answers.clone(), codes: self.codes.clone() }
    }
}

impl quic::OpenStreams<Bytes> for Opener {
    type BidiStream = Stream;
    type SendStream = Stream;
    type OpenError = Gone;

    fn poll_open_bidi(&mut self, _: &mut Context<'_>) -> Poll<Result<Stream, Gone>> {
        match self.answers.borrow_mut().pop_front() {
            Some(stream) => Poll::Ready(Ok(stream)),
            None => Poll::Pending,
        }
    }

    fn poll_open_send(&mut self, _: &mut Context<'_>) -> Poll<Result<Stream, Gone>> {
        Poll::Ready(Ok(self.own()))
    }

    fn close(&mut self, code: h3::error::Code, _: &[u8]) {
        self.codes.borrow_mut().push(format!("close {code:?}"));
    }
}

impl quic::OpenStreams<Bytes> for Link {
    type BidiStream = Stream;
    type SendStream = Stream;
    type OpenError = Gone;

    fn poll_open_bidi(&mut self, cx: &mut Context<'_>) -> Poll<Result<Stream, Gone>> {
        self.opener().poll_open_bidi(cx)
    }

    fn poll_open_send(&mut self, cx: &mut Context<'_>) -> Poll<Result<Stream, Gone>> {
        self.opener().poll_open_send(cx)
    }

    fn close(&mut self, code: h3::error::Code, reason: &[u8]) {
        self.opener().close(code, reason);
    }
}

impl quic::Connection<Bytes> for Link {
    type RecvStream = Stream;
    type OpenStreams = Opener;
    type AcceptError = Gone;

    fn poll_accept_recv(&mut self, _: &mut Context<'_>) -> Poll<Result<Option<Stream>, Gone>> {
        taken(&mut self.uni)
    }

    fn poll_accept_bidi(&mut self, _: &mut Context<'_>) -> Poll<Result<Option<Stream>, Gone>> {
        taken(&mut self.bidi)
    }

    fn opener(&self) -> Opener {
        Link::opener(self)
    }
}

fn taken(streams: &mut VecDeque<Stream>) -> Poll<Result<Option<Stream>, Gone>> {
    match streams.pop_front() {
        Some(stream) => Poll::Ready(Ok(Some(stream))),
        None => Poll::Pending,
    }
}
