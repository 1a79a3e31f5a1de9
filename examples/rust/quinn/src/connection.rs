//! An `Endpoint` over a connection of quinn. One task owns both. Each stream of the peer's has a task that reads it, and sends what came
//! through a channel.

use beanwhile_h3::{code, Config, Endpoint, Error, Item, Next, Pause};
use quinn::{ReadError, RecvStream, SendStream, VarInt};
use std::collections::{BTreeSet, HashMap};
use std::future::poll_fn;
use std::pin::Pin;
use std::task::{Context, Poll};
use tokio::sync::mpsc::{channel, Receiver, Sender};

/// An error of the crate, of quinn or of a file, or a text.
pub type Failure = Box<dyn std::error::Error + Send + Sync>;

const PIECE: usize = 16_384;
/// How many things that came wait for the task that owns the endpoint: a stream is read no further meanwhile, and quinn grants no credit.
const CHANNEL: usize = 16;

/// What came from the peer.
enum Came {
    Stream(Option<SendStream>, RecvStream),
    Bytes(u64, Vec<u8>),
    End(u64),
    Reset(u64, VarInt),
    Closed,
}

fn id_of(id: quinn::StreamId) -> u64 {
    VarInt::from(id).into_inner()
}

/// Reads a stream to its end.
async fn read(mut stream: RecvStream, to: Sender<Came>) {
    let id = id_of(stream.id());
    loop {
        let came = match stream.read_chunk(PIECE, true).await {
            Ok(Some(chunk)) => Came::Bytes(id, chunk.bytes.to_vec()),
            Ok(None) => Came::End(id),
            Err(ReadError::Reset(code)) => Came::Reset(id, code),
            Err(_) => return,
        };
        let is_last = !matches!(came, Came::Bytes(..));
        if to.send(came).await.is_err() || is_last {
            return;
        }
    }
}

/// Takes the streams that the peer opens.
async fn accept(quic: quinn::Connection, to: Sender<Came>) {
    loop {
        let came = tokio::select! {
            stream = quic.accept_uni() => stream.map(|it| Came::Stream(None, it)),
            stream = quic.accept_bi() => stream.map(|(sending, it)| Came::Stream(Some(sending), it)),
        };
        if to.send(came.unwrap_or(Came::Closed)).await.is_err() || quic.close_reason().is_some() {
            return;
        }
    }
}

/// One side of an HTTP/3 connection.
pub struct Connection {
    quic: quinn::Connection,
    /// The calls of HTTP/3.
    pub h3: Endpoint,
    is_server: bool,
    sending: HashMap<u64, SendStream>,
    /// Requests whose next item waits for the peer's encoder stream.
    waiting: BTreeSet<u64>,
    sender: Sender<Came>,
    came: Receiver<Came>,
}

impl Connection {
    /// Opens the control, encoder and decoder stream before any other, so that QUIC gives them their ids.
    pub async fn new(quic: quinn::Connection, config: &Config) -> Result<Connection, Failure> {
        let (sender, came) = channel(CHANNEL);
        let mut sending = HashMap::new();
        for _ in 0..3 {
            let stream = quic.open_uni().await?;
            sending.insert(id_of(stream.id()), stream);
        }
        tokio::spawn(accept(quic.clone(), sender.clone()));
        let h3 = Endpoint::new(config)?;
        Ok(Connection { quic, h3, is_server: config.server, sending, waiting: BTreeSet::new(), sender, came })
    }

    /// Opens a client's next request: first at the endpoint, then at QUIC, which both count alike.
    pub async fn open_request(&mut self) -> Result<u64, Failure> {
        let id = self.h3.open_request()?;
        let (sending, receiving) = self.quic.open_bi().await?;
        if id_of(sending.id()) != id {
            return Err("QUIC and HTTP/3 count requests differently".into());
        }
        self.sending.insert(id, sending);
        tokio::spawn(read(receiving, self.sender.clone()));
        Ok(id)
    }

    /// Sends what waits, until something comes. Returns the requests that may have a next item, or `None` when the connection is closed.
    pub async fn turn(&mut self) -> Result<Option<Vec<u64>>, Failure> {
        loop {
            let (h3, sending) = (&mut self.h3, &mut self.sending);
            tokio::select! {
                came = self.came.recv() => return self.take(came.unwrap_or(Came::Closed)),
                sent = poll_fn(|context| send(h3, sending, context)) => sent?,
            }
        }
    }

    fn take(&mut self, came: Came) -> Result<Option<Vec<u64>>, Failure> {
        let (id, delivered) = match came {
            Came::Closed => return Ok(None),
            Came::Stream(sending, receiving) => {
                self.sending.extend(sending.map(|it| (id_of(it.id()), it)));
                tokio::spawn(read(receiving, self.sender.clone()));
                return Ok(Some(Vec::new()));
            }
            Came::Bytes(id, bytes) => (id, self.h3.deliver(id, &bytes)),
            Came::End(id) => (id, self.h3.deliver_end(id)),
            Came::Reset(id, code) => (id, self.h3.deliver_reset(id, code.into_inner())),
        };
        delivered.map_err(|error| self.closed(error))?;
        let is_request = id % 4 == 0;
        Ok(Some(if is_request { vec![id] } else { std::mem::take(&mut self.waiting).into_iter().collect() }))
    }

    /// The next item of a request; `None` at a pause. A fault of the request ends its stream, and not the connection.
    pub fn next_item(&mut self, id: u64) -> Result<Option<Item>, Failure> {
        let item = match self.h3.next_item(id).map_err(|error| self.closed(error))? {
            Next::Item(item) => item,
            Next::Pause(Pause::Waiting(_)) => {
                self.waiting.insert(id);
                return Ok(None);
            }
            Next::Pause(_) => return Ok(None),
        };
        if let Item::Fault(fault) = &item {
            let code = VarInt::from_u64(fault.code(self.is_server))?;
            if let Some(mut stream) = self.sending.remove(&id) {
                let _ = stream.reset(code);
                let _ = self.h3.reset(id);
            }
        }
        Ok(Some(item))
    }

    /// A fault of the connection closes it with the fault's code.
    fn closed(&self, error: Error) -> Failure {
        if let Some(code) = error.connection_code().and_then(|it| VarInt::from_u64(it).ok()) {
            self.quic.close(code, b"");
        }
        error.into()
    }

    /// Closes the connection without an error.
    pub fn close(self) {
        self.quic.close(VarInt::from_u32(code::NO_ERROR as u32), b"");
    }
}

/// Hands to QUIC what it takes of each stream, lowest ids first. Ready where it took something.
fn send(h3: &mut Endpoint, sending: &mut HashMap<u64, SendStream>, context: &mut Context) -> Poll<Result<(), Failure>> {
    let (mut next, mut buffer, mut is_sent) = (0, [0; PIECE], false);
    while let Some(id) = h3.next_to_send(next) {
        next = id + 1;
        let Some(stream) = sending.get_mut(&id) else { continue };
        let (count, is_last) = h3.outgoing(id, &mut buffer)?;
        let taken = match count {
            0 => 0,
            _ => match Pin::new(&mut *stream).poll_write(context, &buffer[..count]) {
                Poll::Pending => continue,
                Poll::Ready(Ok(taken)) => taken,
                // the peer wants no more of this stream
                Poll::Ready(Err(_)) => {
                    let _ = h3.reset(id);
                    sending.remove(&id);
                    continue;
                }
            },
        };
        h3.advance(id, taken)?;
        if is_last && taken == count {
            let _ = stream.finish();
            h3.end_taken(id);
        }
        is_sent = true;
    }
    if is_sent {
        Poll::Ready(Ok(()))
    } else {
        Poll::Pending
    }
}
