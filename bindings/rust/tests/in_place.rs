//! Bodies that are copied nowhere: sent by their length, and read where they lie.

use beanwhile_h3::{Came, Config, Endpoint, Error, Fields, Item, Next};

const HEAD: [(&str, &str); 4] = [(":method", "POST"), (":scheme", "https"), (":authority", "localhost"), (":path", "/")];

fn pair() -> (Endpoint, Endpoint) {
    let (mut client, mut server) = (Endpoint::new(&Config::client()).unwrap(), Endpoint::new(&Config::server()).unwrap());
    carry_own(&mut server, &mut client, &[3, 7, 11]);
    carry_own(&mut client, &mut server, &[2, 6, 10]);
    (client, server)
}

fn carry_own(from: &mut Endpoint, to: &mut Endpoint, ids: &[u64]) {
    let mut buffer = [0; 1000];
    for &id in ids {
        let (count, _) = from.outgoing(id, &mut buffer).unwrap();
        to.deliver(id, &buffer[..count]).unwrap();
        from.advance(id, count).unwrap();
    }
}

/// What came out of a message, and how many pieces of its body lay in the packets.
#[derive(Default)]
struct Received {
    head: Option<Fields>,
    trailer: Option<Fields>,
    body: Vec<u8>,
    pieces: usize,
    has_ended: bool,
}

impl Received {
    fn read(&mut self, at: &mut Endpoint, id: u64, packet: &[u8], end: bool) {
        let (mut rest, whole) = (packet, packet.as_ptr_range());
        loop {
            match at.read(id, &mut rest, end).unwrap() {
                Came::Body(piece) => {
                    let part = piece.as_ptr_range();
                    assert!(!piece.is_empty() && whole.start <= part.start && part.end <= whole.end);
                    self.body.extend_from_slice(piece);
                    self.pieces += 1;
                }
                Came::Next(Next::Item(Item::Body(piece))) => self.body.extend_from_slice(&piece),
                Came::Next(Next::Item(Item::Head(head))) => self.head = Some(head.fields),
                Came::Next(Next::Item(Item::Trailer(fields))) => self.trailer = Some(fields),
                Came::Next(Next::Item(Item::End)) => self.has_ended = true,
                Came::Next(Next::Pause(_)) => {}
                other => panic!("{other:?}"),
            }
            if self.has_ended || (rest.is_empty() && !end) {
                assert!(rest.is_empty());
                return;
            }
        }
    }
}

/// The next bytes of a stream, at most so many: those of the endpoint, and then those of the body that the caller holds.
fn packet(from: &mut Endpoint, id: u64, size: usize, held: &mut &[u8]) -> (Vec<u8>, bool) {
    let mut made = vec![0; size];
    let (count, past, is_last) = from.outgoing_past(id, &mut made).unwrap();
    let taken = past.min(size - count);
    made[count..count + taken].copy_from_slice(&held[..taken]);
    made.truncate(count + taken);
    from.advance(id, made.len()).unwrap();
    *held = &held[taken..];
    (made, is_last && taken == past)
}

#[test]
fn a_body_by_its_length_is_read_where_it_lies() {
    let body = vec![b'b'; 5000];
    for size in [2, 100, 1200, 100_000] {
        let (mut client, mut server) = pair();
        let id = client.open_request().unwrap();
        assert_eq!(client.send_body_of(id, 3), Err(Error::OutOfOrder));
        client.send_head(id, &HEAD).unwrap();
        client.send_body_of(id, body.len()).unwrap();
        client.send_body(id, b"and more").unwrap();
        client.send_trailer(id, &[("x-count", "1")]).unwrap();
        client.finish(id).unwrap();
        assert_eq!(client.outgoing(id, &mut [0; 1000]), Err(Error::Argument));
        carry_own(&mut client, &mut server, &[6]);
        let (mut received, mut left) = (Received::default(), &body[..]);
        while !received.has_ended {
            let (made, end) = packet(&mut client, id, size, &mut left);
            received.read(&mut server, id, &made, end);
        }
        assert!(client.end_taken(id) && received.pieces > 0 && left.is_empty());
        assert_eq!(received.body, [&body[..], b"and more"].concat());
        assert_eq!(received.head.unwrap().get(":path"), Some(&b"/"[..]));
        assert_eq!(received.trailer.unwrap().get("x-count"), Some(&b"1"[..]));
        let mut late = &b"x"[..];
        assert_eq!(server.read(id, &mut late, false), Err(Error::AfterEnd));
        assert_eq!(late, b"x");
    }
}

#[test]
fn a_refused_read_says_why() {
    let mut server = Endpoint::new(&Config::server()).unwrap();
    let mut rest = &b"a"[..];
    assert_eq!(server.read(1 << 62, &mut rest, false), Err(Error::Argument));
    assert_eq!(rest, b"a");
    // DATA before a header section (RFC 9114, section 4.1)
    rest = b"\x00\x03abc";
    assert_eq!(server.read(0, &mut rest, false), Err(Error::Connection(0x105)));
}

#[test]
fn a_stream_without_messages_is_delivered() {
    let mut server = Endpoint::new(&Config::server()).unwrap();
    let mut rest = &b"\x00\x04\x00"[..]; // an empty SETTINGS frame on the control stream (RFC 9114, sections 6.2.1 and 7.2.4)
    assert_eq!(server.read(2, &mut rest, false), Ok(Came::Next(Next::Pause(beanwhile_h3::Pause::NoMessages))));
    assert!(rest.is_empty() && server.connection().unwrap().peer.is_some());
}
