//! Sessions of WebTransport (draft-ietf-webtrans-http3-02). Bytes that are expected come from the draft.

use beanwhile_h3::{webtransport, ClosedStream, Config, Endpoint, Error, Item, Next};

fn carry(from: &mut Endpoint, to: &mut Endpoint) {
    let (mut next, mut buffer) = (0, vec![0; 4096]);
    while let Some(id) = from.next_to_send(next) {
        let (count, end) = from.outgoing(id, &mut buffer).unwrap();
        to.deliver(id, &buffer[..count]).unwrap();
        from.advance(id, count).unwrap();
        if end {
            to.deliver_end(id).unwrap();
            from.end_taken(id);
        }
        next = id + 1;
    }
}

fn pair(sessions: bool) -> (Endpoint, Endpoint) {
    let make = |mut config: Config| {
        (config.webtransport, config.extended_connect, config.datagram, config.sessions) = (true, true, true, sessions);
        config.max_webtransport_sessions = 1;
        Endpoint::new(&config).unwrap()
    };
    let (mut client, mut server) = (make(Config::client()), make(Config::server()));
    carry(&mut client, &mut server);
    carry(&mut server, &mut client);
    (client, server)
}

fn begin(client: &mut Endpoint, server: &mut Endpoint) -> u64 {
    let id = client.open_request().unwrap();
    let head = [(":method", "CONNECT"), (":scheme", "https"), (":authority", "localhost"), (":path", "/"), (":protocol", "webtransport")];
    client.send_head(id, &head).unwrap();
    carry(client, server);
    assert!(matches!(server.next_item(id).unwrap(), Next::Item(Item::Head { .. })));
    server.send_head(id, &[(":status", "200")]).unwrap();
    carry(server, client);
    assert!(matches!(client.next_item(id).unwrap(), Next::Item(Item::Head { .. })));
    id
}

#[test]
fn streams_go_both_ways() {
    let (mut client, mut server) = pair(true);
    let session = begin(&mut client, &mut server);
    for (is_server, id) in [(true, 1), (false, 4)] {
        let (side, peer) = if is_server { (&mut server, &mut client) } else { (&mut client, &mut server) };
        assert_eq!(side.open_session_stream(session, true), Ok(id));
        let mut front = [0; 8];
        assert_eq!(side.outgoing(id, &mut front), Ok((3, false)));
        assert_eq!(front[..3], [0x40, 0x41, 0]);
        side.send_raw(id, b"one").unwrap();
        side.finish(id).unwrap();
        carry(side, peer);
        assert!(matches!(peer.next_item(id).unwrap(), Next::Item(Item::Session(it)) if it == session));
        assert!(matches!(peer.next_item(id).unwrap(), Next::Item(Item::Raw(it)) if it == b"one"));
        assert!(matches!(peer.next_item(id).unwrap(), Next::Item(Item::End)));
        peer.send_raw(id, b"two").unwrap();
        carry(peer, side);
        assert!(matches!(side.next_item(id).unwrap(), Next::Item(Item::Raw(it)) if it == b"two"));
    }
}

#[test]
fn a_session_ends_with_its_streams() {
    let (mut client, mut server) = pair(true);
    let session = begin(&mut client, &mut server);
    assert_eq!(client.open_session_stream(session, false), Ok(14));
    assert_eq!(client.open_session_stream(session, false), Ok(18));
    let (mut ended, mut next) = (Vec::new(), 0);
    while let Some(id) = client.next_of_session(session, next) {
        assert_eq!(client.close_stream(id), Ok(ClosedStream { stop_sending: false, reset_stream: true }));
        ended.push(id);
        next = id + 1;
    }
    assert_eq!((ended, client.next_of_session(session, 0)), (vec![14, 18], None));
}

#[test]
fn without_the_choice_there_are_none() {
    let (mut client, mut server) = pair(false);
    let session = begin(&mut client, &mut server);
    assert_eq!(client.open_session_stream(session, true), Err(Error::NoSessions));
    assert_eq!(server.open_session_stream(session, false), Err(Error::NoSessions));
}

#[test]
fn codes_read_back() {
    assert_eq!([0, 29, 30].map(webtransport::code), [0x52e4_a40f_a8db, 0x52e4_a40f_a8f8, 0x52e4_a40f_a8fa]);
    assert_eq!([0x52e4_a40f_a8fa, 0x52e4_a40f_a8f9, 0x10c].map(webtransport::number), [Some(30), None, None]);
}
