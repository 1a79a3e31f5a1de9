//! Two endpoints in one program, with the bytes between them carried by hand: what was sent is what is handed out, once.

use beanwhile_h3::{own_ids, AsField, ClosedStream, Config, ConnectionEvent, Endpoint, Error, Field, Fields, Head, Item, Next, Pause, StreamType, Version};

/// Carries all that waits, in pieces, and each end once. Answers how many ends went over.
fn carry(from: &mut Endpoint, to: &mut Endpoint, piece: usize) -> usize {
    let (mut next, mut ends, mut buffer) = (0, 0, vec![0; piece]);
    while let Some(id) = from.next_to_send(next) {
        loop {
            let (count, end) = from.outgoing(id, &mut buffer).unwrap();
            if count == 0 && !end {
                break;
            }
            to.deliver(id, &buffer[..count]).unwrap();
            from.advance(id, count).unwrap();
            if end {
                to.deliver_end(id).unwrap();
                assert!(from.end_taken(id));
                ends += 1;
                break;
            }
        }
        next = id + 1;
    }
    ends
}

fn pair() -> (Endpoint, Endpoint) {
    let (mut client, mut server) = (Endpoint::new(&Config::client()).unwrap(), Endpoint::new(&Config::server()).unwrap());
    carry(&mut client, &mut server, 1000);
    carry(&mut server, &mut client, 1000);
    (client, server)
}

fn list(fields: &Fields) -> Vec<(Vec<u8>, Vec<u8>)> {
    fields.iter().map(|field| (field.name.to_vec(), field.value.to_vec())).collect()
}

fn owned(fields: &[(&str, String)]) -> Vec<(Vec<u8>, Vec<u8>)> {
    fields.iter().map(|(name, value)| (name.as_bytes().to_vec(), value.as_bytes().to_vec())).collect()
}

fn post() -> Vec<(&'static str, String)> {
    let long = "v".repeat(3000);
    [(":method", "POST"), (":scheme", "https"), (":authority", "localhost"), (":path", "/"), ("x-long", &long), ("x-none", "")]
        .map(|(name, value)| (name, value.to_string()))
        .to_vec()
}

/// The items of a stream up to a pause, or to the last one.
fn items(endpoint: &mut Endpoint, id: u64) -> Vec<Item> {
    let mut found = Vec::new();
    while let Next::Item(item) = endpoint.next_item(id).unwrap() {
        let is_last = item.is_last();
        found.push(item);
        if is_last {
            break;
        }
    }
    found
}

/// The request is read to its end: its head, body and trailer.
fn read(endpoint: &mut Endpoint, id: u64) -> (Head, Vec<u8>, Option<Fields>) {
    let (mut head, mut body, mut trailer, mut is_whole) = (None, Vec::new(), None, false);
    for item in items(endpoint, id) {
        match item {
            Item::Head(it) => head = Some(it),
            Item::Body(bytes) => body.extend(bytes),
            Item::Trailer(fields) => trailer = Some(fields),
            Item::End => is_whole = true,
            other => panic!("{other:?}"),
        }
    }
    assert!(is_whole);
    (head.unwrap(), body, trailer)
}

#[test]
fn an_exchange_goes_over_whole() {
    let body: Vec<u8> = (0..20_000u32).map(|i| (i * i % 251) as u8).collect();
    for piece in [1, 7, 1000, 100_000] {
        let (mut client, mut server) = pair();
        let next = client.next_request_id().unwrap();
        let id = client.open_request().unwrap();
        assert_eq!((id, next), (0, 0));
        client.send_head(id, &post()).unwrap();
        client.send_body(id, &body).unwrap();
        client.send_trailer(id, &[("x-count", "1"), ("x-count", "2")]).unwrap();
        assert_eq!(carry(&mut client, &mut server, piece), 0);
        client.finish(id).unwrap();
        assert_eq!(carry(&mut client, &mut server, piece), 1);
        assert_eq!(carry(&mut client, &mut server, piece), 0);

        let (head, got, trailer) = read(&mut server, id);
        assert_eq!(list(&head.fields), owned(&post()));
        assert_eq!((head.status, head.fields.get(":path"), head.fields.get("x-a")), (None, Some(&b"/"[..]), None));
        assert_eq!((head.fields.len(), head.fields.iter().len(), head.fields.is_empty()), (6, 6, false));
        assert!(got == body);
        assert_eq!(list(&trailer.unwrap()), owned(&[("x-count", "1".into()), ("x-count", "2".into())]));

        server.send_head(id, &[(":status", "103")]).unwrap();
        server.send_head(id, &[(":status", "200"), ("x-a", "b")]).unwrap();
        server.send_trailer(id, &[("x-a", "b")]).unwrap();
        server.finish(id).unwrap();
        assert_eq!(carry(&mut server, &mut client, piece), 1);
        let (early, head, trailer) = match &items(&mut client, id)[..] {
            [Item::Interim(early), Item::Head(head), Item::Trailer(trailer), Item::End] => (early.clone(), head.clone(), trailer.clone()),
            other => panic!("{other:?}"),
        };
        assert_eq!((early.status, head.status), (Some(103), Some(200)));
        assert_eq!(list(&head.fields), owned(&[(":status", "200".into()), ("x-a", "b".into())]));
        assert_eq!(list(&trailer), owned(&[("x-a", "b".into())]));
        let state = client.stream(id).unwrap();
        assert_eq!((state.has_outgoing, state.is_finished, state.is_reset), (true, true, false));
        assert_eq!((state.waiting, state.unread, state.tries), (0, 0, 1));
    }
}

/// A request with these fields goes over, and comes: its head and trailer.
fn over<F: AsField>(fields: &[F], trailer: &[F]) -> (Vec<u8>, Fields, Fields) {
    let (mut client, mut server) = pair();
    let id = client.open_request().unwrap();
    client.send_head(id, fields).unwrap();
    let mut waiting = [0; 64];
    let (count, _) = client.outgoing(id, &mut waiting).unwrap();
    client.send_trailer(id, trailer).unwrap();
    client.finish(id).unwrap();
    carry(&mut client, &mut server, 4096);
    let (head, _, trailer) = read(&mut server, id);
    (waiting[..count].to_vec(), head.fields, trailer.unwrap())
}

#[test]
fn a_flag_goes_over_and_on() {
    let pairs = [(":method", "GET"), (":scheme", "https"), (":authority", "a"), (":path", "/")];
    let mut fields: Vec<Field> = pairs.iter().map(AsField::as_field).collect();
    fields.push(Field { name: b"authorization", value: b"a", never_indexed: true });
    let last = [Field { name: b"x-a", value: b"1", never_indexed: true }, Field { name: b"x-b", value: b"2", never_indexed: false }];
    let (section, head, trailer) = over(&fields, &last);
    // RFC 9204, section 4.5.4: 01, N, T and the index 84; the value
    assert_eq!(section[section.len() - 4..], [0x7f, 0x45, 1, b'a']);
    assert_eq!((head.iter().collect::<Vec<_>>(), trailer.iter().collect::<Vec<_>>()), (fields, last.to_vec()));
    let (again, next, _) = over(&head.iter().collect::<Vec<_>>(), &trailer.iter().collect::<Vec<_>>());
    assert_eq!((again, next), (section, head));
}

#[test]
fn an_endpoint_moves_between_threads() {
    fn is_send<T: Send>() {}
    is_send::<Endpoint>();
    let (mut client, mut server) = pair();
    let id = client.open_request().unwrap();
    client.send_head(id, &post()).unwrap();
    client.finish(id).unwrap();
    carry(&mut client, &mut server, 100);
    let read = std::thread::spawn(move || read(&mut server, id).0.fields.len()).join().unwrap();
    assert_eq!(read, 6);
}

#[test]
fn a_pause_says_why_there_is_no_item() {
    let (mut client, mut server) = pair();
    let id = client.open_request().unwrap();
    assert_eq!(client.next_item(id), Ok(Next::Pause(Pause::Pending)));
    assert_eq!(client.next_item(3), Ok(Next::Pause(Pause::NoMessages)));
    client.send_head(id, &post()).unwrap();
    carry(&mut client, &mut server, 100);
    assert!(matches!(server.next_item(id), Ok(Next::Item(Item::Head(_)))));
    assert_eq!(server.next_item(id), Ok(Next::Pause(Pause::Pending)));
}

#[test]
fn states_and_settings_are_shown() {
    let (mut client, mut server) = pair();
    let id = client.open_request().unwrap();
    client.send_head(id, &post()).unwrap();
    client.send_body(id, &[0; 5000]).unwrap();
    assert!(client.stream(id).unwrap().waiting > 5000);
    let state = client.connection().unwrap();
    let peer = state.peer.unwrap();
    assert_eq!((peer.table, peer.blocked, peer.section), (4096, 16, 65536));
    assert_eq!((state.goaway, client.peer_setting(6), client.peer_setting(0x21)), (None, Some(65536), None));
    assert_eq!(Endpoint::new(&Config::client()).unwrap().connection().unwrap().peer, None);
    assert_eq!([client.next_event(), client.next_event()], [Some(ConnectionEvent::Settings), None]);
    server.goaway(8).unwrap();
    server.goaway(4).unwrap();
    carry(&mut server, &mut client, 100);
    assert_eq!(client.connection().unwrap().goaway, Some(4));
    assert_eq!([client.next_event(), client.next_event()], [Some(ConnectionEvent::Goaway(4)), None]);
    assert_eq!(client.next_request_id(), Err(Error::GoingAway(4)));
    assert_eq!((own_ids(false), own_ids(true)), ([2, 6, 10], [3, 7, 11]));
}

#[test]
fn requests_are_opened_by_their_ids_and_closed() {
    let (mut client, mut server) = pair();
    assert_eq!(client.open_request_at(8), Ok(()));
    assert_eq!((client.next_request_id(), client.open_request()), (Ok(12), Ok(12)));
    assert_eq!(client.open_request_at(4), Err(Error::OutOfOrder));
    assert_eq!(client.open_request_at(17), Err(Error::NotRequestId));
    // neither half has ended; then the end of the peer's half came
    assert_eq!(client.close_stream(4), Ok(ClosedStream { stop_sending: true, reset_stream: true }));
    client.deliver_end(8).unwrap();
    assert_eq!(client.close_stream(8), Ok(ClosedStream { stop_sending: false, reset_stream: true }));
    assert_eq!(client.close_stream(16), Err(Error::NotOpen));
    // 0x21 is reserved (RFC 9114, section 6.2.3), and 0x40 is the first byte of a type of two
    server.deliver(14, b"\x21").unwrap();
    server.deliver(18, b"\x40").unwrap();
    // one byte of four of a GOAWAY frame's payload arrives (RFC 9114, section 7.2.6)
    server.deliver(2, b"\x07\x04\x80").unwrap();
    assert_eq!((server.frame_left(2), server.frame_left(14), server.frame_left(1 << 62)), (Ok(3), Ok(0), Err(Error::Argument)));
    let types: Vec<Option<StreamType>> = [2, 6, 14, 18, 0, 3].into_iter().map(|id| server.stream_kind(id)).collect();
    let (control, encoder) = (Some(StreamType::Control), Some(StreamType::Encoder));
    assert_eq!(types, [control, encoder, Some(StreamType::Unknown), Some(StreamType::Untold), None, None]);
}

/// Further settings, and streams of other types (RFC 9114, sections 7.2.4 and 6.2); settings that are remembered (section 7.2.4.2).
#[test]
fn settings_and_streams_of_extensions() {
    let mut config = Config::server();
    (config.other_settings, config.other_streams) = (1, true);
    let mut client = Endpoint::new_with(&Config::client(), &[(0x99, 7), (0x9a, 8)]).unwrap();
    let mut server = Endpoint::new(&config).unwrap();
    assert_eq!(client.remember_settings(), None);
    carry(&mut client, &mut server, 1000);
    carry(&mut server, &mut client, 1000);
    assert_eq!((server.peer_setting(0x99), server.peer_setting(0x9a)), (Some(7), None));
    server.deliver(14, b"\x40\x99abc").unwrap();
    assert_eq!((server.stream_kind(14), server.other_type(14), server.other_type(2)), (Some(StreamType::Other), Some(0x99), None));
    assert!(matches!(server.next_item(14), Ok(Next::Item(Item::Raw(bytes))) if bytes == b"abc"));
    assert_eq!(Endpoint::new_with(&Config::client(), &[(6, 7)]).err(), Some(Error::Setting(6)));
    let remembered = client.remember_settings().unwrap();
    assert_eq!((client.settings_kept(&remembered), client.settings_kept(b"\x06\x80\x01\x00\x01")), (Some(true), Some(false)));
    let mut resumed = Endpoint::new_resumed(&Config::client(), b"\x06\x40\x64", &[]).unwrap();
    let id = resumed.open_request().unwrap();
    let get = [(":method", "GET"), (":scheme", "https"), (":authority", "localhost"), (":path", "/")];
    assert!(matches!(resumed.send_head(id, &get), Err(Error::TooLarge(_))));
    assert_eq!(Endpoint::new_resumed(&Config::server(), &remembered, &[]).err(), Some(Error::Argument));
}

/// The crate and the library that it is linked with are of one version, which is what the crate says of its proofs too.
#[test]
fn the_library_is_of_the_version_of_the_crate() {
    let version = Version::of_library();
    let text = format!("{}.{}.{}", version.major, version.minor, version.patch);
    assert_eq!(text, env!("CARGO_PKG_VERSION").split('-').next().unwrap());
    if env!("CARGO_PKG_VERSION_PRE") == "unproved" {
        assert!(!version.is_proved);
    }
}
