//! What is refused, and the faults of streams and of the connection, each by its own variant.

use beanwhile_h3::{code, Config, Endpoint, Error, Fault, Item, Malformation, Next};

const GET: [(&str, &str); 4] = [(":method", "GET"), (":scheme", "https"), (":authority", "localhost"), (":path", "/")];

fn carry(from: &mut Endpoint, to: &mut Endpoint) {
    let (mut next, mut buffer) = (0, [0; 4096]);
    while let Some(id) = from.next_to_send(next) {
        let (count, _) = from.outgoing(id, &mut buffer).unwrap();
        to.deliver(id, &buffer[..count]).unwrap();
        from.advance(id, count).unwrap();
        next = id + 1;
    }
}

fn pair() -> (Endpoint, Endpoint) {
    let (mut client, mut server) = (Endpoint::new(&Config::client()).unwrap(), Endpoint::new(&Config::server()).unwrap());
    carry(&mut client, &mut server);
    carry(&mut server, &mut client);
    (client, server)
}

/// A configuration with one thing changed.
fn with(mut config: Config, change: impl FnOnce(&mut Config)) -> Config {
    change(&mut config);
    config
}

fn fault(fault: Fault) -> Result<Next, Error> {
    Ok(Next::Item(Item::Fault(fault)))
}

fn is_head(next: Result<Next, Error>) -> bool {
    matches!(next, Ok(Next::Item(Item::Head(_))))
}

#[test]
fn calls_say_why_they_are_refused() {
    let (mut client, mut server) = pair();
    let id = client.open_request().unwrap();
    assert_eq!(client.send_body(id, b"a"), Err(Error::OutOfOrder));
    assert_eq!(client.send_head(id, &[("Upper", "a")]), Err(Error::FieldName(0)));
    assert_eq!(client.send_head(id, &[(":scheme", "https"), (":method", "G T")]), Err(Error::FieldValue(1)));
    assert_eq!(client.send_head(id, &[(":status", "200")]), Err(Error::WrongSide));
    assert_eq!(client.send_trailer::<(&str, &str)>(id, &[]), Err(Error::OutOfOrder));
    assert_eq!(client.finish(id + 4), Err(Error::NotOpen));
    assert_eq!(client.reset(2), Err(Error::Critical));
    assert_eq!(client.advance(id, 1), Err(Error::Argument));
    assert_eq!(client.next_item(1 << 62), Err(Error::Argument));
    assert!(!client.end_taken(id));
    assert_eq!(server.open_request(), Err(Error::NotClient));
    assert_eq!(server.goaway(1), Err(Error::NotRequestId));
    server.goaway(8).unwrap();
    assert_eq!(server.goaway(12), Err(Error::Raised(8)));
    let refused = |change: fn(&mut Config)| Endpoint::new(&with(Config::server(), change)).err();
    assert_eq!(refused(|it| it.table = 1 << 30), Some(Error::TableLimit));
    assert_eq!(refused(|it| it.blocked = 65536), Some(Error::BlockedLimit));
    assert_eq!(refused(|it| it.max_field_section_size = 1 << 62), Some(Error::Setting(6)));
    assert_eq!(refused(|it| it.unfinished_limit = 4 * it.max_field_section_size - 1), Some(Error::UnfinishedLimit));
    assert_eq!(refused(|it| it.grease = u64::MAX), Some(Error::Argument));
}

#[test]
fn faults_of_a_stream_are_told_apart() {
    let mut client = Endpoint::new(&with(Config::client(), |it| it.strict = false)).unwrap();
    let mut server = Endpoint::new(&Config::server()).unwrap();
    let id = client.open_request().unwrap();
    client.send_head(id, &[&GET[..], &[("connection", "close")]].concat()).unwrap();
    carry(&mut client, &mut server);
    // a connection-specific field (RFC 9114, section 4.2), and a request that ends without a head (4.1.1)
    let malformed = Fault::Malformed(Malformation::ConnectionField);
    assert_eq!(server.next_item(0), fault(malformed));
    assert!(Item::Fault(malformed).is_last());
    assert_eq!(malformed.code(true), code::MESSAGE_ERROR);
    server.deliver_end(4).unwrap();
    let unbegun = Fault::Malformed(Malformation::NoHead);
    assert_eq!(server.next_item(4), fault(unbegun));
    assert_eq!((unbegun.code(true), unbegun.code(false)), (code::REQUEST_INCOMPLETE, code::MESSAGE_ERROR));
    server.deliver_reset(8, code::REQUEST_CANCELLED).unwrap();
    assert_eq!(server.next_item(8), fault(Fault::Reset(0x10c)));
    server.deliver(12, b"").unwrap();
    server.cancel(12).unwrap();
    assert_eq!(server.next_item(12), fault(Fault::Canceled));
    // the connection goes on: GET, https, the authority "a" and the path "/" (RFC 9204, appendix A and section 4.5.4)
    server.deliver(16, &[1, 8, 0, 0, 0xd1, 0xd7, 0x50, 1, b'a', 0xc1]).unwrap();
    assert!(is_head(server.next_item(16)));
    assert!(matches!(server.next_item(16), Ok(Next::Pause(_))));
}

#[test]
fn a_malformed_head_is_not_sent() {
    let (mut client, mut server) = pair();
    let id = client.open_request().unwrap();
    // a connection-specific field (RFC 9114, section 4.2)
    let refused = client.send_head(id, &[&GET[..], &[("connection", "close")]].concat());
    assert_eq!(refused, Err(Error::Malformed(Malformation::ConnectionField)));
    client.send_head(id, &GET).unwrap();
    carry(&mut client, &mut server);
    assert!(is_head(server.next_item(0)));
}

#[test]
fn a_fault_of_the_connection_has_its_code() {
    let (mut client, mut server) = pair();
    // a second SETTINGS frame (RFC 9114, section 7.2.4): 0x105, H3_FRAME_UNEXPECTED
    let refused = server.deliver(2, &[4, 0]);
    assert_eq!(refused, Err(Error::Connection(0x105)));
    assert_eq!(refused.unwrap_err().connection_code(), Some(0x105));
    assert_eq!(server.next_item(0), Err(Error::Connection(0x105)));
    assert_eq!(server.goaway(0), Err(Error::Closed(0x105)));
    assert_eq!(Error::NotOpen.connection_code(), None);
    assert!(client.open_request().is_ok());
}

#[test]
fn a_head_that_is_too_large_is_passed_over() {
    let mut client = Endpoint::new(&Config::client()).unwrap();
    let mut server = Endpoint::new(&with(Config::server(), |it| it.max_field_section_size = 100)).unwrap();
    let id = client.open_request().unwrap();
    client.send_head(id, &GET).unwrap();
    carry(&mut client, &mut server);
    // RFC 9114, section 4.2.2: names, values and 32 for each of the four fields
    let size = GET.iter().map(|(name, value)| name.len() + value.len() + 32).sum::<usize>();
    assert_eq!(server.next_item(id), Ok(Next::Item(Item::TooLargeHead(size as u64))));
    carry(&mut server, &mut client);
    let next = client.open_request().unwrap();
    assert_eq!(client.send_head(next, &GET), Err(Error::TooLarge(size as u64)));
}

#[test]
fn errors_are_errors() {
    fn text(error: impl std::error::Error) -> String {
        error.to_string()
    }
    assert_eq!(text(Error::GoingAway(8)), "the peer takes no request from stream 8 on");
    assert_eq!(text(Error::Closed(0x105)), "the connection is closed, 0x105");
    assert_eq!(text(Fault::Malformed(Malformation::BadPath)), "the message is malformed: invalid :path");
    assert_eq!(text(Fault::Reset(0x10c)), "the peer reset the stream, 0x10c");
    assert!(Error::Memory.is_memory() && !Error::NotOpen.is_memory());
}
