//! Priorities of responses (RFC 9218). Bytes that are expected come from the RFC.

use beanwhile_h3::{Config, Endpoint, Error, Priority};

fn carry(from: &mut Endpoint, to: &mut Endpoint) {
    let (mut next, mut buffer) = (0, vec![0; 4096]);
    while let Some(id) = from.next_to_send(next) {
        let (count, _) = from.outgoing(id, &mut buffer).unwrap();
        to.deliver(id, &buffer[..count]).unwrap();
        from.advance(id, count).unwrap();
        next = id + 1;
    }
}

fn of(urgency: u8, incremental: bool) -> Priority {
    Priority { urgency, incremental }
}

#[test]
fn the_server_counts_before_an_update_and_that_before_the_field() {
    let (mut client, mut server) = (Endpoint::new(&Config::client()).unwrap(), Endpoint::new(&Config::server()).unwrap());
    carry(&mut client, &mut server);
    carry(&mut server, &mut client);
    let id = client.open_request().unwrap();
    client.send_head(id, &[(":method", "GET"), (":scheme", "https"), (":authority", "localhost"), (":path", "/")]).unwrap();
    carry(&mut client, &mut server);
    assert_eq!(server.priority(id), Some(of(3, false)));
    server.set_initial_priority(id, of(5, false)).unwrap();
    assert_eq!(server.priority(id), Some(of(5, false)));
    client.send_priority(id, of(1, true)).unwrap();
    let mut buffer = [0; 64];
    let (count, _) = client.outgoing(2, &mut buffer).unwrap();
    assert_eq!(&buffer[..count], b"\x80\x0f\x07\x00\x07\x00u=1, i");
    carry(&mut client, &mut server);
    server.set_initial_priority(id, of(5, false)).unwrap();
    assert_eq!(server.priority(id), Some(of(1, true)));
    server.set_priority(id, of(7, false)).unwrap();
    client.send_priority(id, of(0, false)).unwrap();
    carry(&mut client, &mut server);
    assert_eq!(server.priority(id), Some(of(7, false)));
    assert_eq!(server.priority(4), None);
    assert_eq!(server.send_priority(id, of(0, false)).err(), Some(Error::NotClient));
    assert_eq!(client.send_priority(4, of(0, false)).err(), Some(Error::NotOpen));
}
