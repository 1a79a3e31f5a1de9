//! HTTP Datagrams and capsules (RFC 9297). Bytes that are expected come from the RFC.

use beanwhile_h3::{capsule_head, code, Capsule, CapsuleReader, Config, Datagram, Endpoint, Error};

fn carry(from: &mut Endpoint, to: &mut Endpoint) {
    let (mut next, mut buffer) = (0, vec![0; 4096]);
    while let Some(id) = from.next_to_send(next) {
        let (count, end) = from.outgoing(id, &mut buffer).unwrap();
        to.deliver(id, &buffer[..count]).unwrap();
        from.advance(id, count).unwrap();
        if end {
            to.deliver_end(id).unwrap();
            from.end_taken(id);
        }
        next = id + 1;
    }
}

fn pair(datagram: bool) -> (Endpoint, Endpoint) {
    let (mut client, mut server) = (Config::client(), Config::server());
    (client.datagram, server.datagram) = (datagram, true);
    let (mut client, mut server) = (Endpoint::new(&client).unwrap(), Endpoint::new(&server).unwrap());
    carry(&mut client, &mut server);
    carry(&mut server, &mut client);
    (client, server)
}

fn ask(client: &mut Endpoint, server: &mut Endpoint) -> u64 {
    let id = client.open_request().unwrap();
    client.send_head(id, &[(":method", "GET"), (":scheme", "https"), (":authority", "localhost"), (":path", "/")]).unwrap();
    carry(client, server);
    id
}

#[test]
fn a_datagram_is_for_the_request_that_it_was_sent_for() {
    let (mut client, mut server) = pair(true);
    while ask(&mut client, &mut server) < 256 {}
    for (id, wanted) in [(0, &[0x00][..]), (252, &[0x3f]), (256, &[0x40, 0x40])] {
        let head = client.datagram_head(id).unwrap();
        assert_eq!(&*head, wanted);
        let datagram = [&head[..], b"hi"].concat();
        assert_eq!(server.read_datagram(&datagram).unwrap(), Datagram::For { id, payload: b"hi" });
    }
    assert_eq!(server.read_datagram(&[0x40, 0x00]).unwrap(), Datagram::For { id: 0, payload: b"" });
}

#[test]
fn what_is_not_for_an_open_request_says_so() {
    let (mut client, mut server) = pair(true);
    let id = ask(&mut client, &mut server);
    assert_eq!(server.read_datagram(&[0x01]).unwrap(), Datagram::Early(4));
    assert_eq!(client.datagram_head(4).err(), Some(Error::NotOpen));
    assert_eq!(client.datagram_head(2).err(), Some(Error::NotRequestId));
    assert_eq!(client.datagram_head(1 << 62).err(), Some(Error::Argument));
    client.finish(id).unwrap();
    assert_eq!(client.datagram_head(id).err(), Some(Error::Ended));
    carry(&mut client, &mut server);
    assert_eq!(server.read_datagram(&[0x00]).unwrap(), Datagram::Late);
    let fault = Error::Connection(code::DATAGRAM_ERROR);
    assert_eq!(server.read_datagram(&[0x40]), Err(fault));
    assert_eq!(server.read_datagram(&[0x00]), Err(fault));
    assert_eq!(server.datagram_head(id).err(), Some(Error::Closed(code::DATAGRAM_ERROR)));
    let (mut client, mut server) = pair(false);
    let id = ask(&mut client, &mut server);
    assert_eq!(server.read_datagram(&[0x00]).unwrap(), Datagram::Off);
    assert_eq!(server.datagram_head(id).err(), Some(Error::NoDatagrams));
}

#[test]
fn capsules_are_read_in_any_cut() {
    let bytes = [&*capsule_head(0x2843, 6).unwrap(), &[0, 0, 0, 7], b"by", &*capsule_head(0x17, 0).unwrap()].concat();
    assert_eq!(bytes, [0x68, 0x43, 0x06, 0, 0, 0, 7, b'b', b'y', 0x17, 0x00]);
    for cut in 0..=bytes.len() {
        let (mut reader, mut value, mut told) = (CapsuleReader::new(), vec![], vec![]);
        for mut piece in [&bytes[..cut], &bytes[cut..]] {
            while let Some(part) = reader.read(&mut piece) {
                match part {
                    Capsule::Value(bytes) => value.extend_from_slice(bytes),
                    Capsule::Head { capsule_type, length } => told.push((capsule_type, length)),
                    Capsule::End => told.push((0, 0)),
                }
            }
            assert!(piece.is_empty());
        }
        assert!(reader.may_end());
        assert_eq!(value, b"\x00\x00\x00\x07by");
        assert_eq!(told, [(0x2843, 6), (0, 0), (0x17, 0), (0, 0)]);
    }
    let mut reader = CapsuleReader::new();
    while reader.read(&mut &[0x00, 0x05, b'h'][..]).is_some() {
        assert!(!reader.may_end());
        break;
    }
    assert_eq!(capsule_head(1 << 62, 0).err(), Some(Error::Argument));
    assert_eq!(capsule_head(0, 1 << 62).err(), Some(Error::Argument));
}
