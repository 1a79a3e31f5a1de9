//! A first program: a client's request goes to a server in the same program, and the server prints the fields that it received.

use beanwhile_h3::{Config, Endpoint, Error, Item, Next};

/// Carries what waits on all streams to the other endpoint, in place of QUIC.
fn carry(from: &mut Endpoint, to: &mut Endpoint) -> Result<(), Error> {
    let (mut next, mut buffer) = (0, [0; 4096]);
    while let Some(id) = from.next_to_send(next) {
        let is_last = loop {
            let (count, is_last) = from.outgoing(id, &mut buffer)?;
            to.deliver(id, &buffer[..count])?;
            from.advance(id, count)?;
            if is_last || count < buffer.len() {
                break is_last;
            }
        };
        if is_last {
            to.deliver_end(id)?;
            from.end_taken(id);
        }
        next = id + 1;
    }
    Ok(())
}

fn main() -> Result<(), Error> {
    let (mut client, mut server) = (Endpoint::new(&Config::client())?, Endpoint::new(&Config::server())?);
    let id = client.open_request()?;
    client.send_head(id, &[(":method", "GET"), (":scheme", "https"), (":authority", "localhost"), (":path", "/")])?;
    client.finish(id)?;
    carry(&mut client, &mut server)?;
    if let Next::Item(Item::Head(head)) = server.next_item(id)? {
        for field in &head.fields {
            println!("{} = {}", String::from_utf8_lossy(field.name), String::from_utf8_lossy(field.value));
        }
    }
    Ok(())
}
