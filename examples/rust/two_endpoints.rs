//! Two endpoints in one program, with the bytes between them carried by hand in pieces: a request with a body is answered, and what was
//! sent is what was pulled. The server's endpoint runs on a thread of its own for its part. The words are the lengths of the pieces.

use beanwhile_h3::{Config, Endpoint, Error, Fields, Item, Next};
use std::process::ExitCode;
use std::{env, error, thread};

const BODY: usize = 20_000;

/// An `Error` of the crate, or a text.
type Failure = Box<dyn error::Error>;

fn body() -> Vec<u8> {
    (0..BODY).map(|i| (i * i % 251) as u8).collect()
}

fn text(fields: &Fields) -> String {
    let text = String::from_utf8_lossy;
    let lines: Vec<String> = fields.iter().map(|field| format!("{}={}", text(field.name), text(field.value))).collect();
    lines.join(" ")
}

/// Carries what waits on all streams, lowest ids first, at most `piece` bytes at once, and their ends.
fn carry(from: &mut Endpoint, to: &mut Endpoint, piece: usize) -> Result<(), Error> {
    let mut next = 0;
    while let Some(id) = from.next_to_send(next) {
        carry_stream(from, to, id, piece)?;
        next = id + 1;
    }
    Ok(())
}

/// Carries all that waits on one stream to the other endpoint, and the end where it is told.
fn carry_stream(from: &mut Endpoint, to: &mut Endpoint, id: u64, piece: usize) -> Result<(), Error> {
    let mut buffer = vec![0; piece];
    loop {
        let (count, end) = from.outgoing(id, &mut buffer)?;
        if count == 0 && !end {
            return Ok(());
        }
        to.deliver(id, &buffer[..count])?;
        from.advance(id, count)?;
        if end {
            to.deliver_end(id)?;
            from.end_taken(id);
            return Ok(());
        }
    }
}

/// Reads a stream to its end: the head and the whole body.
fn read(endpoint: &mut Endpoint, id: u64) -> Result<(Fields, Vec<u8>), Failure> {
    let (mut head, mut body) = (Fields::default(), Vec::new());
    while let Next::Item(item) = endpoint.next_item(id)? {
        match item {
            Item::Head(it) => head = it.fields,
            Item::Body(bytes) => body.extend(bytes),
            Item::Trailer(_) => {}
            Item::End => return Ok((head, body)),
            other => return Err(format!("{other:?}").into()),
        }
    }
    Err("the message has no end yet".into())
}

/// A request without its end.
fn request(client: &mut Endpoint) -> Result<u64, Error> {
    let id = client.open_request()?;
    let fields = [(":method", "POST"), (":scheme", "https"), (":authority", "localhost"), (":path", "/echo"), ("x-example", "rust")];
    client.send_head(id, &fields)?;
    for piece in body().chunks(10_000) {
        client.send_body(id, piece)?;
    }
    Ok(id)
}

/// The server's part: what came is sent back.
fn answer(server: &mut Endpoint, id: u64) -> Result<String, Failure> {
    let (head, body) = read(server, id)?;
    server.send_head(id, &[(":status", "200"), ("x-example", "rust")])?;
    server.send_body(id, &body)?;
    server.send_trailer(id, &[("x-count", "1")])?;
    server.finish(id)?;
    Ok(text(&head))
}

/// What is left when all was carried and read: no bytes, and no stream whose end was taken is named again.
fn is_quiet(client: &mut Endpoint, server: &mut Endpoint, id: u64) -> Result<bool, Error> {
    let (stream, peer) = (client.stream(id)?, client.connection()?.peer);
    let is_named = [client, server].into_iter().any(|side| side.next_to_send(0).map_or(false, |id| id % 4 == 0));
    Ok(!is_named && stream.unread == 0 && stream.is_finished && peer.map(|limits| limits.table) == Some(4096))
}

fn exchange(piece: usize) -> Result<(), Failure> {
    let mut client = Endpoint::new(&Config::client())?;
    let mut server = Endpoint::new(&Config::server())?;
    carry(&mut server, &mut client, piece)?;
    let id = request(&mut client)?;
    carry(&mut client, &mut server, piece)?;
    client.finish(id)?;
    carry(&mut client, &mut server, piece)?;
    let (mut server, head) = thread::spawn(move || {
        let head = answer(&mut server, id).map_err(|why| why.to_string());
        (server, head)
    })
    .join()
    .map_err(|_| "the server's thread ended")?;
    let head = head?;
    carry(&mut server, &mut client, piece)?;
    let (response, got) = read(&mut client, id)?;
    println!("request {head}; response {}; {} bytes", text(&response), got.len());
    let expected = ":method=POST :scheme=https :authority=localhost :path=/echo x-example=rust";
    if head != expected || text(&response) != ":status=200 x-example=rust" || got != body() {
        return Err("what was pulled is not what was sent".into());
    }
    if !is_quiet(&mut client, &mut server, id)? || server.open_request() != Err(Error::NotClient) {
        return Err("what is left is not what was expected".into());
    }
    Ok(())
}

fn main() -> ExitCode {
    let given: Vec<usize> = env::args().skip(1).filter_map(|word| word.parse().ok()).collect();
    for piece in if given.is_empty() { vec![1, 7, 1000, 200_000] } else { given } {
        if let Err(why) = exchange(piece) {
            eprintln!("pieces of {piece} bytes: {why}");
            return ExitCode::FAILURE;
        }
    }
    println!("ok");
    ExitCode::SUCCESS
}
