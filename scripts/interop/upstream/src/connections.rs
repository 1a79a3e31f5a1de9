//! Whole connections of h3 over streams in memory: what is handed out of the first message, and with which code it is refused.
use crate::quic::{Codes, Link, Stream};
use crate::words::{digits, ending, escaped, fields, hex, number};
use bytes::{Buf, Bytes};
use h3::error::ErrorLevel;
use h3::Error;
use http::{HeaderMap, Request, Response};
use std::error::Error as _;
use std::future::Future;
use std::pin::pin;
use std::task::{Context, Poll, Waker};

/// What a future answers at once.
fn now<F: Future>(future: F) -> Option<F::Output> {
    match pin!(future).poll(&mut Context::from_waker(Waker::noop())) {
        Poll::Ready(answer) => Some(answer),
        Poll::Pending => None,
    }
}

/// The streams of words `id/bytes/ending`, `piece` bytes a call. The answer to a client's request is its stream 0.
fn link(piece: usize, words: &[&str], is_client: bool) -> Link {
    let codes = Codes::default();
    let mut link = Link { uni: Default::default(), bidi: Default::default(), answers: Default::default(), codes: codes.clone() };
    for word in words {
        let parts: Vec<&str> = word.split('/').collect();
        let id = number(parts[0]);
        let bytes = Bytes::from(hex(parts[1]));
        let stream = Stream { id, bytes, first: piece, later: piece, last: ending(parts[2]), codes: codes.clone() };
        match (id % 4 >= 2, is_client && id % 4 == 0) {
            (true, _) => link.uni.push_back(stream),
            (false, true) => link.answers.borrow_mut().push_back(stream),
            (false, false) => link.bidi.push_back(stream),
        }
    }
    link
}

/// `server <section size> <piece> <stream> ..`: the first request, and its body and trailer.
pub fn server(words: &[&str]) -> String {
    let link = link(number(words[1]) as usize, &words[2..], false);
    let mut builder = h3::server::builder();
    builder.send_grease(false).max_field_section_size(number(words[0]));
    let Some(Ok(mut connection)) = now(builder.build::<Link, Bytes>(link)) else {
        return "no connection".into();
    };
    match now(connection.accept()) {
        None => "pending".into(),
        Some(Ok(None)) => "over".into(),
        Some(Err(e)) => refused(&e),
        Some(Ok(Some((request, mut stream)))) => {
            let mut told = request_text(&request);
            while let Some(part) = now(stream.recv_data()) {
                match tell_data(&mut told, part) {
                    Step::More => {}
                    Step::Over => return behind_body(told, now(stream.recv_trailers())),
                    Step::Refused(how) => return told.ending(&how),
                }
            }
            told.ending("pending")
        }
    }
}

/// `client <section size> <piece> <stream> ..`: the response on stream 0, and its body and trailer.
pub fn client(words: &[&str]) -> String {
    let link = link(number(words[1]) as usize, &words[2..], true);
    let mut builder = h3::client::builder();
    builder.send_grease(false).max_field_section_size(number(words[0]));
    let Some(Ok((mut connection, mut sender))) = now(builder.build::<Link, _, Bytes>(link)) else {
        return "no connection".into();
    };
    let request = Request::builder().uri("https://localhost/").body(()).expect("a request");
    let Some(Ok(mut stream)) = now(sender.send_request(request)) else {
        return "no request".into();
    };
    if let Some(Err(e)) = now(connection.wait_idle()) {
        return refused(&e);
    }
    match now(stream.recv_response()) {
        None => "pending".into(),
        Some(Err(e)) => refused(&e),
        Some(Ok(response)) => {
            let mut told = response_text(&response);
            while let Some(part) = now(stream.recv_data()) {
                match tell_data(&mut told, part) {
                    Step::More => {}
                    Step::Over => return behind_body(told, now(stream.recv_trailers())),
                    Step::Refused(how) => return told.ending(&how),
                }
            }
            told.ending("pending")
        }
    }
}

/// The answer so far: a head, and the bytes of a body.
struct Told {
    head: String,
    body: Vec<u8>,
}

impl Told {
    fn of(head: String) -> Self {
        Told { head, body: Vec::new() }
    }

    fn ending(self, how: &str) -> String {
        format!("{} | body {} | {how}", self.head, digits(&self.body))
    }
}

/// What is to be asked behind a piece of a body.
enum Step {
    More,
    Over,
    Refused(String),
}

fn tell_data<B: Buf>(told: &mut Told, part: Result<Option<B>, Error>) -> Step {
    match part {
        Ok(Some(mut piece)) => {
            while piece.has_remaining() {
                told.body.push(piece.get_u8());
            }
            Step::More
        }
        Ok(None) => Step::Over,
        Err(e) => Step::Refused(refused(&e)),
    }
}

fn behind_body(told: Told, trailer: Option<Result<Option<HeaderMap>, Error>>) -> String {
    match trailer {
        None => told.ending("pending"),
        Some(Ok(None)) => told.ending("end"),
        Some(Ok(Some(map))) => told.ending(&format!("trailer{}", fields(&map))),
        Some(Err(e)) => told.ending(&refused(&e)),
    }
}

fn request_text(request: &Request<()>) -> Told {
    let protocol = request.extensions().get::<h3::ext::Protocol>().map_or("", |protocol| protocol.as_str());
    let (method, uri) = (request.method(), request.uri());
    let target = escaped(uri.to_string().as_bytes());
    Told::of(format!("request {method} {target} {protocol};{}", fields(request.headers())))
}

fn response_text(response: &Response<()>) -> Told {
    Told::of(format!("response {};{}", response.status().as_str(), fields(response.headers())))
}

/// The level of an error, its code, and its cause.
fn refused(e: &Error) -> String {
    let level = match e.get_error_level() {
        ErrorLevel::ConnectionError => "close",
        ErrorLevel::StreamError => "stream",
    };
    let what = match (e.try_get_code(), e.kind()) {
        (Some(code), _) => format!("{code:?}"),
        (None, h3::error::Kind::HeaderTooBig { actual_size, .. }) => return format!("too large {actual_size}"),
        (None, kind) => format!("{kind:?}"),
    };
    let cause = e.source().map_or(String::new(), |cause| format!(" by {cause:?}: {cause}"));
    format!("{level} {what}{cause}")
}
