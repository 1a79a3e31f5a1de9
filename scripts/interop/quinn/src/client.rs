//! The client's cases.

use std::future::{poll_fn, Future};
use std::pin::Pin;
use std::time::Duration;

use bytes::{Buf, Bytes};
use futures_util::future::try_join_all;
use h3::client::{RequestStream, SendRequest};
use h3::error::Code;
use h3_quinn::{BidiStream, OpenStreams};
use http::{HeaderMap, HeaderValue, Request, StatusCode};

use crate::{tls, Failure, PIECE};

type Stream = RequestStream<BidiStream<Bytes>, Bytes>;

const MOST_SECONDS: u64 = 60;

/// What bodies are expected.
#[derive(Clone)]
pub struct Wanted {
    big: Bytes,
    posted: Bytes,
}

impl Wanted {
    pub fn read(big: &str, posted: &str) -> Result<Self, Failure> {
        Ok(Wanted { big: std::fs::read(big)?.into(), posted: std::fs::read(posted)?.into() })
    }
}

fn want(good: bool, what: &str) -> Result<(), Failure> {
    if good {
        Ok(())
    } else {
        Err(what.into())
    }
}

/// A connection, with which requests are sent.
#[derive(Clone)]
struct Client {
    port: u16,
    sender: SendRequest<OpenStreams, Bytes>,
}

impl Client {
    async fn ask(&self, method: &str, path: &str, length: Option<usize>) -> Result<Stream, Failure> {
        let mut request = Request::builder().method(method).uri(format!("https://localhost:{}{path}", self.port));
        if let Some(length) = length {
            request = request.header("content-length", length);
        }
        Ok(self.sender.clone().send_request(request.body(())?).await?)
    }

    async fn get(&self, path: &str) -> Result<Bytes, Failure> {
        let mut stream = self.ask("GET", path, None).await?;
        stream.finish().await?;
        body_of(&mut stream, 200).await
    }
}

/// The body of a response, which has this status.
async fn body_of(stream: &mut Stream, status: u16) -> Result<Bytes, Failure> {
    let head = stream.recv_response().await?;
    if head.status() != StatusCode::from_u16(status)? {
        return Err(format!("status {}", head.status()).into());
    }
    let mut body = Vec::new();
    while let Some(mut piece) = stream.recv_data().await? {
        body.extend_from_slice(&piece.copy_to_bytes(piece.remaining()));
    }
    Ok(body.into())
}

async fn send(stream: &mut Stream, mut body: Bytes) -> Result<(), Failure> {
    while !body.is_empty() {
        stream.send_data(body.split_to(PIECE.min(body.len()))).await?;
    }
    Ok(())
}

async fn small(client: Client, _: Wanted) -> Result<(), Failure> {
    want(client.get("/hello.txt").await? == "hello\n", "another body")
}

async fn big(client: Client, wanted: Wanted) -> Result<(), Failure> {
    want(client.get("/big.bin").await? == wanted.big, "another body")
}

async fn post(client: Client, wanted: Wanted) -> Result<(), Failure> {
    let mut stream = client.ask("POST", "/answer", Some(wanted.big.len())).await?;
    send(&mut stream, wanted.big).await?;
    stream.finish().await?;
    want(body_of(&mut stream, 200).await? == wanted.posted, "another hash")
}

async fn head(client: Client, _: Wanted) -> Result<(), Failure> {
    let mut stream = client.ask("HEAD", "/big.bin", None).await?;
    stream.finish().await?;
    let head = stream.recv_response().await?;
    want(head.headers()["content-length"] == "10000000", "another length")?;
    want(stream.recv_data().await?.is_none(), "a body")
}

async fn many(client: Client, _: Wanted) -> Result<(), Failure> {
    let client = &client;
    let bodies = try_join_all((0..100).map(|i| async move { client.get(&format!("/small/{i}.txt")).await })).await?;
    want(bodies.iter().enumerate().all(|(i, body)| *body == format!("small {i}\n")), "another body")
}

async fn serial(client: Client, wanted: Wanted) -> Result<(), Failure> {
    for _ in 0..500 {
        small(client.clone(), wanted.clone()).await?;
    }
    Ok(())
}

async fn trailer(client: Client, _: Wanted) -> Result<(), Failure> {
    let mut stream = client.ask("POST", "/answer", None).await?;
    stream.send_data(Bytes::from("abc")).await?;
    stream.send_trailers(HeaderMap::from_iter([("x-sum".parse()?, HeaderValue::from_static("3"))])).await?;
    stream.finish().await?;
    want(body_of(&mut stream, 200).await?.starts_with(b"3 ba7816bf"), "another hash")
}

/// h3 resets no request by itself. One that ends before its content-length is malformed (RFC 9114, section 4.1.2).
async fn short(client: Client, wanted: Wanted) -> Result<(), Failure> {
    let mut stream = client.ask("POST", "/answer", Some(wanted.big.len())).await?;
    send(&mut stream, wanted.big.slice(..100_000)).await?;
    stream.finish().await?;
    let why = stream.recv_response().await.err().ok_or("a response")?;
    want(why.try_get_code() == Some(Code::H3_MESSAGE_ERROR), &format!("another end: {why}"))?;
    small(client, wanted).await
}

/// A stream that is dropped is stopped, with code 0. (`stop_sending` of h3-quinn 0.0.7 panics while a read is under way.)
async fn stopped(client: Client, wanted: Wanted) -> Result<(), Failure> {
    for _ in 0..20 {
        let mut stream = client.ask("GET", "/big.bin", None).await?;
        stream.finish().await?;
        stream.recv_response().await?;
        stream.recv_data().await?;
    }
    small(client, wanted).await
}

async fn refused(client: Client, wanted: Wanted) -> Result<(), Failure> {
    let mut stream = client.ask("PUT", "/answer", Some(wanted.big.len())).await?;
    let sent = send(&mut stream, wanted.big.clone()).await;
    want(body_of(&mut stream, 405).await?.len() == 29, "another text")?;
    want(sent.is_err(), "the upload was not stopped")?;
    small(client, wanted).await
}

/// h3 opens no request behind GOAWAY. What it asked for before it gets.
async fn goaway(client: Client, wanted: Wanted) -> Result<(), Failure> {
    for answered in 0..150 {
        match small(client.clone(), wanted.clone()).await {
            Ok(()) => {}
            Err(why) if answered >= 50 && why.to_string().contains("closing") => return Ok(()),
            Err(why) => return Err(format!("behind {answered}: {why}").into()),
        }
    }
    Err("no GOAWAY".into())
}

type Case = fn(Client, Wanted) -> Pin<Box<dyn Future<Output = Result<(), Failure>> + Send>>;

macro_rules! cases {
    ($($name:literal: $case:ident),* $(,)?) => { &[$(($name, |client, wanted| Box::pin($case(client, wanted)))),*] };
}

fn cases_of(which: &str) -> &'static [(&'static str, Case)] {
    match which {
        "client" => cases! {
            "a small file": small,
            "10 MB": big,
            "POST of 10 MB": post,
            "HEAD": head,
            "100 requests at once": many,
            "500 requests, one behind the other": serial,
            "a request with a trailer": trailer,
            "an upload that is shorter than it says": short,
            "20 downloads that are stopped": stopped,
            "a PUT of 10 MB that is answered with 405 and stopped": refused,
        },
        "lost" => cases! { "10 MB": big, "POST of 10 MB": post, "100 requests at once": many },
        _ => cases! { "GOAWAY behind 50 requests": goaway },
    }
}

async fn try_case(case: Case, endpoint: &quinn::Endpoint, port: u16, wanted: Wanted) -> Result<(), Failure> {
    let quic = endpoint.connect(([127, 0, 0, 1], port).into(), "localhost")?.await?;
    let (mut driver, sender) = h3::client::new(h3_quinn::Connection::new(quic)).await?;
    let driving = tokio::spawn(async move { poll_fn(|cx| driver.poll_close(cx)).await });
    let done = tokio::time::timeout(Duration::from_secs(MOST_SECONDS), case(Client { port, sender }, wanted)).await?;
    driving.abort();
    done
}

pub async fn try_all(which: &str, port: u16, trusted: &str, wanted: Wanted) -> Result<(), Failure> {
    let mut endpoint = quinn::Endpoint::client(([127, 0, 0, 1], 0).into())?;
    endpoint.set_default_client_config(tls::client(trusted)?);
    let mut good = true;
    for (name, case) in cases_of(which) {
        match try_case(*case, &endpoint, port, wanted.clone()).await {
            Ok(()) => println!("ok {name}"),
            Err(why) => {
                good = false;
                println!("failed {name}: {why}");
            }
        }
    }
    want(good, "a case failed")
}
