//! The server. Beside files it has paths of its own: `own_path`.

use std::sync::Arc;
use std::time::Duration;

use bytes::{Buf, Bytes};
use h3::error::{Code, ErrorLevel};
use h3::server::RequestStream;
use h3_quinn::BidiStream;
use http::{HeaderMap, HeaderValue, Method, Request, Response};
use ring::digest::{Context, SHA256};

use crate::{tls, Failure, PIECE};

type Stream = RequestStream<BidiStream<Bytes>, Bytes>;

pub async fn serve(port: u16, certificate: &str, key: &str, folder: &str) -> Result<(), Failure> {
    let endpoint = quinn::Endpoint::server(tls::server(certificate, key)?, ([127, 0, 0, 1], port).into())?;
    let folder: Arc<str> = folder.into();
    while let Some(incoming) = endpoint.accept().await {
        let folder = folder.clone();
        tokio::spawn(async move {
            if let Err(why) = serve_connection(incoming, folder).await {
                eprintln!("connection: {why}");
            }
        });
    }
    Ok(())
}

async fn serve_connection(incoming: quinn::Incoming, folder: Arc<str>) -> Result<(), Failure> {
    let quic = h3_quinn::Connection::new(incoming.await?);
    let mut http = h3::server::builder().build::<_, Bytes>(quic).await?;
    loop {
        let (request, stream) = match http.accept().await {
            Ok(Some(accepted)) => accepted,
            Ok(None) => return Ok(()),
            // a fault of this request alone (a reset before its head was read is to h3 0.0.6 one of the connection)
            Err(why) if why.get_error_level() == ErrorLevel::StreamError => continue,
            Err(why) => return Err(why.into()),
        };
        if request.uri().path() == "/goaway" {
            http.shutdown(1).await?;
        }
        let folder = folder.clone();
        tokio::spawn(async move {
            if let Err(why) = answer(request, stream, &folder).await {
                eprintln!("request: {why}");
            }
        });
    }
}

async fn answer(request: Request<()>, mut stream: Stream, folder: &str) -> Result<(), Failure> {
    let path = request.uri().path();
    if own_path(path, &mut stream).await? {
        return Ok(());
    }
    let body = if request.method() == Method::POST {
        hash(&mut stream).await?.into()
    } else if let Ok(file) = tokio::fs::read(format!("{folder}{path}")).await {
        Bytes::from(file)
    } else {
        stream.send_response(Response::builder().status(404).body(())?).await?;
        return Ok(stream.finish().await?);
    };
    stream.send_response(Response::builder().header("content-length", body.len()).header("server", "h3").body(())?).await?;
    if request.method() != Method::HEAD {
        send(&mut stream, body).await?;
    }
    Ok(stream.finish().await?)
}

async fn send(stream: &mut Stream, mut body: Bytes) -> Result<(), Failure> {
    while !body.is_empty() {
        stream.send_data(body.split_to(PIECE.min(body.len()))).await?;
    }
    Ok(())
}

/// The count and the SHA-256 of a request's body.
async fn hash(stream: &mut Stream) -> Result<String, Failure> {
    let (mut context, mut count) = (Context::new(&SHA256), 0);
    while let Some(mut piece) = stream.recv_data().await? {
        count += piece.remaining();
        context.update(&piece.copy_to_bytes(piece.remaining()));
    }
    let hash: String = context.finish().as_ref().iter().map(|byte| format!("{byte:02x}")).collect();
    Ok(format!("{count} {hash}\n"))
}

async fn answer_text(stream: &mut Stream, text: &'static str) -> Result<(), Failure> {
    stream.send_response(Response::new(())).await?;
    Ok(stream.send_data(Bytes::from(text)).await?)
}

/// The answers that are not files. `true`: this was one.
async fn own_path(path: &str, stream: &mut Stream) -> Result<bool, Failure> {
    match path {
        "/204" | "/304" => {
            stream.send_response(Response::builder().status(&path[1..]).header("etag", "\"1\"").body(())?).await?;
        }
        "/trailers" => {
            answer_text(stream, "trailers\n").await?;
            let fields = [("x-count", "9"), ("x-sum", "0")].map(|(name, value)| (name.parse().unwrap(), HeaderValue::from_static(value)));
            stream.send_trailers(HeaderMap::from_iter(fields)).await?;
        }
        "/reset" => {
            stream.send_response(Response::builder().header("content-length", 10_000_000).body(())?).await?;
            send(stream, vec![0; PIECE].into()).await?;
            tokio::time::sleep(Duration::from_millis(200)).await;
            stream.stop_stream(Code::H3_REQUEST_CANCELLED);
            return Ok(true);
        }
        "/early" => {
            answer_text(stream, "early\n").await?;
            stream.finish().await?;
            stream.stop_sending(Code::H3_NO_ERROR);
            return Ok(true);
        }
        // the answer comes half a second behind GOAWAY: a client that heeds it sends no request meanwhile, whichever of its streams is read first
        "/goaway" => {
            tokio::time::sleep(Duration::from_millis(500)).await;
            answer_text(stream, "the last\n").await?;
        }
        _ => return Ok(false),
    }
    stream.finish().await?;
    Ok(true)
}
