//! An HTTP/3 server that sends each request's body back, and a client that posts bodies and compares what comes, over quinn.
//!
//!     h3_over_quinn serve ADDRESS CERTIFICATE KEY
//!     h3_over_quinn post ADDRESS CERTIFICATE COUNT LENGTH

mod connection;

use beanwhile_h3::{Config, Item};
use connection::{Connection, Failure};
use quinn::crypto::rustls::{QuicClientConfig, QuicServerConfig};
use std::collections::HashMap;
use std::sync::Arc;

const PIECE: usize = 16_384;

fn certificates(file: &str) -> Result<Vec<rustls::pki_types::CertificateDer<'static>>, Failure> {
    Ok(rustls_pemfile::certs(&mut &std::fs::read(file)?[..]).collect::<Result<_, _>>()?)
}

fn server_config(certificate: &str, key: &str) -> Result<quinn::ServerConfig, Failure> {
    let key = rustls_pemfile::private_key(&mut &std::fs::read(key)?[..])?.ok_or("no key")?;
    let mut tls = rustls::ServerConfig::builder_with_provider(Arc::new(rustls::crypto::ring::default_provider()))
        .with_protocol_versions(&[&rustls::version::TLS13])?
        .with_no_client_auth()
        .with_single_cert(certificates(certificate)?, key)?;
    tls.alpn_protocols = vec![b"h3".to_vec()];
    Ok(quinn::ServerConfig::with_crypto(Arc::new(QuicServerConfig::try_from(tls)?)))
}

fn client_config(trusted: &str) -> Result<quinn::ClientConfig, Failure> {
    let mut roots = rustls::RootCertStore::empty();
    for certificate in certificates(trusted)? {
        roots.add(certificate)?;
    }
    let mut tls = rustls::ClientConfig::builder_with_provider(Arc::new(rustls::crypto::ring::default_provider()))
        .with_protocol_versions(&[&rustls::version::TLS13])?
        .with_root_certificates(roots)
        .with_no_client_auth();
    tls.alpn_protocols = vec![b"h3".to_vec()];
    Ok(quinn::ClientConfig::new(Arc::new(QuicClientConfig::try_from(tls)?)))
}

/// Answers what came of one request, up to a pause or its end.
fn answer(connection: &mut Connection, id: u64) -> Result<(), Failure> {
    while let Some(item) = connection.next_item(id)? {
        let is_last = item.is_last();
        match item {
            Item::Head(head) => {
                println!("stream {id}: {:?}", head.fields);
                connection.h3.send_head(id, &[(":status", "200")])?;
            }
            Item::Body(bytes) => connection.h3.send_body(id, &bytes)?,
            Item::TooLargeHead(_) => connection.h3.send_head(id, &[(":status", "431")])?,
            Item::End => connection.h3.finish(id)?,
            Item::Fault(fault) => println!("stream {id}: {fault}"),
            _ => {}
        }
        if is_last {
            break;
        }
    }
    Ok(())
}

async fn serve_connection(incoming: quinn::Incoming) -> Result<(), Failure> {
    let mut connection = Connection::new(incoming.await?, &Config::server()).await?;
    while let Some(ids) = connection.turn().await? {
        for id in ids {
            answer(&mut connection, id)?;
        }
    }
    Ok(())
}

async fn serve(address: &str, certificate: &str, key: &str) -> Result<(), Failure> {
    let endpoint = quinn::Endpoint::server(server_config(certificate, key)?, address.parse()?)?;
    while let Some(incoming) = endpoint.accept().await {
        tokio::spawn(async {
            if let Err(why) = serve_connection(incoming).await {
                println!("a connection ended: {why}");
            }
        });
    }
    Ok(())
}

/// Takes what came of a response: its bytes are added up. Returns whether it is over.
fn take(connection: &mut Connection, id: u64, got: &mut usize) -> Result<bool, Failure> {
    while let Some(item) = connection.next_item(id)? {
        match item {
            Item::Head(head) if head.status == Some(200) => {}
            Item::Body(bytes) if bytes.iter().all(|it| *it == id as u8) => *got += bytes.len(),
            Item::End => return Ok(true),
            other => return Err(format!("stream {id}: {other:?}").into()),
        }
    }
    Ok(false)
}

/// Posts so many bodies at once on one connection. Each has bytes of its own, which have to come back.
async fn post(address: &str, certificate: &str, count: usize, length: usize) -> Result<(), Failure> {
    let mut endpoint = quinn::Endpoint::client("127.0.0.1:0".parse()?)?;
    endpoint.set_default_client_config(client_config(certificate)?);
    let quic = endpoint.connect(address.parse()?, "localhost")?.await?;
    let mut connection = Connection::new(quic, &Config::client()).await?;
    let mut open = HashMap::new();
    for _ in 0..count {
        let id = connection.open_request().await?;
        connection.h3.send_head(id, &[(":method", "POST"), (":scheme", "https"), (":authority", "localhost"), (":path", "/echo")])?;
        for start in (0..length).step_by(PIECE) {
            connection.h3.send_body(id, &vec![id as u8; PIECE.min(length - start)])?;
        }
        connection.h3.finish(id)?;
        open.insert(id, 0);
    }
    while !open.is_empty() {
        for id in connection.turn().await?.ok_or("the connection is closed")? {
            let Some(got) = open.get_mut(&id) else { continue };
            if take(&mut connection, id, got)? {
                println!("stream {id}: {got} bytes");
                if open.remove(&id) != Some(length) {
                    return Err("what came is not as long as what was sent".into());
                }
            }
        }
    }
    connection.close();
    endpoint.wait_idle().await;
    Ok(())
}

#[tokio::main]
async fn main() -> Result<(), Failure> {
    let words: Vec<String> = std::env::args().skip(1).collect();
    match words.iter().map(String::as_str).collect::<Vec<_>>()[..] {
        ["serve", address, certificate, key] => serve(address, certificate, key).await,
        ["post", address, certificate, count, length] => post(address, certificate, count.parse()?, length.parse()?).await,
        _ => Err("serve ADDRESS CERTIFICATE KEY, or post ADDRESS CERTIFICATE COUNT LENGTH".into()),
    }
}
