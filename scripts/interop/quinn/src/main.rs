//! HTTP/3 by the Rust crate h3 over quinn, for `make interop` to talk to.
//!
//!     quinn_peer serve PORT CERTIFICATE KEY FOLDER   GET and HEAD of files below a folder, POST with count and SHA-256; further paths: see `server.rs`
//!     quinn_peer client PORT TRUSTED BIG POSTED      a connection to a server for each case: a line 'ok CASE' or 'failed CASE: WHAT'. BIG is the file
//!                                                    that the server has as /big.bin, and POSTED what it answers to a POST of it as /answer
//!     quinn_peer lost ..                             some of these cases, where packets are lost
//!     quinn_peer limited ..                          a case for a server that takes 150 requests on a connection

mod client;
mod server;
mod tls;

use std::error::Error;
use std::process::ExitCode;

/// What went wrong, as text for a line.
pub type Failure = Box<dyn Error + Send + Sync>;

/// Bytes that are sent at once.
pub const PIECE: usize = 64 * 1024;

async fn run(words: &[&str]) -> Result<(), Failure> {
    match *words {
        ["serve", port, certificate, key, folder] => server::serve(port.parse()?, certificate, key, folder).await,
        [cases @ ("client" | "lost" | "limited"), port, trusted, big, posted] => {
            client::try_all(cases, port.parse()?, trusted, client::Wanted::read(big, posted)?).await
        }
        _ => Err("serve PORT CERTIFICATE KEY FOLDER, or client|lost|limited PORT TRUSTED BIG POSTED".into()),
    }
}

#[tokio::main(worker_threads = 2)]
async fn main() -> ExitCode {
    let words: Vec<String> = std::env::args().skip(1).collect();
    let words: Vec<&str> = words.iter().map(String::as_str).collect();
    match run(&words).await {
        Ok(()) => ExitCode::SUCCESS,
        Err(why) => {
            eprintln!("quinn_peer: {why}");
            ExitCode::FAILURE
        }
    }
}
