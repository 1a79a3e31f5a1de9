//! Reads cases, a line each, and prints what h3 answers to each.
mod connections;
mod parts;
mod quic;
mod words;

use std::io::{self, BufRead, Write};
use std::panic;

fn main() -> io::Result<()> {
    panic::set_hook(Box::new(|_| {}));
    let mut out = io::BufWriter::new(io::stdout().lock());
    for line in io::stdin().lock().lines() {
        let line = line?;
        let answer = panic::catch_unwind(|| answer(&line)).unwrap_or_else(|_| "panic".into());
        writeln!(out, "{answer}")?;
    }
    out.flush()
}

fn answer(line: &str) -> String {
    let words: Vec<&str> = line.split(' ').collect();
    let rest = &words[1..];
    match words[0] {
        "varint" => parts::varint(rest),
        "varint_write" => parts::varint_write(rest),
        "frame" => parts::frame(rest),
        "two_frames" => parts::two_frames(rest),
        "settings" => parts::settings(rest),
        "stream" => parts::stream(rest),
        "cuts" => parts::cuts(rest),
        "server" => connections::server(rest),
        "client" => connections::client(rest),
        _ => "no such case".into(),
    }
}
