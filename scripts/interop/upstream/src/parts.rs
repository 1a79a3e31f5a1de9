//! Cases of h3's parts: integers, frames, settings, and streams of frames. The lines are those of the program h3_cases.
use crate::quic::{Last, Stream};
use crate::words::{digits, ending, hex, number};
use bytes::{Buf, Bytes};
use h3::frame::{FrameStream, FrameStreamError};
use h3::proto::coding::BufExt;
use h3::proto::frame::{Frame, FrameError, PayloadLen, SettingId};
use h3::proto::varint::VarInt;
use h3::stream::BufRecvStream;
use std::fmt::Write;
use std::task::{Context, Poll, Waker};

/// The integer at the front and the bytes behind it, or how it ends too early.
pub fn varint(words: &[&str]) -> String {
    let bytes = hex(words[0]);
    let mut from = &bytes[..];
    match from.get_var() {
        Ok(value) => format!("{value} rest {}", digits(from)),
        Err(e) => format!("{e:?}"),
    }
}

/// The shortest encoding of a number, and its length.
pub fn varint_write(words: &[&str]) -> String {
    match VarInt::from_u64(number(words[0])) {
        Ok(value) => {
            let mut out = Vec::new();
            value.encode(&mut out);
            format!("{} size {}", digits(&out), value.size())
        }
        Err(e) => format!("{e:?}"),
    }
}

/// The text of the frame at the front, or of why it is none.
pub fn frame(words: &[&str]) -> String {
    let bytes = hex(words[0]);
    next(&mut &bytes[..])
}

/// The texts of the first two frames, and the bytes behind them.
pub fn two_frames(words: &[&str]) -> String {
    let bytes = hex(words[0]);
    let mut from = &bytes[..];
    let (first, second) = (next(&mut from), next(&mut from));
    format!("{first}; {second}; rest {}", digits(from))
}

fn next(from: &mut &[u8]) -> String {
    match Frame::<PayloadLen>::decode(from) {
        Ok(frame) => format!("{frame:?}"),
        Err(e) => format!("{e}"),
    }
}

/// The values of some ids in the payload of a SETTINGS frame, or why it is refused.
pub fn settings(words: &[&str]) -> String {
    let payload = hex(words[0]);
    let mut whole = vec![4];
    VarInt::try_from(payload.len()).expect("a length").encode(&mut whole);
    whole.extend_from_slice(&payload);
    match Frame::<PayloadLen>::decode(&mut &whole[..]) {
        Ok(Frame::Settings(settings)) => {
            let ids = words[1..].iter().map(|id| SettingId(number(id)));
            ids.fold(String::new(), |text, id| text + &format!("{:?} ", settings.get(id)))
        }
        Ok(frame) => format!("{frame:?}"),
        Err(FrameError::Settings(e)) => format!("{e:?}: {e}"),
        Err(e) => format!("{e:?}"),
    }
}

/// The frames of a stream and how it ended, and the bytes of all payloads.
pub fn stream(words: &[&str]) -> String {
    read(&hex(words[3]), number(words[0]) as usize, number(words[1]) as usize, ending(words[2]))
}

/// What is read of the bytes that are cut in two, in every place: each answer that is not the one before.
pub fn cuts(words: &[&str]) -> String {
    let bytes = hex(words[0]);
    let (mut text, mut before) = (String::new(), String::new());
    for cut in 0..=bytes.len() {
        let now = read(&bytes, cut, 99, Last::End);
        if now != before {
            text += &format!("{now}; ");
        }
        before = now;
    }
    text
}

fn read(bytes: &[u8], first: usize, later: usize, last: Last) -> String {
    let bytes = Bytes::copy_from_slice(bytes);
    let source = Stream { id: 0, bytes, first, later, last, codes: Default::default() };
    let mut stream: FrameStream<Stream, Bytes> = FrameStream::new(BufRecvStream::new(source));
    let mut text = String::new();
    let mut payload = Vec::new();
    let mut left = 0;
    let how = loop {
        let step = if left > 0 { data(&mut stream, &mut payload, &mut left) } else { one(&mut stream, &mut text, &mut left) };
        if let Some(how) = step {
            break how;
        }
    };
    text + &format!("{how} payload {}", digits(&payload))
}

/// Asks for the next frame, tells it, and answers how the stream stopped, where it did.
fn one(stream: &mut FrameStream<Stream, Bytes>, text: &mut String, left: &mut usize) -> Option<&'static str> {
    match stream.poll_next(&mut Context::from_waker(Waker::noop())) {
        Poll::Ready(Ok(Some(frame))) => {
            match &frame {
                Frame::Data(len) => *left = len.0,
                Frame::WebTransportStream(_) => *left = usize::MAX,
                _ => {}
            }
            let _ = write!(text, "{frame:?};");
            None
        }
        Poll::Ready(Ok(None)) => Some("end"),
        Poll::Ready(Err(e)) => Some(error_text(&e)),
        Poll::Pending => Some("pending"),
    }
}

/// Asks for the next bytes of a payload, and answers how the stream stopped, where it did.
fn data(stream: &mut FrameStream<Stream, Bytes>, payload: &mut Vec<u8>, left: &mut usize) -> Option<&'static str> {
    match stream.poll_data(&mut Context::from_waker(Waker::noop())) {
        Poll::Ready(Ok(Some(mut piece))) => {
            *left -= piece.remaining();
            while piece.has_remaining() {
                payload.push(piece.get_u8());
            }
            None
        }
        Poll::Ready(Ok(None)) => Some("payload over"),
        Poll::Ready(Err(e)) => Some(error_text(&e)),
        Poll::Pending => Some("pending"),
    }
}

fn error_text(e: &FrameStreamError) -> &'static str {
    match e {
        FrameStreamError::Proto(_) => "refused",
        FrameStreamError::Quic(_) => "reset",
        FrameStreamError::UnexpectedEnd => "unexpected end",
    }
}
