//! The words of cases, and those of answers.
use crate::quic::Last;
use http::HeaderMap;

/// A number of decimal digits.
pub fn number(word: &str) -> u64 {
    word.parse().expect("a number")
}

/// The bytes of hex digits, `-` for none.
pub fn hex(word: &str) -> Vec<u8> {
    let word = if word == "-" { "" } else { word };
    let pair = |at| u8::from_str_radix(&word[at..at + 2], 16).expect("hex digits");
    (0..word.len()).step_by(2).map(pair).collect()
}

/// Hex digits of bytes, `-` for none.
pub fn digits(bytes: &[u8]) -> String {
    if bytes.is_empty() {
        return "-".into();
    }
    bytes.iter().map(|byte| format!("{byte:02x}")).collect()
}

/// What stands behind the bytes of a stream.
pub fn ending(word: &str) -> Last {
    match word {
        "end" => Last::End,
        "nothing" => Last::Nothing,
        "reset" => Last::Reset,
        _ => panic!("no ending: {word}"),
    }
}

/// Bytes as h3_cases prints them: what is no letter, digit or sign is an escape.
pub fn escaped(bytes: &[u8]) -> String {
    let one = |byte: &u8| match byte {
        b'%' => "%25".to_string(),
        33..=126 => (*byte as char).to_string(),
        _ => format!("%{byte:02X}"),
    };
    bytes.iter().map(one).collect()
}

/// The fields of a map, each behind a blank.
pub fn fields(map: &HeaderMap) -> String {
    map.iter().map(|(name, value)| format!(" {}={}", escaped(name.as_ref()), escaped(value.as_bytes()))).collect()
}
