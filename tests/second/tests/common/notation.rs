//! Packets, sheets and answers written as short texts.
//!
//! Bytes are pairs of hex digits, with or without spaces between; `41*33`
//! is a byte 33 times; `T` is the item of tag 2 with time 0; `#1` is an id
//! of a sheet; `PK` `IT` `TS` `TG` `TI` are marks. A packet begins `E:`
//! (embedded) or `S:` (standalone: the key is put before the bytes shown).

use second::packet::KEY;
use second::{Answer, Form, Refusal};

pub fn bytes(text: &str) -> Vec<u8> {
    let mut out = Vec::new();
    for word in text.split_whitespace() {
        match word {
            "PK" | "IT" | "TS" | "TG" | "TI" => out.extend(word.as_bytes()),
            "T" => out.extend([2, 8, 0, 0, 0, 0, 0, 0, 0, 0]),
            _ => number_or_hex(word, &mut out),
        }
    }
    out
}

fn number_or_hex(word: &str, out: &mut Vec<u8>) {
    if let Some(id) = word.strip_prefix('#') {
        out.extend(id.parse::<u64>().unwrap().to_be_bytes());
    } else if let Some((byte, times)) = word.split_once('*') {
        let byte = u8::from_str_radix(byte, 16).unwrap();
        out.extend(vec![byte; times.parse().unwrap()]);
    } else {
        assert!(word.len().is_multiple_of(2), "half a byte in {word}");
        for at in (0..word.len()).step_by(2) {
            out.push(u8::from_str_radix(&word[at..at + 2], 16).unwrap());
        }
    }
}

pub fn packet(text: &str) -> (Form, Vec<u8>) {
    match text.split_once(':') {
        Some(("E", rest)) => (Form::Embedded, bytes(rest)),
        Some(("S", rest)) => (Form::Standalone, [KEY.to_vec(), bytes(rest)].concat()),
        _ => panic!("no form in {text}"),
    }
}

/// `accepted`, or a refusal as `7 at 0`.
pub fn refusal(text: &str) -> Option<Refusal> {
    if text == "accepted" {
        return None;
    }
    let (number, place) = text.split_once(" at ").unwrap();
    let (number, place) = (number.parse().unwrap(), place.parse().unwrap());
    Some(Refusal { number, place })
}

pub fn assert_answer(case: &str, answer: Answer, expected: &str) {
    assert_eq!(answer.err(), refusal(expected), "{case}");
}
