//! What the programs here have in common: document 01's examples, as packets
//! and edits, targets to add and to drop, and the cases that take the calls
//! deep.

pub mod deep;
pub mod targets;

use second::generate::{EditCase, PacketCase};
use second::{Form, Level};

/// The packets of examples A to K, results of edits too.
pub fn examples() -> Vec<PacketCase> {
    let mut list: Vec<PacketCase> = EMBEDDED.iter().map(|text| case(Form::Embedded, bytes(text))).collect();
    list.push(case(Form::Standalone, example_h()));
    list
}

/// The edits of examples I and J.
pub fn edits() -> Vec<EditCase> {
    let edit = |packet: &str, level, tag, value: &[u8]| EditCase {
        form: Form::Embedded,
        packet: bytes(packet),
        level,
        tag,
        value: Some(value.to_vec()),
    };
    vec![edit(EMBEDDED[0], Level::Target(1), 19, &[0, 5]), edit(EMBEDDED[1], Level::Set, 6, &[3])]
}

/// Example H: standalone with time 0 and nothing else.
pub fn example_h() -> Vec<u8> {
    bytes("06 0E 2B 34 02 0B 01 01 0E 01 03 03 06 00 00 00 0E 02 08 00 00 00 00 00 00 00 00 01 02 63 55")
}

const EMBEDDED: [&str; 23] = [
    "05 01 02 65 0A 09 01 13 02 03 68 14 02 04 71",
    "05 81 01 02",
    "05 03 00 00 02",
    "05 01 02",
    "05 04 00 00 00 02",
    "03 02 00 41",
    "1E 02 00 05",
    "05 00",
    "05 80",
    "05 01",
    "05",
    "80 05 01 02",
    "05 01 02 05 01 02",
    "01 02 00 00",
    "65 02 01 07",
    "65 04 01 07 01 07",
    "65 01 00",
    "65 05 04 07 13 01 00",
    "05 01 02 65 09 08 01 13 01 05 14 02 04 71",
    "05 81 01 02 06 01 03",
    "FF 7F 01 00",
    "81 80",
    "80",
];

fn case(form: Form, bytes: Vec<u8>) -> PacketCase {
    PacketCase { form, bytes }
}

fn bytes(text: &str) -> Vec<u8> {
    text.split(' ').map(|byte| u8::from_str_radix(byte, 16).expect("a byte")).collect()
}
