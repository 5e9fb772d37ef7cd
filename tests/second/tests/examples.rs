//! The examples that document 01 has checked by hand, A to K.

mod common;

use common::notation::{assert_answer, bytes, packet};
use second::{edit, locate, normalise, read, write};
use second::{Change, Form, Level, Row, PACKET_LIMIT, PACKET_SHEET_LIMIT};

const A: &str = "E: 05 01 02 65 0A 09 01 13 02 03 68 14 02 04 71";
const A_SHEET: &str = "PK 00 IT 0005 0001 02 TS TG #1 TI 0013 0002 0368 TI 0014 0002 0471";

#[test]
fn packets_and_their_answers() {
    let table = [
        (A, "accepted"),                        // A
        ("E: 05 81 01 02", "accepted"),         // B
        ("E: 05 03 00 00 02", "accepted"),      // B
        ("E: 05 04 00 00 00 02", "11 at 0"),    // C
        ("E: 05 00", "7 at 0"),                 // E
        ("E: 05 80", "5 at 0"),                 // E
        ("E: 05 01", "6 at 0"),                 // E
        ("E: 05", "3 at 0"),                    // E
        ("E: 80 05 01 02", "4 at 0"),           // E
        ("E: 05 01 02 05 01 02", "9 at 3"),     // F
        ("E: 01 02 00 00", "13 at 0"),          // F
        ("E: 65 02 01 07", "accepted"),         // G
        ("E: 65 04 01 07 01 07", "10 at 4"),    // G
        ("E: 65 01 00", "3 at 2"),              // G
        ("E: 65 05 04 07 13 01 00", "12 at 4"), // G
        ("S: 0E T 01 02 63 55", "accepted"),    // H
        ("S: 0E T 01 02 63 56", "15 at 27"),    // H, another sum
        ("E: FF 7F 01 00", "accepted"),         // K
        ("E: 81 80", "4 at 0"),                 // K
        ("E: 80", "3 at 0"),                    // K
        ("E:", "accepted"),                     // an empty embedded value
    ];
    for (text, answer) in table {
        let (form, packet) = packet(text);
        let mut sheet = vec![0; PACKET_SHEET_LIMIT];
        assert_answer(text, read(form, &packet, &mut sheet), answer);
        let mut out = vec![0; PACKET_LIMIT];
        assert_answer(text, normalise(form, &packet, &mut out), answer);
        let mut rows = vec![Row::default(); 8];
        assert_answer(text, locate(form, &packet, &mut rows), answer);
    }
}

#[test]
fn a_has_this_sheet() {
    let (form, packet) = packet(A);
    let mut sheet = [0; 38];
    assert_eq!(read(form, &packet, &mut sheet), Ok(38));
    assert_eq!(sheet.to_vec(), bytes(A_SHEET));
    let mut again = [0; 15];
    assert_eq!(write(&sheet, &mut again), Ok(15));
    assert_eq!(again.to_vec(), packet);
}

#[test]
fn normal_forms() {
    let table = [
        (A, A),
        ("E: 05 81 01 02", "E: 05 01 02"),                 // B
        ("E: 05 03 00 00 02", "E: 05 01 02"),              // B
        ("E: 03 02 00 41", "E: 03 02 00 41"),              // D
        ("E: 1E 02 00 05", "E: 1E 02 00 05"),              // D
        ("S: 0E T 01 02 63 55", "S: 0E T 01 02 63 55"),    // H
        ("S: 81 0E T 01 02 CF 6A", "S: 0E T 01 02 63 55"), // H, a long outer length
    ];
    for (given, normal) in table {
        let (form, given) = packet(given);
        let (_, normal) = packet(normal);
        let mut out = vec![0; normal.len()];
        assert_eq!(normalise(form, &given, &mut out), Ok(normal.len()));
        assert_eq!(out, normal);
    }
}

#[test]
fn h_is_written_from_its_sheet() {
    let sheet = bytes("PK 01 IT 0002 0008 00*8");
    let (_, expected) = packet("S: 0E T 01 02 63 55");
    let mut out = [0; 31];
    assert_eq!(write(&sheet, &mut out), Ok(31));
    assert_eq!(out.to_vec(), expected);
}

#[test]
fn edits() {
    let put = bytes("00 05");
    let a_put = "E: 05 01 02 65 09 08 01 13 01 05 14 02 04 71";
    let table = [
        (A, Level::Target(1), 19, put.as_slice(), a_put), // I
        ("E: 05 81 01 02", Level::Set, 6, &[3], "E: 05 81 01 02 06 01 03"), // J
    ];
    for (given, level, tag, value, expected) in table {
        let (form, given) = packet(given);
        let (_, expected) = packet(expected);
        let mut out = vec![0; expected.len()];
        let answer = edit(form, &given, level, tag, Change::Put(value), &mut out);
        assert_eq!(answer, Ok(expected.len()));
        assert_eq!(out, expected);
    }
}

#[test]
fn a_has_these_rows() {
    let (form, packet) = packet(A);
    let mut rows = [Row::default(); 5];
    assert_eq!(form, Form::Embedded);
    assert_eq!(locate(form, &packet, &mut rows), Ok(5));
    let lines = rows.map(|row| [row.target, row.tag, row.offset, row.length]);
    let expected = [[0, 5, 2, 1], [0, 101, 5, 10], [1, 0, 6, 9], [1, 19, 9, 2], [1, 20, 13, 2]];
    assert_eq!(lines, expected);
}
