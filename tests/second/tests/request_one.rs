//! Request 1 and how it is read: both or neither of tags 19 and 20, and
//! edits of two changes.

mod common;

use common::notation::{assert_answer, bytes, packet};
use second::{edit, edit_two, edit_two_number, locate, normalise, read, show, write};
use second::{Change, Level, Row, PACKET_LIMIT, PACKET_SHEET_LIMIT, ROWS_LIMIT};

const A: &str = "E: 05 01 02 65 0A 09 01 13 02 03 68 14 02 04 71";
const T1: Level = Level::Target(1);
const T7: Level = Level::Target(7);
const T9: Level = Level::Target(9);

#[test]
fn packets() {
    let table = [
        ("E: 65 05 04 07 13 01 05", "20 at 2"),
        ("E: 65 05 04 07 14 01 05", "20 at 2"),
        ("E: 65 06 05 07 13 02 00 05", "20 at 2"),
        ("E: 65 06 05 07 14 81 01 05", "20 at 2"),
        ("E: 65 08 07 07 14 01 05 04 01 01", "20 at 2"),
        ("E: 65 08 07 07 13 01 05 14 01 06", "accepted"),
        ("E: 65 08 07 07 14 01 06 13 01 05", "accepted"),
        // In its place: after the pack's items, before what follows it.
        ("E: 65 05 04 07 13 01 00", "12 at 4"),
        ("E: 65 06 05 07 13 01 05 04", "3 at 7"),
        ("E: 65 08 07 07 13 01 05 13 01 05", "9 at 7"),
        ("E: 65 06 04 07 13 01 05 80", "20 at 2"),
        ("E: 65 07 04 07 13 01 05 01 07", "20 at 2"),
        ("E: 65 07 01 07 04 09 13 01 05", "20 at 4"),
        ("E: 65 0E 07 07 13 01 05 14 01 06 06 09 14 81 01 05", "6 at 10"),
        ("E: 65 0E 07 07 13 01 05 14 01 06 05 09 14 81 01 05", "20 at 10"),
        ("E: 65 05 04 07 13 01 05 05 00", "20 at 2"),
        // Before 14, at the same place.
        ("S: 11 T 65 05 04 07 13 01 05", "20 at 29"),
        ("S: 1D T 65 11 10 07 11 0A 00*10 13 01 05", "20 at 29"),
        ("S: 1D T 65 11 10 07 14 01 05 11 0A 00*10", "20 at 29"),
        ("S: 14 T 65 08 07 07 13 01 05 14 01 06", "14 at 29"),
        // In the set these are tags like any other.
        ("E: 13 01 00", "accepted"),
        ("E: 14 01 05 65 02 01 07", "accepted"),
    ];
    for (text, answer) in table {
        let (form, packet) = packet(text);
        let mut out = vec![0; PACKET_SHEET_LIMIT];
        assert_answer(text, read(form, &packet, &mut out), answer);
        assert_answer(text, normalise(form, &packet, &mut out), answer);
        assert_answer(text, locate(form, &packet, &mut vec![Row::default(); ROWS_LIMIT]), answer);
        // The packet's own answer, so no edit can mend it.
        let edited = if answer == "accepted" { "19 at 0" } else { answer };
        let put = Change::Put(&[1]);
        assert_answer(text, edit_two(form, &packet, T7, 0, put, 20, put, &mut out), edited);
        if answer.starts_with("20") {
            assert_answer(text, edit(form, &packet, T7, 20, put, &mut out), answer);
            let shown = show(form, &packet, &packet, T7, 19);
            assert_eq!((shown.offset, shown.length), (0, 0), "{text}");
        }
    }
}

#[test]
fn sheets() {
    let table = [
        ("PK 00 TS TG #1 TI 0013 0001 05", "20 at 5"),
        ("PK 00 TS TG #1 TI 0014 0001 05", "20 at 5"),
        ("PK 00 TS TG #1 TI 0013 0001 05 TI 0014 0001 06", "accepted"),
        ("PK 00 TS TG #1 TI 0014 0001 06 TI 0013 0001 05", "accepted"),
        ("PK 00 TS TG #1 TG #2 TI 0014 0001 05", "20 at 15"),
        // Before whatever follows, an unknown or cut mark too.
        ("PK 00 TS TG #1 TI 0013 0001 05 5858", "20 at 5"),
        ("PK 00 TS TG #1 TI 0013 0001 05 54", "20 at 5"),
        ("PK 00 TS TG #1 TI 0013 0001 05 TG #1", "20 at 5"),
        ("PK 00 TS TG #1 TI 0013 0001 05 TS", "20 at 5"),
        ("PK 00 TS TG #1 TI 0013 0001 05 IT 0005 0000", "20 at 5"),
        ("PK 00 TS TG #1 TI 0013 0001 05 PK 00", "20 at 5"),
        ("PK 00 TS TG #1 TI 0013 0001 05 TI", "17 at 22"),
        ("PK 00 TS TG #1 TI 0013 0002 0005", "17 at 15"),
        // Before 14, at the same place, and before the last 1.
        ("PK 01 IT 0002 0008 00*8 TS TG #1 TI 0013 0001 05", "20 at 19"),
        ("PK 01 IT 0002 0008 00*8 TS TG #1 TI 0014 0001 05 TI 0011 000A 00*10", "20 at 19"),
        ("PK 01 IT 0002 0008 00*8 TS TG #1 TI 0013 0001 05 TI 0014 0001 05", "14 at 19"),
        ("PK 00 IT 000D F000 00*61440 TS TG #1 TI 0013 0001 05", "20 at 61451"),
        ("PK 00 IT 0013 0001 00", "accepted"),
    ];
    for (text, answer) in table {
        assert_answer(text, write(&bytes(text), &mut vec![0; PACKET_LIMIT]), answer);
    }
}

/// A tag and what to put, nothing for a removal.
type Named = (u64, Option<&'static str>);

/// Calls with these one or two changes: an answer, or the result's packet.
fn check(given: &str, level: Level, changes: &[Named], expected: &str) {
    let (form, packet_bytes) = packet(given);
    let values: Vec<Option<Vec<u8>>> = changes.iter().map(|(_, value)| value.map(bytes)).collect();
    let change = |at: usize| values[at].as_deref().map_or(Change::Remove, Change::Put);
    let mut out = vec![7; PACKET_LIMIT];
    let answer = match changes {
        [(tag, _)] => edit(form, &packet_bytes, level, *tag, change(0), &mut out),
        [(tag, _), (tag2, _)] => {
            edit_two(form, &packet_bytes, level, *tag, change(0), *tag2, change(1), &mut out)
        }
        _ => panic!("one or two changes"),
    };
    let case = format!("{given} {changes:?}");
    if expected.contains(" at ") {
        assert_answer(&case, answer, expected);
        assert!(out.iter().all(|&byte| byte == 7), "{case}");
        return;
    }
    let (_, expected) = packet(expected);
    assert_eq!(answer, Ok(expected.len()), "{case}");
    assert_eq!(out[..expected.len()], expected, "{case}");
}

#[test]
fn one_change_that_leaves_one_alone() {
    check(A, T1, &[(19, None)], "20 at 0");
    check(A, T1, &[(20, None)], "20 at 0");
    check("E: 65 02 01 07", T7, &[(19, Some("05"))], "20 at 0");
    check("E: 65 02 01 07", T7, &[(20, Some("00"))], "12 at 0");
    check("E: 65 02 01 07", Level::Set, &[(19, Some("05"))], "E: 65 02 01 07 13 01 05");
    let over = "E: 05 01 02 65 09 08 01 13 02 03 68 14 01 06";
    check(A, T1, &[(20, Some("00 06"))], over);
}

#[test]
fn the_order_given_shows_in_the_bytes() {
    let bare = "E: 65 02 01 07";
    let (row, column) = ((19, Some("00 05")), (20, Some("06")));
    check(bare, T7, &[row, column], "E: 65 08 07 07 13 01 05 14 01 06");
    check(bare, T7, &[column, row], "E: 65 08 07 07 14 01 06 13 01 05");
    check(A, T1, &[(19, None), (20, None)], "E: 05 01 02 65 02 01 01");
    check(A, T1, &[(20, None), (19, None)], "E: 05 01 02 65 02 01 01");
    let over = "E: 05 01 02 65 08 07 01 13 01 05 14 01 06";
    check(A, T1, &[row, column], over);
    check(A, T1, &[column, row], over);
    check(A, T1, &[(19, Some("05")), (20, None)], "20 at 0");
    check(A, T1, &[(20, None), (19, Some("05"))], "20 at 0");
    check(A, T1, &[(20, None), (4, Some("05"))], "20 at 0");
}

#[test]
fn a_put_and_a_removal() {
    let given = "E: 65 81 0A 81 08 07 04 01 01 05 81 01 02";
    let (gone, new, over) = ((4, None), (6, Some("03")), (5, Some("09")));
    check(given, T7, &[gone, new], "E: 65 09 08 07 05 81 01 02 06 01 03");
    check(given, T7, &[new, gone], "E: 65 09 08 07 05 81 01 02 06 01 03");
    check(given, T7, &[over, gone], "E: 65 05 04 07 05 01 09");
    check(given, T7, &[new, over], "E: 65 0B 0A 07 04 01 01 05 01 09 06 01 03");
    check(given, T7, &[(5, None), gone], "E: 65 02 01 07");
    check(given, T7, &[(5, None), new], "E: 65 08 07 07 04 01 01 06 01 03");
}

#[test]
fn lengths_around_two_changes() {
    let given = "E: 05 81 01 02 65 81 07 81 05 07 04 81 01 01";
    let put = "E: 05 81 01 02 65 0C 0B 07 04 81 01 01 13 01 05 14 01 06";
    check(given, T7, &[(19, Some("05")), (20, Some("06"))], put);
    let given = "E: 65 7F 7E 07 22 7B 00*123";
    let put = "E: 65 81 86 81 84 07 22 7B 00*123 13 01 05 14 01 06";
    check(given, T7, &[(19, Some("05")), (20, Some("06"))], put);
    check(put, T7, &[(19, None), (20, None)], given);
}

#[test]
fn each_change_in_turn() {
    let given = "E: 65 05 04 07 04 01 01";
    let fine = (5, Some("01"));
    check(given, T7, &[fine, (0, Some("01"))], "19 at 0");
    check(given, T7, &[fine, (16_384, None)], "19 at 0");
    check(given, T7, &[fine, (5, Some("01"))], "19 at 0");
    check(given, T7, &[fine, (5, None)], "19 at 0");
    check(given, T7, &[(4, None), (4, Some("02"))], "19 at 0");
    check(given, T7, &[(4, None), (4, None)], "19 at 0");
    check(given, T7, &[fine, (6, None)], "18 at 0");
    check(given, T7, &[fine, (6, Some(""))], "7 at 0");
    check(given, T7, &[fine, (6, Some("00 00 01"))], "11 at 0");
    check(given, T7, &[fine, (1, Some("00"))], "12 at 0");
    // The first change's own number comes before the second's.
    check(given, T7, &[(1, Some("00")), (0, None)], "12 at 0");
    check(given, T7, &[(6, None), (6, None)], "18 at 0");
    check(given, T9, &[(4, Some("")), (0, None)], "18 at 0");
    check(given, T9, &[(0, Some("")), (0, None)], "19 at 0");
    check(given, Level::Set, &[(5, Some("01")), (6, Some("01"))], "19 at 0");
    check(given, Level::Set, &[(5, Some("")), (6, Some("01"))], "7 at 0");
    check(given, Level::Set, &[(9, None), (6, Some("01"))], "18 at 0");
}

#[test]
fn what_waits_for_both_changes() {
    let given = "S: 1E T 65 0E 0D 07 11 0A 00*10 01 02 92 D8";
    let (gone, row) = ((17, None), (19, Some("05")));
    check(given, T7, &[gone], "14 at 0");
    check(given, T7, &[gone, (4, Some(""))], "7 at 0");
    check(given, T7, &[gone, (4, None)], "18 at 0");
    check(given, T7, &[gone, (17, Some("00*10"))], "19 at 0");
    check(given, T7, &[gone, (10, Some("00*3"))], "13 at 0");
    check(given, T7, &[gone, (4, Some("01"))], "14 at 0");
    check(given, T7, &[(4, Some("01")), gone], "14 at 0");
    check(given, T7, &[gone, row], "20 at 0");
    check(given, T7, &[row, gone], "20 at 0");
    check(given, T7, &[row], "20 at 0");
    check(given, T7, &[row, (4, Some("01 02"))], "11 at 0");
    check(given, T7, &[row, (20, Some("00"))], "12 at 0");
    check(given, T7, &[row, (16, Some("00*3"))], "13 at 0");
    check(given, T7, &[row, (20, None)], "18 at 0");
    check(given, Level::Set, &[(2, None)], "14 at 0");
    check(given, Level::Set, &[(2, None), (3, Some("41"))], "19 at 0");
    // Then 1, and 16 last.
    let long = "E: 65 82 1F EF 82 1F EC 07 22 82 1F E7 00*8167 05 82 00 01 02 06 01 03";
    let (form, packet_bytes) = packet(long);
    assert_eq!(packet_bytes.len(), 8_187);
    check(long, T7, &[row, (20, Some("06"))], "1 at 0");
    check(long, T7, &[row, (4, Some("06"))], "20 at 0");
    let (put, fits) = (Change::Put(&[5]), Change::Put(&[6, 7]));
    let answer = edit_two(form, &packet_bytes, T7, 4, put, 128, fits, &mut []);
    assert_answer("1 before 16", answer, "1 at 0");
    let removed = edit_two(form, &packet_bytes, T7, 34, Change::Remove, 4, put, &mut [0; 9]);
    assert_answer("16", removed, "16 at 15");
}

#[test]
fn numbers_for_the_viewer() {
    let (_, given) = packet("E: 65 02 01 07");
    let mut out = [0; 64];
    let done = edit_two_number(0, &given, 9, 7, 19, 0, &[0, 5], 20, 0, &[6], &mut out);
    assert_eq!(done, 256 * 10);
    assert_eq!(out[..10].to_vec(), bytes("65 08 07 07 13 01 05 14 01 06"));
    let both = out;
    let gone = edit_two_number(0, &both[..10], 1, 7, 19, 1, &[], 20, 8, &[6], &mut out);
    assert_eq!((gone, &out[..4]), (256 * 4, &given[..]));
    let set = edit_two_number(0, &given, 0, 7, 5, 0, &[5], 6, 0, &[6], &mut out);
    assert_eq!(set, 19);
    let short = edit_two_number(0, &given, 9, 7, 19, 0, &[5], 20, 0, &[6], &mut out[..9]);
    assert_eq!(short, 256 * 10 + 16);
    let lone = edit_two_number(0, &given, 9, 7, 19, 0, &[5], 4, 0, &[6], &mut out);
    assert_eq!(lone, 20);
    let place = edit_two_number(7, &given, 9, 7, 4, 3, &[2], 5, 3, &[2], &mut out);
    assert_eq!(place, 2);
}
