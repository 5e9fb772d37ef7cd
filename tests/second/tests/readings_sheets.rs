//! How document 01 is read where it leaves room: sheets and edits.

mod common;

use common::notation::{assert_answer, bytes, packet};
use second::{edit, edit_number, normalise, write};
use second::{Change, Level, PACKET_LIMIT, SHEET_LIMIT};

fn check(table: &[(&str, &str)]) {
    for &(text, answer) in table {
        let mut out = vec![0; PACKET_LIMIT];
        assert_answer(text, write(&bytes(text), &mut out), answer);
    }
}

#[test]
fn a_number_not_shortest_comes_last() {
    check(&[
        ("PK 00 TS TG #1 TI 0013 0002 0000", "12 at 15"),
        ("PK 00 IT 0005 0004 00000001", "11 at 3"),
        ("PK 00 IT 0005 0002 0001", "17 at 3"),
        ("PK 00 IT 0005 0002 0000", "17 at 3"),
        ("PK 00 IT 0005 0001 00", "accepted"),
        ("PK 00 IT 0005 0001 01 IT 0005 0002 0001", "9 at 10"),
        ("PK 01 IT 0005 0002 0001", "14 at 3"),
        ("PK 00 TS TG #1 TI 0013 0002 0001", "17 at 15"),
    ]);
}

#[test]
fn a_target_without_tag_17() {
    check(&[
        ("PK 01 IT 0002 0008 00*8 TS TG #1 5858", "14 at 19"),
        ("PK 01 IT 0002 0008 00*8 TS TG #1 54", "14 at 19"),
        ("PK 01 IT 0002 0008 00*8 TS TG #1 TI", "17 at 29"),
        ("PK 01 IT 0002 0008 00*8 TS TG #1", "14 at 19"),
        ("PK 01 IT 0002 0008 00*8 TS TG #1 TG #1", "14 at 19"),
        ("PK 01 IT 0002 0008 00*8 TS TG #1 PK 01", "14 at 19"),
        ("PK 01 IT 0002 0008 00*8 TS TG #1 TI 0011 000A 00*10", "accepted"),
        ("PK 01 IT 0002 0008 00*8 TS TG #1 TI 000A 0003 00*3", "13 at 29"),
        ("PK 01 IT 0002 0008 00*8 TS TG #1 TI 000A 0000", "7 at 29"),
    ]);
}

#[test]
fn on_a_series() {
    check(&[
        ("PK 01 TS", "17 at 3"),
        ("PK 01 TS TG #1", "14 at 3"),
        ("PK 00 TS TG 00*7", "17 at 5"),
        ("PK 00 TS TG #1 TS", "17 at 15"),
        ("PK 00 TS TG #1 TS TG #2", "9 at 15"),
        ("PK 00 TS TG #1 TG #1", "10 at 15"),
        ("PK 00 TS TI 0004 0001 00", "17 at 3"),
        ("PK 00 TG #1", "17 at 3"),
        ("PK 00 TI 0004 0001 00", "17 at 3"),
        ("PK 00 TS TG 80 00*7", "17 at 5"),
        ("PK 00 TS TG 7F FF*7", "accepted"),
    ]);
}

#[test]
fn an_item_of_the_set_closes_the_series() {
    check(&[
        ("PK 00 TS TG #1 IT 0005 0001 01 TG #2", "17 at 22"),
        ("PK 00 TS TG #1 IT 0005 0001 01 TI 0004 0001 00", "17 at 22"),
        ("PK 00 TS TG #1 IT 0005 0001 01 TS TG #2", "9 at 22"),
        ("PK 00 TS TG #1 IT 0005 0001 01", "accepted"),
    ]);
}

#[test]
fn records_that_may_not_stand() {
    check(&[
        ("PK 00 IT 0001 0000", "17 at 3"),
        ("PK 00 IT 0065 0000", "17 at 3"),
        ("PK 00 IT 0065 0001 00", "17 at 3"),
        ("PK 00 IT 0000 0001 00", "17 at 3"),
        ("PK 00 IT 4000 0001 00", "17 at 3"),
        ("PK 00 IT 3FFF 0001 00", "accepted"),
        ("PK 00 IT 0005 0001", "17 at 3"),
        ("PK 00 IT 0005 00", "17 at 3"),
        ("PK 00 IT 0005 0000", "7 at 3"),
        ("PK 00 PK 00", "17 at 3"),
        ("PK 00 58", "17 at 3"),
        ("", "17 at 0"),
        ("50", "17 at 0"),
        ("PK", "17 at 0"),
        ("PK 02", "17 at 0"),
        ("IT 0005 0001 01", "17 at 0"),
        ("PK 00", "accepted"),
        ("PK 01", "14 at 3"),
        ("PK 00 TS TG #1 TI 0065 0001 00", "accepted"),
    ]);
}

#[test]
fn the_limits_of_a_sheet() {
    check(&[
        ("PK 00 IT 000D 1FFC 00*8188", "accepted"),
        ("PK 00 IT 000D 1FFD 00*8189", "1 at 0"),
        // Every 14 comes before the last 1.
        ("PK 01 IT 0002 0008 00*8 IT 000D FFF0 00*65520", "1 at 0"),
        ("PK 01 IT 0002 0008 00*8 IT 000D F000 00*61440 TS TG #1", "14 at 61465"),
    ]);
    let mut out = [0; 1];
    assert_answer("over the limit", write(&vec![0; SHEET_LIMIT + 1], &mut out), "1 at 0");
    let long = bytes("PK 00 IT 000D 1FFD 00*8189");
    assert_answer("1 before 16", write(&long, &mut out), "1 at 0");
    let sheet = bytes("PK 00 IT 0005 0001 01");
    assert_answer("too short", write(&sheet, &mut out), "16 at 3");
}

/// Edits: packet, level, tag, change, and the answer or the result.
type Edit = (&'static str, Level, u64, Option<&'static str>, &'static str);

fn check_edits(table: &[Edit]) {
    for &(given, level, tag, value, expected) in table {
        let (form, given_bytes) = packet(given);
        let value = value.map(bytes);
        let change = value.as_deref().map_or(Change::Remove, Change::Put);
        let mut out = vec![0; PACKET_LIMIT];
        let answer = edit(form, &given_bytes, level, tag, change, &mut out);
        if expected.contains(" at ") {
            assert_answer(given, answer, expected);
            continue;
        }
        let (_, expected) = packet(expected);
        assert_eq!(answer, Ok(expected.len()), "{given}");
        assert_eq!(out[..expected.len()], expected, "{given}");
    }
}

const T7: Level = Level::Target(7);
const T9: Level = Level::Target(9);

#[test]
fn the_order_of_an_edit() {
    check_edits(&[
        ("E: 65 02 01 07", T9, 0, Some("01"), "19 at 0"),
        ("E: 65 02 01 07", T9, 4, Some(""), "18 at 0"),
        ("E: 65 02 01 07", T7, 4, Some(""), "7 at 0"),
        ("E: 65 02 01 07", Level::Target(1 << 63), 4, Some("01"), "18 at 0"),
        ("E: 65 02 01 07", T7, 16_384, Some("01"), "19 at 0"),
        ("E: 65 02 01 07", T7, 1, Some("01"), "E: 65 05 04 07 01 01 01"),
        ("E: 65 02 01 07", T7, 101, Some("01"), "E: 65 05 04 07 65 01 01"),
        ("E: 65 02 01 07", T7, 4, None, "18 at 0"),
        ("E: 65 02 01 07", Level::Set, 1, None, "19 at 0"),
        ("E: 65 02 01 07", Level::Set, 101, None, "19 at 0"),
        ("E: 05 01 02 05", Level::Set, 0, None, "3 at 3"),
        ("E:", Level::Set, 6, Some("00 00 00 01"), "11 at 0"),
        ("E: 65 02 01 07", T7, 19, Some("00 00"), "12 at 0"),
        ("E: 65 02 01 07", T7, 19, Some("00 00 00 00 01"), "11 at 0"),
    ]);
}

#[test]
fn lengths_around_an_edit_are_written_shortest() {
    check_edits(&[
        ("E: 65 81 06 81 04 07 04 01 01", T7, 4, None, "E: 65 02 01 07"),
        ("E: 05 81 01 02", Level::Set, 5, Some("02"), "E: 05 01 02"),
        ("E: 65 81 03 81 01 07", Level::Set, 5, Some("02"), "E: 65 81 03 81 01 07 05 01 02"),
        ("E: 05 02 00 02 06 01 01", Level::Set, 6, None, "E: 05 02 00 02"),
        ("S: 81 0E T 01 02 CF 6A", Level::Set, 2, Some("00*8"), "S: 0E T 01 02 63 55"),
    ]);
}

#[test]
fn an_edit_that_lengthens_pack_and_series() {
    let given = "E: 65 7F 7E 07 22 7B 00*123";
    // The pack comes to 129 bytes and with its two length bytes the series to 131.
    let put = "E: 65 81 83 81 81 07 22 7B 00*123 17 01 05";
    check_edits(&[(given, T7, 23, Some("05"), put)]);
    check_edits(&[(put, T7, 23, None, given)]);
}

#[test]
fn removals_and_offset_tags_in_standalone() {
    let (form, given) = packet("S: 1E T 65 0E 0D 07 11 0A 00*10 01 02 92 D8");
    let cases = [
        (Level::Set, 2, Change::Remove, 14),
        (T7, 17, Change::Remove, 14),
        (T9, 17, Change::Remove, 18),
        (T7, 10, Change::Remove, 18),
        (T7, 10, Change::Put(&[1, 2, 3]), 13),
        (T7, 16, Change::Put(&[1]), 13),
        (T7, 16, Change::Put(&[]), 7),
    ];
    for (level, tag, change, number) in cases {
        let answer = edit(form, &given, level, tag, change, &mut [0; 64]);
        assert_answer(&format!("{tag} {change:?}"), answer, &format!("{number} at 0"));
    }
}

#[test]
fn an_edit_measures_the_packet_that_results() {
    let given = "E: 05 84 00 00 00 01 02 0D 82 1F F5 00*8181";
    check_edits(&[(given, Level::Set, 6, Some("03"), "1 at 0")]);
    let (form, given) = packet(given);
    let answer = edit(form, &given, Level::Set, 6, Change::Put(&[3]), &mut []);
    assert_answer("1 before 16", answer, "1 at 0");
    let mut normal = [0; PACKET_LIMIT];
    let count = normalise(form, &given, &mut normal).unwrap();
    let answer = edit(form, &normal[..count], Level::Set, 6, Change::Put(&[3]), &mut []);
    assert_answer("16", answer, "16 at 8191");
}

#[test]
fn numbers_for_the_viewer() {
    let (_, given) = packet("E: 65 02 01 07");
    let mut out = [0; 64];
    let done = edit_number(0, &given, 0, u64::MAX, 5, 0, &[0, 2], &mut out);
    assert_eq!(done, 256 * 7);
    assert_eq!(out[..7].to_vec(), bytes("65 02 01 07 05 01 02"));
    let refused = edit_number(0, &given, 9, 1 << 63, 5, 0, &[2], &mut out);
    assert_eq!(refused, 18);
    let short = edit_number(0, &given, 9, 7, 4, 0, &[2], &mut out[..6]);
    assert_eq!(short, 256 * 7 + 16);
    let place = edit_number(7, &given, 9, 7, 4, 3, &[2], &mut out);
    assert_eq!(place, 2);
}
