//! How document 01 is read where it leaves room: the packets.

mod common;

use common::notation::{assert_answer, packet};
use second::{edit, locate, normalise, read, show};
use second::{Change, Form, Level, Row, Side, PACKET_LIMIT, PACKET_SHEET_LIMIT, ROWS_LIMIT};

/// Read, normalise, locate and edit give a packet's own answer alike.
fn check(table: &[(&str, &str)]) {
    for &(text, answer) in table {
        let (form, packet) = packet(text);
        let mut sheet = vec![0; PACKET_SHEET_LIMIT];
        assert_answer(text, read(form, &packet, &mut sheet), answer);
        let mut out = vec![0; PACKET_LIMIT];
        assert_answer(text, normalise(form, &packet, &mut out), answer);
        let mut rows = vec![Row::default(); ROWS_LIMIT];
        assert_answer(text, locate(form, &packet, &mut rows), answer);
        let nothing = edit(form, &packet, Level::Set, 0, Change::Remove, &mut []);
        let answer = if answer == "accepted" { "19 at 0" } else { answer };
        assert_answer(text, nothing, answer);
    }
}

#[test]
fn against_document_000() {
    check(&[
        ("E: 03 20 41*32", "accepted"),
        ("E: 03 21 41*33", "11 at 0"),
        ("E: 03 02 FF C0", "accepted"), // any bytes are text
        ("E: 0A 81 80 41*128", "accepted"),
        ("E: 0A 81 81 41*129", "11 at 0"),
        ("E: 08 01 00", "accepted"),
        ("E: 09 01 00", "accepted"),
        ("E: 04 01 00", "accepted"),
        ("E: 65 05 04 07 04 01 00", "accepted"),
        ("E: 65 05 04 07 05 01 FF", "accepted"),
        ("E: 65 05 04 07 07 01 65", "accepted"),
        ("E: 65 05 04 07 17 01 05", "accepted"),
        ("E: 05 01 02 T", "accepted"),
        ("E: 65 02 01 07", "accepted"),
    ]);
}

#[test]
fn cut_comes_first_inside_a_tag_length_or_id() {
    check(&[
        ("E: 80", "3 at 0"),
        ("E: 80 80", "4 at 0"),
        ("E: 65 02 01 80", "3 at 2"),
        ("E: 65 03 02 80 80", "3 at 2"),
        ("E: 65 03 02 80 05", "8 at 2"),
        ("E: 65 0A 09 FF*9", "8 at 2"),
        ("E: 65 09 08 FF*8", "3 at 2"),
        ("E: 05 80", "5 at 0"),
        ("E: 05 85", "5 at 0"),
        ("E: 05 FF", "5 at 0"),
        ("E: 65 01 80", "5 at 2"),
        ("E: 65 01 85", "5 at 2"),
        ("E: 65 01 81", "3 at 2"),
    ]);
}

#[test]
fn what_holds_it_is_the_nearest_parent() {
    check(&[
        ("E: 65 05 02 07 04 01 01", "3 at 4"),
        ("E: 65 05 02 07 80 01 09", "3 at 4"),
        ("E: 65 02 02 07 05 01 02", "6 at 2"),
        ("E: 65 05 04 07 04 02 01 05 01 02", "6 at 4"),
    ]);
}

#[test]
fn a_length_of_set_tag_1_is_one_byte() {
    check(&[
        ("E: 01 81 02 00 00", "5 at 0"),
        ("E: 01 81 FF", "5 at 0"),
        ("E: 01 81", "3 at 0"),
        ("E: 65 06 05 07 01 81 01 01", "accepted"),
        ("S: 0F T 01 81 02 00 00", "5 at 27"),
    ]);
}

#[test]
fn series_and_tag_101() {
    check(&[
        ("E: 65 00", "7 at 0"),
        ("E: 65 02 01 07 65 01 80", "9 at 4"),
        ("E: 65 05 04 07 65 01 00", "accepted"),
    ]);
}

#[test]
fn tag_1_and_the_first_item() {
    check(&[
        ("S: 0D T 01 01 00", "11 at 27"),
        ("S: 0E T 01 01 00 00", "13 at 27"),
        ("S: 04 01 02 00 00", "14 at 17"),
        ("S: 07 01 02 00 00 05 01 02", "13 at 17"),
        ("S: 00", "14 at 17"),
        ("S: 81 00", "14 at 18"),
        ("S: 02 05 00", "7 at 17"),
        ("S: 0A T", "14 at 27"),
    ]);
}

#[test]
fn a_pack_without_tag_17() {
    check(&[
        ("S: 14 T 65 04 01 07 01 07 01 02 7B BC", "14 at 29"),
        ("S: 0E T 65 02 01 07", "14 at 29"),
    ]);
}

#[test]
fn limit_key_and_outer_length() {
    check(&[
        ("S: 00*8177", "1 at 0"),
        ("E: 0D 82 1F FC 00*8188", "accepted"),
        ("E: 0D 82 1F FD 00*8189", "1 at 0"),
        ("S:", "3 at 0"),
        ("S: 80", "5 at 0"),
        ("S: 85", "5 at 0"),
        ("S: 81", "3 at 0"),
        ("S: 0F T 01 02 63 55", "6 at 0"),
        ("S: 0D T 01 02 63 55", "6 at 0"),
    ]);
    let mut out = [0; 8];
    assert_answer("no key", read(Form::Standalone, &[0; 8193], &mut out), "1 at 0");
    assert_answer("no key", read(Form::Standalone, &[0; 8192], &mut out), "2 at 0");
    assert_answer("nothing", read(Form::Standalone, &[], &mut out), "2 at 0");
    let key = second::packet::KEY;
    assert_answer("under 16 bytes", read(Form::Standalone, &key[..15], &mut out), "2 at 0");
}

#[test]
fn tag_1_and_tag_101_have_rows() {
    let (form, packet) = packet("S: 0E T 01 02 63 55");
    let mut rows = [Row::default(); 2];
    assert_eq!(locate(form, &packet, &mut rows), Ok(2));
    let lines = rows.map(|row| [row.target, row.tag, row.offset, row.length]);
    assert_eq!(lines, [[0, 2, 19, 8], [0, 1, 29, 2]]);
}

#[test]
fn shows() {
    let (form, h) = packet("S: 0E T 01 02 63 55");
    let shown = show(form, &h, &h, Level::Set, 1);
    assert_eq!((shown.side, shown.offset, shown.length), (Side::Reviewer, 29, 2));
    assert_eq!(shown.part(&h, &h), [0x63, 0x55]);

    let (form, a) = packet("E: 05 01 02 65 0A 09 01 13 02 03 68 14 02 04 71");
    let (_, b) = packet("E: 06 01 03 65 05 04 01 65 01 09");
    let (_, bad) = packet("E: 05 01 02 05 01 02");
    let (_, bad_sum) = packet("E: 01 02 00 00");
    let named = |r: &[u8], d: &[u8], level, tag| {
        let shown = show(form, r, d, level, tag);
        (shown.side, shown.offset, shown.length)
    };
    let nothing = (Side::Detector, 0, 0);
    assert_eq!(named(&b, &a, Level::Set, 5), (Side::Detector, 2, 1));
    assert_eq!(named(&b, &a, Level::Target(1), 20), (Side::Detector, 13, 2));
    assert_eq!(named(&b, &a, Level::Target(1), 101), (Side::Reviewer, 9, 1));
    assert_eq!(named(&a, &a, Level::Set, 101), nothing);
    assert_eq!(named(&a, &a, Level::Set, 0), nothing);
    assert_eq!(named(&a, &a, Level::Target(1), 0), nothing);
    assert_eq!(named(&a, &a, Level::Target(2), 20), nothing);
    assert_eq!(named(&a, &a, Level::Set, 5 + 65536), nothing);
    for refused in [&bad, &bad_sum] {
        assert_eq!(named(&a, refused, Level::Set, 5), nothing);
        assert_eq!(named(refused, &a, Level::Set, 5), nothing);
    }
}
