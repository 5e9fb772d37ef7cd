//! Request 2 and how it is read: a target added at the series' end, or
//! dropped with all its items.

mod common;

use common::notation::{assert_answer, bytes, packet};
use second::{add_target, add_target_number, drop_target, drop_target_number};
use second::{read, Answer, Form, PACKET_LIMIT, PACKET_SHEET_LIMIT};

const A: &str = "E: 05 01 02 65 0A 09 01 13 02 03 68 14 02 04 71";
const LOCATED: &str = "TI 0011 000A 00*10";

/// Calls: an answer, or the result's packet.
fn check(case: &str, expected: &str, call: impl FnOnce(Form, &[u8], &mut [u8]) -> Answer) {
    let (form, given) = packet(case.split('|').next().unwrap());
    let mut out = vec![7; PACKET_LIMIT + 9];
    let answer = call(form, &given, &mut out);
    let length = if expected.contains(" at ") {
        assert_answer(case, answer, expected);
        0
    } else {
        let (_, expected) = packet(expected);
        assert_eq!(answer, Ok(expected.len()), "{case}");
        assert_eq!(out[..expected.len()], expected, "{case}");
        let mut sheet = vec![0; PACKET_SHEET_LIMIT];
        assert!(read(form, &expected, &mut sheet).is_ok(), "{case}");
        expected.len()
    };
    assert!(out[length..].iter().all(|&byte| byte == 7), "{case}");
}

fn add(given: &str, records: &str, expected: &str) {
    let case = format!("{given}| {records}");
    check(&case, expected, |form, packet, out| add_target(form, packet, &bytes(records), out));
}

fn drop(given: &str, target: u64, expected: &str) {
    let case = format!("{given}| {target}");
    check(&case, expected, |form, packet, out| drop_target(form, packet, target, out));
}

#[test]
fn at_the_end_of_the_series() {
    let added = "E: 05 01 02 65 0F 09 01 13 02 03 68 14 02 04 71 04 02 04 01 01";
    add(A, "TG #2 TI 0004 0001 01", added);
    add("E: 65 02 01 07", "TG #3", "E: 65 04 01 07 01 03");
    add("E: 65 02 01 07", "TG #0", "E: 65 04 01 07 01 00");
    add("E: 65 02 01 07 0D 01 01", "TG #200", "E: 65 05 01 07 02 81 48 0D 01 01");
    // Items in the order given, tags of two bytes, the greatest id.
    let records = "TG #9223372036854775807 TI 3FFF 0001 00 TI 0014 0001 06 TI 0013 0001 05";
    let added = "E: 65 16 01 07 13 FF*8 7F FF 7F 01 00 14 01 06 13 01 05";
    add("E: 65 02 01 07", records, added);
}

#[test]
fn the_first_target_brings_the_series() {
    add("E:", "TG #7", "E: 65 02 01 07");
    add("E: 0D 01 01", "TG #7 TI 0004 0001 09", "E: 0D 01 01 65 05 04 07 04 01 09");
    add("E: 06 01 09 0D 01 01", "TG #7", "E: 06 01 01 0D 01 01 65 02 01 07");
    let given = "S: 0E T 01 02 63 55";
    let added = "S: 1E T 65 0E 0D 07 11 0A 00*10 01 02 92 D8";
    add(given, &format!("TG #7 {LOCATED}"), added);
    drop(added, 7, given);
}

#[test]
fn the_last_target_takes_the_series() {
    drop("E: 65 02 01 07", 7, "E:");
    drop("E: 0D 01 01 65 02 01 07 05 01 02", 7, "E: 0D 01 01 05 01 02");
    drop("E: 65 81 06 81 04 07 04 01 01 06 01 01", 7, "E: 06 01 00");
    drop("E: 06 02 00 00 65 02 01 07", 7, "E: 06 01 00");
    drop(A, 1, "E: 05 01 02");
}

#[test]
fn first_middle_and_last() {
    let given = "E: 65 0A 01 01 04 02 04 01 09 02 81 00";
    drop(given, 1, "E: 65 08 04 02 04 01 09 02 81 00");
    drop(given, 2, "E: 65 05 01 01 02 81 00");
    drop(given, 128, "E: 65 07 01 01 04 02 04 01 09");
    drop(given, 3, "18 at 0");
    drop(given, (1 << 63) + 1, "18 at 0");
    drop(given, u64::MAX, "18 at 0");
    drop("E:", 0, "18 at 0");
    drop("E: 06 01 01", 1, "18 at 0");
    // A pack's own tag 6 is no count.
    drop("E: 65 08 01 01 05 02 06 02 01 00", 1, "E: 65 06 05 02 06 02 01 00");
}

#[test]
fn tag_6_becomes_the_number_of_packs() {
    let two = "TG #8";
    add("E: 06 01 01 65 02 01 07", two, "E: 06 01 02 65 04 01 07 01 08");
    add("E: 65 02 01 07 06 01 01", two, "E: 65 04 01 07 01 08 06 01 02");
    // Though it was right, wrong, padded or long; 5 is not touched.
    add("E: 06 03 00 00 02 65 02 01 07", two, "E: 06 01 02 65 04 01 07 01 08");
    add("E: 06 82 00 01 02 65 02 01 07", two, "E: 06 01 02 65 04 01 07 01 08");
    add("E: 65 02 01 07 06 02 01 00", two, "E: 65 04 01 07 01 08 06 01 02");
    add("E: 05 81 02 00 01 65 02 01 07", two, "E: 05 81 02 00 01 65 04 01 07 01 08");
    drop("E: 06 03 FF FF FF 65 04 01 07 01 08", 7, "E: 06 01 01 65 02 01 08");
    drop("E: 65 04 01 07 01 08 06 81 01 01", 8, "E: 65 02 01 07 06 01 01");
}

#[test]
fn numbers_and_lengths_that_grow() {
    let many = |count: u64| {
        let ids = (0..count).map(|id| match id {
            0..=127 => format!("01 {id:02X} "),
            _ => format!("02 {:02X} {:02X} ", 0x80 | id >> 7, id & 0x7F),
        });
        ids.collect::<String>()
    };
    let of = |six: &str, length: &str, count| format!("E: {six} 65 {length} {}", many(count));
    add(&of("06 01 FF", "82 02 7D", 255), "TG #255", &of("06 02 01 00", "82 02 80", 256));
    drop(&of("06 02 01 00", "82 02 80", 256), 255, &of("06 01 FF", "82 02 7D", 255));
    add(&of("", "7E", 63), "TG #63", &of("", "81 80", 64));
    drop(&of("", "81 80", 64), 63, &of("", "7E", 63));
    add(&of("", "81 FE", 127), "TG #127", &of("", "82 01 00", 128));
    // A pack of 127 and one of 128 bytes.
    let (short, long) = ("TG #8 TI 0012 007C 00*124", "TG #8 TI 0012 007D 00*125");
    add("E: 65 02 01 07", short, "E: 65 81 82 01 07 7F 08 12 7C 00*124");
    add("E: 65 02 01 07", long, "E: 65 81 84 01 07 81 80 08 12 7D 00*125");
    let given = "S: 74 T 12 64 00*100 01 02 2D 67";
    let added = "S: 81 84 T 12 64 00*100 65 0E 0D 07 11 0A 00*10 01 02 65 63";
    add(given, &format!("TG #7 {LOCATED}"), added);
    drop(added, 7, given);
}

#[test]
fn other_bytes_are_kept() {
    let given = "E: 05 82 00 03 00 00 02 65 83 00 00 0B 81 09 07 13 02 00 05 14 81 01 06 \
                 06 81 01 01";
    let added = "E: 05 82 00 03 00 00 02 65 0D 81 09 07 13 02 00 05 14 81 01 06 01 08 \
                 06 01 02";
    add(given, "TG #8", added);
    let back = "E: 05 82 00 03 00 00 02 65 0B 81 09 07 13 02 00 05 14 81 01 06 06 01 01";
    drop(added, 8, back);
    drop(given, 7, "E: 05 82 00 03 00 00 02 06 01 00");
    // The outer length is shortest, and the time stamp's is kept.
    let given = "S: 82 00 0F 02 81 08 00*8 01 02 5E 5E";
    let added = "S: 1F 02 81 08 00*8 65 0E 0D 07 11 0A 00*10 01 02 6F 7D";
    add(given, &format!("TG #7 {LOCATED}"), added);
    drop(added, 7, "S: 0F 02 81 08 00*8 01 02 DC 5E");
}

/// Records that are 17 in themselves or where they stand.
const BAD: &str = "/ 54 / TG / TG 00*7 / TS TG #8 / PK 00 TS TG #8 / TI 0004 0001 01 / 5858 00*8 /
    TG #9223372036854775808 / TG #18446744073709551615 / TG #8 TG #9 / TG #8 TG #8 / TG #8 TS /
    TG #8 PK 00 / TG #8 IT 0005 0001 02 / TG #8 54 / TG #8 00 / TG #8 5858 / TG #8 TI /
    TG #8 TI 0004 / TG #8 TI 0004 0001 / TG #8 TI 0012 0002 01 / TG #8 TI 0000 0001 01 /
    TG #8 TI 4000 0001 01 / TG #8 TI FFFF 0000 / TG #8 TI 0013 0002 0005 /
    TG #8 TI 0006 0002 0000 / TG #8 TI 0016 0003 000001 / TG #8 TI 0013 0001 05 TG #9 /
    TG #7 5858 / TG #7 TI 0013 0001 05 TS";

#[test]
fn bad_records() {
    for records in BAD.split('/') {
        add("E: 65 02 01 07", records, "17 at 0");
        add("S: 0E T 01 02 63 55", records, "17 at 0");
    }
}

#[test]
fn records_one_by_one() {
    let table = [
        ("TG #8 TI 0004 0000", "7 at 0"),
        ("TG #8 TI 0013 0001 05 TI 0013 0000", "7 at 0"),
        ("TG #8 TI 0018 0001 05 TI 0018 0001 05", "9 at 0"),
        ("TG #8 TI 0013 0001 05 TI 0013 0001 00", "9 at 0"),
        ("TG #8 TI 0004 0002 0101", "11 at 0"),
        ("TG #8 TI 0006 0003 000001", "11 at 0"),
        ("TG #8 TI 0013 0005 00*5", "11 at 0"),
        ("TG #8 TI 0011 000B 00*11", "11 at 0"),
        ("TG #8 TI 0013 0001 00", "12 at 0"),
        ("TG #8 TI 0001 0006 00*6", "12 at 0"),
        // The first record that breaks a rule, whatever follows.
        ("TG #8 TI 0004 0000 5858", "7 at 0"),
        ("TG #8 TI 0013 0001 00 TI 0004 0000", "12 at 0"),
        ("TG #7 TI 0004 0000", "7 at 0"),
    ];
    for (records, answer) in table {
        add("E: 65 02 01 07", records, answer);
    }
    let given = "S: 0E T 01 02 63 55";
    add(given, "TG #8 TI 000A 0003 00*3", "13 at 0");
    add(given, "TG #8 TI 0010 0001 00", "13 at 0");
    add(given, "TG #8 TI 0010 0000", "7 at 0");
    add("E:", "TG #8 TI 000A 0003 00*3", "E: 65 07 06 08 0A 03 00*3");
}

#[test]
fn what_waits_for_all_records() {
    let given = "S: 1E T 65 0E 0D 07 11 0A 00*10 01 02 92 D8";
    let row = "TI 0013 0001 05";
    add(given, "TG #7", "10 at 0");
    add(given, &format!("TG #7 {row}"), "10 at 0");
    add(given, &format!("TG #7 {row} {LOCATED}"), "10 at 0");
    add(given, &format!("TG #8 {row}"), "20 at 0");
    add(given, &format!("TG #8 {row} {LOCATED}"), "20 at 0");
    add(given, &format!("TG #8 {row} TI 0014 0001 06"), "14 at 0");
    add(given, "TG #8", "14 at 0");
    add("E: 65 02 01 07", "TG #7", "10 at 0");
    add("E: 65 02 01 07", &format!("TG #8 {row}"), "20 at 0");
    // Then 1, however long the records, and 16 last.
    let long = "TI 3FFF FFFF 00*65535 TI 3FFE FFFF 00*65535";
    add(given, &format!("TG #7 {long}"), "10 at 0");
    add(given, &format!("TG #8 {row} {long}"), "20 at 0");
    add(given, &format!("TG #8 {long}"), "14 at 0");
    add(given, &format!("TG #8 {LOCATED} {long}"), "1 at 0");
    add("E:", &format!("TG #8 {long} TI 0004 0000"), "7 at 0");
    add("E:", &format!("TG #8 {long} 58"), "17 at 0");
    add("E:", "TG #8 TI 0012 1FF4 00*8180", "E: 65 82 1F FC 82 1F F9 08 12 82 1F F4 00*8180");
    add("E:", "TG #8 TI 0012 1FF5 00*8181", "1 at 0");
    let answer = add_target(Form::Embedded, &[], &bytes("TG #8 TI 0012 1FF5 00*8181"), &mut []);
    assert_answer("1 before 16", answer, "1 at 0");
}

#[test]
fn the_packet_s_own_answer() {
    for (given, answer) in [
        ("E: 65 02 01 07 05", "3 at 4"),
        ("E: 65 04 01 07 01 07", "10 at 4"),
        ("E: 65 05 04 07 13 01 05", "20 at 2"),
        ("S: 0E T 01 02 63 56", "15 at 27"),
        ("S: 0E T 65 02 01 07", "14 at 29"),
    ] {
        for records in ["TG #7", "TG #9", "", "TG #8 TI 0004 0000"] {
            add(given, records, answer);
        }
        drop(given, 7, answer);
        drop(given, 9, answer);
    }
}

#[test]
fn numbers_for_the_viewer() {
    let (_, given) = packet("E: 65 02 01 07");
    let mut out = [0; 64];
    assert_eq!(add_target_number(0, &given, &bytes("TG #8"), &mut out), 256 * 6);
    assert_eq!(out[..6].to_vec(), bytes("65 04 01 07 01 08"));
    assert_eq!(add_target_number(0, &given, &bytes("TG #8"), &mut [0; 5]), 256 * 6 + 16);
    assert_eq!(add_target_number(0, &given, &bytes("TG #7"), &mut out), 10);
    assert_eq!(add_target_number(3, &given, &bytes("TG #8"), &mut out), 2);
    let both = out;
    assert_eq!(drop_target_number(0, &both[..6], 8, &mut out), 256 * 4);
    assert_eq!(out[..4], given[..]);
    assert_eq!(drop_target_number(0, &both[..6], 8, &mut []), 256 * 4 + 16);
    assert_eq!(drop_target_number(0, &given, 7, &mut []), 0);
    assert_eq!(drop_target_number(0, &given, 8, &mut out), 18);
    assert_eq!(drop_target_number(9, &given, 8, &mut out), 2);
}
