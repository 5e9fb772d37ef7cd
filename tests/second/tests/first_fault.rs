//! The first fault is answered, with its place: compared with readers that
//! ask every question the plain way.

mod common;

use common::{plain, plain_sheet};
use second::generate;
use second::{read, write, Form, PACKET_LIMIT, PACKET_SHEET_LIMIT};

fn run() -> (u64, u64) {
    common::run(24, 48_000)
}

fn assert_packet(form: Form, packet: &[u8], sheet: &mut [u8], case: &str) {
    let answer = read(form, packet, sheet).map(|_| ());
    assert_eq!(answer, plain::check(form, packet), "{case}: {packet:02X?}");
}

#[test]
fn of_packets() {
    let (seed, cases) = run();
    let mut sheet = vec![0; PACKET_SHEET_LIMIT];
    for index in 0..cases {
        let case = generate::packet(seed, index);
        assert_packet(case.form, &case.bytes, &mut sheet, &format!("case {index}"));
    }
    for named in generate::named() {
        assert_packet(named.form, &named.packet, &mut sheet, named.name);
    }
}

#[test]
fn of_the_other_form() {
    let (seed, cases) = run();
    let mut sheet = vec![0; PACKET_SHEET_LIMIT];
    for index in 0..cases / 8 {
        let case = generate::packet(seed, index);
        for form in [Form::Embedded, Form::Standalone] {
            assert_packet(form, &case.bytes, &mut sheet, &format!("case {index}"));
        }
    }
}

#[test]
fn of_every_cut() {
    let (seed, cases) = run();
    let mut sheet = vec![0; PACKET_SHEET_LIMIT];
    for index in (0..cases / 8).filter(|index| index % 16 < 5) {
        let case = generate::packet(seed, index);
        if case.bytes.len() < 200 {
            for end in 0..case.bytes.len() {
                let repaired = generate::mutate::repair(case.form, &case.bytes[..end]);
                assert_packet(case.form, &repaired, &mut sheet, &format!("{index} to {end}"));
            }
        }
    }
}

#[test]
fn of_packets_of_up_to_three_bytes() {
    let mut sheet = vec![0; PACKET_SHEET_LIMIT];
    for first in 0..=255 {
        assert_packet(Form::Embedded, &[first], &mut sheet, "one");
        for second in 0..=255 {
            assert_packet(Form::Embedded, &[first, second], &mut sheet, "two");
            for third in (0..=255).step_by(if matches!(first, 1 | 0x65 | 0x80..) { 1 } else { 15 })
            {
                assert_packet(Form::Embedded, &[first, second, third], &mut sheet, "three");
            }
        }
    }
}

#[test]
fn of_sheets() {
    let (seed, cases) = run();
    let mut packet = vec![0; PACKET_LIMIT];
    for index in 0..cases {
        let sheet = generate::sheet(seed, index).bytes;
        assert_eq!(write(&sheet, &mut packet), plain_sheet::check(&sheet), "case {index}");
    }
}
