//! Demand 1: each call returns, a refusal changes nothing lent, success
//! changes nothing beyond what it counts, and 16 names what is needed.

mod common;

use common::edits::Edit;
use common::rooms::in_every_room;
use second::generate;
use second::{answer_number, edit, edit_two, locate, normalise, read, show, write};
use second::{edit_number, edit_two_number, normalise_number, read_number, write_number};
use second::{Form, Level, Row, Side, PACKET_LIMIT};

fn run() -> (u64, u64) {
    common::run(21, 8_000)
}

#[test]
fn packets() {
    let (seed, cases) = run();
    for index in 0..cases {
        let case = generate::packet(seed, index);
        let (form, packet) = (case.form, case.bytes.as_slice());
        let sheet = in_every_room(|room: &mut [u8]| read(form, packet, room));
        let normal = in_every_room(|room: &mut [u8]| normalise(form, packet, room));
        let rows = in_every_room(|room: &mut [Row]| locate(form, packet, room));
        assert_eq!(sheet.as_ref().err(), normal.as_ref().err(), "case {index}");
        assert_eq!(sheet.as_ref().err(), rows.as_ref().err(), "case {index}");
        if let Err(refusal) = sheet {
            assert!(matches!(refusal.number, 1..=15 | 20), "case {index}: {refusal:?}");
            assert!(refusal.place <= packet.len(), "case {index}: {refusal:?}");
        }
    }
}

#[test]
fn sheets() {
    let (seed, cases) = run();
    for index in 0..cases {
        let sheet = generate::sheet(seed, index).bytes;
        let packet = in_every_room(|room: &mut [u8]| write(&sheet, room));
        match packet {
            Ok(packet) => assert!(packet.len() <= PACKET_LIMIT, "case {index}"),
            Err(refusal) => assert!(refusal.place <= sheet.len(), "case {index}: {refusal:?}"),
        }
    }
}

#[test]
fn edits() {
    let (seed, cases) = run();
    for index in 0..cases {
        let case = generate::edit(seed, index);
        let (form, packet) = (case.form, case.packet.as_slice());
        let edited = in_every_room(|room: &mut [u8]| {
            edit(form, packet, case.level, case.tag, case.change(), room)
        });
        match edited {
            Ok(edited) => assert!(edited.len() <= PACKET_LIMIT, "case {index}"),
            Err(refusal) => assert!(refusal.place <= packet.len(), "case {index}: {refusal:?}"),
        }
    }
}

#[test]
fn edits_of_two() {
    let (seed, cases) = run();
    for index in 0..cases {
        let edit = Edit::from(generate::edit_two(seed, index));
        match in_every_room(|room: &mut [u8]| edit.answer(room)) {
            Ok(edited) => assert!(edited.len() <= PACKET_LIMIT, "case {index}"),
            Err(refusal) => {
                assert!(refusal.place <= edit.packet.len(), "case {index}: {refusal:?}")
            }
        }
    }
}

#[test]
fn shows() {
    let (seed, cases) = run();
    for index in 0..cases {
        let case = generate::show(seed, index);
        let shown = show(case.form, &case.reviewer, &case.detector, case.level, case.tag);
        let part = shown.part(&case.reviewer, &case.detector);
        assert_eq!(part.len(), shown.length, "case {index}");
        let nothing = (shown.side, shown.offset) == (Side::Detector, 0);
        assert_eq!(shown.length == 0, nothing, "case {index}");
    }
}

#[test]
fn numbers_say_the_same() {
    let (seed, cases) = run();
    let (mut one, mut other) = (vec![7; PACKET_LIMIT], vec![7; PACKET_LIMIT]);
    for index in 0..cases / 4 {
        let case = generate::edit(seed, index);
        let form = u64::from(case.form == Form::Standalone) * (1 + index);
        let (level, id) = match case.level {
            Level::Set => (0, index),
            Level::Target(id) => (1 + index, id),
        };
        let removal = if case.value.is_none() { 1 + index } else { 0 };
        let value = case.value.as_deref().unwrap_or(&[9]);
        let number = edit_number(form, &case.packet, level, id, case.tag, removal, value, &mut one);
        let change = case.change();
        let answer = edit(case.form, &case.packet, case.level, case.tag, change, &mut other);
        assert_eq!(number, answer_number(answer), "case {index}");
        let number = read_number(form, &case.packet, &mut one);
        assert_eq!(number, answer_number(read(case.form, &case.packet, &mut other)));
        let number = normalise_number(form, &case.packet, &mut one);
        assert_eq!(number, answer_number(normalise(case.form, &case.packet, &mut other)));
        let sheet = generate::sheet(seed, index).bytes;
        assert_eq!(write_number(&sheet, &mut one), answer_number(write(&sheet, &mut other)));
        assert_eq!(one, other, "case {index}");
    }
}

#[test]
fn numbers_say_the_same_of_two() {
    let (seed, cases) = run();
    let (mut one, mut other) = (vec![7; PACKET_LIMIT + 1], vec![7; PACKET_LIMIT + 1]);
    for index in 0..cases / 4 {
        let case = generate::edit_two(seed, index);
        let form = u64::from(case.form == Form::Standalone) * (1 + index);
        let (level, id) = match case.level {
            Level::Set => (0, index),
            Level::Target(id) => (1 + index, id),
        };
        let number = |value: &Option<Vec<u8>>| if value.is_none() { 1 + index } else { 0 };
        let (removal, removal2) = (number(&case.value), number(&case.value2));
        let value = case.value.as_deref().unwrap_or(&[9]);
        let value2 = case.value2.as_deref().unwrap_or(&[]);
        let (packet, tag, tag2, room) = (&case.packet, case.tag, case.tag2, case.room);
        let out = &mut one[..room];
        let number = edit_two_number(
            form, packet, level, id, tag, removal, value, tag2, removal2, value2, out,
        );
        let (first, second, out) = (case.change(), case.change2(), &mut other[..room]);
        let answer = edit_two(case.form, packet, case.level, tag, first, tag2, second, out);
        assert_eq!(number, answer_number(answer), "case {index}");
        assert_eq!(one, other, "case {index}");
    }
}
