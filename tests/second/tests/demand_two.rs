//! Demand 2: sheets, packets, normal forms and rows mean the same.

mod common;

use common::model::{allows, in_sheet, is_number, is_offset, is_pixel, parse};
use common::sheets::{of_tree, sheet, Record};
use second::generate;
use second::table::{pack_rule, set_rule, Kind};
use second::{locate, normalise, read, show, write};
use second::{Form, Level, Row, Side, PACKET_LIMIT, PACKET_SHEET_LIMIT, ROWS_LIMIT};

fn run() -> (u64, u64) {
    common::run(22, 16_000)
}

fn read_all(form: Form, packet: &[u8]) -> Option<Vec<u8>> {
    let mut sheet = vec![0; PACKET_SHEET_LIMIT];
    let count = read(form, packet, &mut sheet).ok()?;
    Some(sheet[..count].to_vec())
}

fn write_all(sheet: &[u8]) -> Option<Vec<u8>> {
    let mut packet = vec![0; PACKET_LIMIT];
    let count = write(sheet, &mut packet).ok()?;
    Some(packet[..count].to_vec())
}

fn normalise_all(form: Form, packet: &[u8]) -> Option<Vec<u8>> {
    let mut out = vec![0; PACKET_LIMIT];
    let count = normalise(form, packet, &mut out).ok()?;
    Some(out[..count].to_vec())
}

fn rows_of(form: Form, packet: &[u8]) -> Vec<Row> {
    let mut rows = vec![Row::default(); ROWS_LIMIT];
    let count = locate(form, packet, &mut rows).expect("enough rows");
    rows.truncate(count);
    rows
}

/// The accepted ones among the generated packets, and the named ones.
fn accepted(mut each: impl FnMut(Form, &[u8], &[u8])) {
    let (seed, cases) = run();
    let mut count = 0;
    let named = generate::named().into_iter().map(|named| (named.form, named.packet));
    let packets = (0..cases).map(|index| generate::packet(seed, index));
    let packets = packets.map(|case| (case.form, case.bytes));
    let edited = (0..cases / 4).map(|index| generate::edit(seed, index));
    let edited = edited.map(|case| (case.form, case.packet));
    for (form, packet) in named.chain(packets).chain(edited) {
        if let Some(sheet) = read_all(form, &packet) {
            each(form, &packet, &sheet);
            count += 1;
        }
    }
    assert!(count > cases / 4, "only {count} accepted");
}

#[test]
fn normal_form_is_the_sheet_written() {
    let (_, cases) = run();
    let mut loose = 0;
    accepted(|form, packet, sheet| {
        let normal = normalise_all(form, packet).expect("as read");
        assert_eq!(write_all(sheet).as_ref(), Some(&normal));
        assert_eq!(normalise_all(form, &normal).as_ref(), Some(&normal));
        assert_eq!(read_all(form, &normal).as_deref(), Some(sheet));
        assert!(normal.len() <= packet.len());
        assert!(sheet.len() <= PACKET_SHEET_LIMIT);
        loose += u64::from(normal.len() < packet.len());
    });
    assert!(loose > cases / 10, "only {loose} out of normal form");
}

#[test]
fn sheet_is_what_the_model_says() {
    accepted(|form, packet, given| {
        assert_eq!(sheet(&of_tree(&parse(form, packet))), given);
    });
}

#[test]
fn accepted_sheets_come_back() {
    let (seed, cases) = run();
    let mut count = 0;
    for index in 0..cases {
        let sheet = generate::sheet(seed, index).bytes;
        if let Some(packet) = write_all(&sheet) {
            let form = Form::from_number(u64::from(sheet[2]));
            assert_eq!(read_all(form, &packet).as_ref(), Some(&sheet), "case {index}");
            assert_eq!(normalise_all(form, &packet), Some(packet), "case {index}");
            count += 1;
        }
    }
    assert!(count > cases / 4, "only {count} accepted");
}

/// A row beside the record it belongs to.
fn assert_row(packet: &[u8], row: &Row, record: &Record) {
    let (offset, length) = (row.offset as usize, row.length as usize);
    let value = &packet[offset..offset + length];
    match &record.mark {
        b"TS" => assert_eq!((row.target, row.tag), (0, 101)),
        b"TG" => {
            let mut id = Vec::new();
            generate::tree::push_id(&mut id, record.number);
            assert_eq!(row.tag, 0);
            assert!(value.starts_with(&id));
        }
        mark => {
            let set = mark == b"IT";
            assert_eq!((row.target == 0, u64::from(row.tag)), (set, record.number));
            assert_eq!(in_sheet(set, row.tag as u16, value), record.value);
            if !is_number(set, row.tag as u16) {
                assert_eq!(value, record.value);
            }
        }
    }
}

#[test]
fn rows_stand_beside_the_records() {
    accepted(|form, packet, _| {
        let mut rows = rows_of(form, packet);
        let records = of_tree(&parse(form, packet));
        if form == Form::Standalone {
            let sum = rows.pop().expect("a checksum");
            assert_eq!([sum.target, sum.tag, sum.length], [0, 1, 2]);
            assert_eq!((sum.offset + sum.length) as usize, packet.len());
        }
        assert_eq!(rows.len(), records.len() - 1);
        let mut target = 0;
        for (row, record) in rows.iter().zip(&records[1..]) {
            target += u32::from(&record.mark == b"TG");
            let belongs = matches!(&record.mark, b"TG" | b"TI");
            assert_eq!(row.target, if belongs { target } else { 0 });
            assert_row(packet, row, record);
        }
        assert!(rows.windows(2).all(|two| two[0].offset < two[1].offset));
    });
}

/// The part that the rows of a packet give for a named item.
fn by_rows(form: Form, packet: &[u8], level: Level, tag: u64) -> Option<(usize, usize)> {
    let rows = rows_of(form, packet);
    let target = match level {
        Level::Set => 0,
        Level::Target(id) => {
            let at = parse(form, packet).ids().into_iter().position(|other| other == id)?;
            at as u32 + 1
        }
    };
    let named = |row: &&Row| row.target == target && u64::from(row.tag) == tag && tag != 0;
    let found = rows.iter().find(named)?;
    let series = level == Level::Set && tag == 101;
    (!series).then_some((found.offset as usize, found.length as usize))
}

#[test]
fn show_is_what_the_rows_say() {
    let (seed, cases) = run();
    for index in 0..cases {
        let case = generate::show(seed, index);
        let (form, level, tag) = (case.form, case.level, case.tag);
        let shown = show(form, &case.reviewer, &case.detector, level, tag);
        let shown = (shown.side, shown.offset, shown.length);
        let both = [&case.reviewer, &case.detector];
        let mut expected = (Side::Detector, 0, 0);
        if both.iter().all(|packet| read_all(form, packet).is_some()) {
            let sides = [Side::Reviewer, Side::Detector];
            let parts = both.map(|packet| by_rows(form, packet, level, tag));
            let found = sides.into_iter().zip(parts).find_map(|(side, part)| Some((side, part?)));
            if let Some((side, (offset, length))) = found {
                expected = (side, offset, length);
            }
        }
        assert_eq!(shown, expected, "case {index}");
    }
}

#[test]
fn the_table_is_the_models() {
    for tag in 1..=400 {
        for (set, rule) in [(true, set_rule(tag)), (false, pack_rule(tag))] {
            if set && tag == 101 {
                assert_eq!(rule.kind, Kind::Series);
                continue;
            }
            assert_eq!(rule.is_number(), is_number(set, tag), "{set} {tag}");
            assert_eq!(rule.kind == Kind::Pixel, is_pixel(set, tag), "{set} {tag}");
            assert_eq!(rule.offset, is_offset(set, tag), "{set} {tag}");
            for length in (1..200).chain([8_192, 65_535, 65_536, usize::MAX]) {
                assert_eq!(rule.allows(length), allows(set, tag, length), "{set} {tag} {length}");
            }
        }
    }
}
