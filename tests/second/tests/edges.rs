//! The generator reaches the edges: limits, widths of lengths and ids, and
//! edits that move a length over an edge.

mod common;

use common::edits::{unmeasured, Edit};
use common::model::parse;
use second::generate;
use second::{locate, read, write, Form, Level, Refusal, Row};
use second::{PACKET_LIMIT, PACKET_SHEET_LIMIT, ROWS_LIMIT, SHEET_LIMIT};
use std::collections::BTreeMap;

const SEED: u64 = 25;
const CASES: u64 = 16_000;

type Counts = BTreeMap<String, u64>;

fn note(counts: &mut Counts, what: impl Into<String>) {
    *counts.entry(what.into()).or_default() += 1;
}

fn assert_met(counts: &Counts, what: &[String]) {
    println!("{counts:#?}");
    for what in what {
        assert!(counts.contains_key(what), "never met: {what}");
    }
}

fn rows_of(form: Form, packet: &[u8]) -> Vec<Row> {
    let mut rows = vec![Row::default(); ROWS_LIMIT];
    let count = locate(form, packet, &mut rows).expect("an accepted packet");
    rows.truncate(count);
    rows
}

/// Bytes that a length is written in.
fn width(length: usize) -> usize {
    match length {
        0..=127 => 1,
        128..=255 => 2,
        _ => 3,
    }
}

/// The lengths around edited items: outer (0 in embedded), series, pack.
fn around(edit: &Edit, packet: &[u8]) -> [usize; 3] {
    let rows = rows_of(edit.form, packet);
    let length = |row: Option<&Row>| row.map_or(0, |row| row.length as usize);
    let outer = match edit.form {
        Form::Embedded => 0,
        // Its items begin after the key and the length itself.
        Form::Standalone => packet.len() - (rows[0].offset as usize - 2),
    };
    let Level::Target(id) = edit.level else {
        return [outer, 0, 0];
    };
    let ids = parse(edit.form, packet).ids();
    let number = ids.iter().position(|&other| other == id).map(|at| at as u32 + 1);
    let series = rows.iter().find(|row| row.target == 0 && row.tag == 101);
    let pack = rows.iter().find(|row| Some(row.target) == number && row.tag == 0);
    [outer, length(series), length(pack)]
}

const AROUND: [&str; 3] = ["outer", "series", "pack"];

/// Notes each length around an edit that is at an edge, and each whose own
/// width changed.
fn note_lengths(counts: &mut Counts, edit: &Edit, result: &[u8]) {
    let (old, new) = (around(edit, &edit.packet), around(edit, result));
    for (name, (old, new)) in AROUND.iter().zip(old.into_iter().zip(new)) {
        if matches!(new, 127 | 128 | 255 | 256) {
            note(counts, format!("{name} of {new}"));
        }
        let (old, new) = (width(old), width(new));
        if old != new {
            note(counts, format!("{name} {old} to {new}"));
        }
    }
}

/// Notes what the results of edits come to, refused ones too.
fn note_edit(counts: &mut Counts, edit: &Edit) {
    match edit.call() {
        Ok(result) => {
            if result.len() > PACKET_LIMIT - 2 {
                note(counts, format!("result of {}", result.len()));
            }
            note_lengths(counts, edit, &result);
        }
        Err(Refusal { number: 1, .. }) if edit.packet.len() <= PACKET_LIMIT => {
            let size = unmeasured(edit).map_or(0, |bytes| bytes.len());
            if size == PACKET_LIMIT + 1 {
                note(counts, format!("result of {size}"));
            }
        }
        Err(_) => {}
    }
}

/// What every kind of edit must meet: results beside the limit, and each
/// length around an item moved over each edge.
fn met_by_edits() -> Vec<String> {
    let mut met: Vec<String> =
        [8_191, 8_192, 8_193].map(|count| format!("result of {count}")).into();
    for name in AROUND {
        let widths = [(1, 2), (2, 1), (2, 3), (3, 2)];
        met.extend(widths.map(|(old, new)| format!("{name} {old} to {new}")));
    }
    met
}

#[test]
fn edits_move_lengths_over_edges() {
    let mut counts = Counts::new();
    for index in 0..CASES {
        note_edit(&mut counts, &generate::edit(SEED, index).into());
    }
    assert_met(&counts, &met_by_edits());
}

#[test]
fn edits_of_two_move_lengths_over_edges() {
    let mut counts = Counts::new();
    for index in 0..CASES {
        note_edit(&mut counts, &generate::edit_two(SEED, index).into());
    }
    let mut met = met_by_edits();
    for name in AROUND {
        met.extend([127, 128, 255, 256].map(|length| format!("{name} of {length}")));
    }
    assert_met(&counts, &met);
}

/// The rooms of edits of two changes lie on either side of what is needed.
#[test]
fn edits_of_two_have_rooms_about_their_size() {
    let mut counts = Counts::new();
    let mut out = vec![0; PACKET_LIMIT + 1];
    for index in 0..CASES {
        let case = generate::edit_two(SEED, index);
        let room = case.room;
        match Edit::from(case).answer(&mut out[..room]) {
            Ok(count) if room - count < 2 => {
                note(&mut counts, format!("{} to spare", room - count))
            }
            Err(Refusal { number: 16, place }) if place == room + 1 => note(&mut counts, "1 short"),
            _ => {}
        }
    }
    assert_met(&counts, &["0 to spare", "1 to spare", "1 short"].map(String::from));
}

#[test]
fn packets_reach_the_limits() {
    let mut counts = Counts::new();
    let mut sheet = vec![0; PACKET_SHEET_LIMIT];
    for index in 0..CASES {
        let case = generate::packet(SEED, index);
        let (form, packet) = (case.form, &case.bytes);
        if packet.len() == PACKET_LIMIT + 1 {
            note(&mut counts, "8193 bytes");
        }
        if read(form, packet, &mut sheet).is_err() {
            continue;
        }
        if packet.len() > PACKET_LIMIT - 2 {
            note(&mut counts, format!("{form:?} of {} bytes", packet.len()));
        }
        for row in rows_of(form, packet) {
            let kind = match (row.target, row.tag) {
                (0, 101) => "series",
                (_, 0) => "pack",
                _ => "value",
            };
            if matches!(row.length, 127 | 128 | 255 | 256) {
                note(&mut counts, format!("{kind} of {}", row.length));
            }
        }
        for id in parse(form, packet).ids() {
            let bits = 64 - id.leading_zeros() as usize;
            note(&mut counts, format!("id of {}", bits.div_ceil(7).max(1)));
        }
    }
    let mut met: Vec<String> = vec!["8193 bytes".into()];
    for form in ["Embedded", "Standalone"] {
        met.extend([8_191, 8_192].map(|count| format!("{form} of {count} bytes")));
    }
    for kind in ["value", "pack", "series"] {
        met.extend([127, 128, 255, 256].map(|length| format!("{kind} of {length}")));
    }
    met.extend((1..=9).map(|width| format!("id of {width}")));
    assert_met(&counts, &met);
}

#[test]
fn sheets_reach_the_limits() {
    let mut counts = Counts::new();
    let mut packet = vec![0; PACKET_LIMIT];
    for index in 0..CASES {
        let sheet = generate::sheet(SEED, index).bytes;
        if sheet.len().abs_diff(SHEET_LIMIT) < 2 {
            note(&mut counts, format!("{} bytes", sheet.len()));
        }
        match write(&sheet, &mut packet) {
            Ok(count) if count > PACKET_LIMIT - 2 => {
                note(&mut counts, format!("packet of {count}"));
            }
            _ => {}
        }
    }
    let met = ["65535 bytes", "65536 bytes", "65537 bytes", "packet of 8191", "packet of 8192"];
    assert_met(&counts, &met.map(String::from));
}

#[test]
fn named_packets_are_what_they_say() {
    let find = |name: &str| {
        let named = generate::named().into_iter().find(|named| named.name == name);
        let named = named.expect("such a packet");
        rows_of(named.form, &named.packet)
    };
    let packs = |rows: &[Row]| rows.iter().filter(|row| row.target > 0 && row.tag == 0).count();
    assert_eq!(find("example-a").len(), 5);
    for (name, count) in
        [("targets-12", 12), ("targets-290", 290), ("ids-strewn-290", 290), ("ids-falling", 290)]
    {
        assert_eq!(packs(&find(name)), count);
    }
    assert_eq!(packs(&find("targets-290-standalone")), 290);
    assert_eq!(find("tags-falling").len(), 2_048);
    // Ids of one byte take two bytes and those of two take three.
    assert_eq!(packs(&find("most-packs")), 128 + (8_192 - 4 - 256) / 3);
    let rows = find("most-items");
    assert!(rows.len() - packs(&rows) > 2_690, "{}", rows.len());
}
