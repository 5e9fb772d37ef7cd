//! Writes the inputs to be timed and times the second reader on them:
//! `bench FOLDER [inputs]`, files `NAME.packet` and `NAME.sheet`; with a second
//! word it does no more. Prints for each call and input their names, the
//! input's bytes and the nanoseconds of one call: read, packet to sheet; write,
//! that sheet to a packet; normalise; edit, a put of set tag 9; edit-target, a
//! put of tag 4 of the target 1; edit-two, its tags 19 and 20; and where they
//! go through, add-target, the typical one, and drop-target, the one in the
//! middle of the series, for which there are `NAME.records` and `NAME.target`.
//! Of a sheet it times write alone.
//! `bench count CALL TIMES NAME` makes one call on a packet so many times, for
//! who counts its instructions.

use compare::deep::between;
use compare::targets::ids;
use second::generate::limits::most_packs;
use second::generate::tree::{Node, Tree};
use second::generate::{named, typical_target};
use second::{add_target, drop_target, edit, edit_two, normalise, read, write};
use second::{Answer, Change, Form, Level, PACKET_SHEET_LIMIT, SHEET_LIMIT};
use std::hint::black_box;
use std::time::{Duration, Instant};

/// As in `tests/boundary/bench.c`.
const ROUNDS: u32 = 4;
const ROUND: Duration = Duration::from_millis(10);

fn main() {
    let words: Vec<String> = std::env::args().skip(1).collect();
    let mut out = vec![0; PACKET_SHEET_LIMIT];
    if let [count, call, times, name] = &words[..] {
        assert_eq!(count, "count");
        return repeat(call, times.parse().expect("a number"), name, &mut out);
    }
    let folder = words.first().expect("a folder");
    let (packets, sheets) = (packets(), sheets());
    let save = |name: &str, kind: &str, bytes: &[u8]| {
        std::fs::write(format!("{folder}/{name}.{kind}"), bytes).expect("a file");
    };
    for (name, form, packet) in &packets {
        assert!(read(*form, packet, &mut out).is_ok(), "{name} is refused");
        save(name, "packet", packet);
        added(*form, packet, &mut out).iter().for_each(|records| save(name, "records", records));
        dropped(*form, packet).iter().for_each(|id| save(name, "target", &id.to_be_bytes()));
    }
    sheets.iter().for_each(|(name, sheet)| save(name, "sheet", sheet));
    if words.len() > 1 {
        return;
    }
    for (name, form, packet) in &packets {
        time_packet(name, *form, packet, &mut out);
    }
    for (name, sheet) in &sheets {
        time_write(name, sheet, &mut out);
    }
}

fn repeat(call: &str, times: u32, name: &str, out: &mut [u8]) {
    let (_, form, packet) = packets().into_iter().find(|(of, _, _)| of == name).expect("a packet's name");
    let size = read(form, &packet, out).expect("an accepted packet");
    let sheet = out[..size].to_vec();
    let (records, target) = (typical_target(form, &packet), dropped(form, &packet).unwrap_or(0));
    (0..times).for_each(|_| {
        _ = match call {
            "read" => black_box(read(form, black_box(&packet), black_box(out))),
            "write" => black_box(write(black_box(&sheet), black_box(out))),
            "normalise" => black_box(normalise(form, black_box(&packet), black_box(out))),
            "edit-two" => black_box(centre(form, black_box(&packet), black_box(out))),
            "add-target" => black_box(add_target(form, black_box(&packet), black_box(&records), black_box(out))),
            "drop-target" => black_box(drop_target(form, black_box(&packet), black_box(target), black_box(out))),
            _ => black_box(edit(form, black_box(&packet), Level::Set, 9, Change::Put(&[1, 0]), black_box(out))),
        }
    });
}

fn time_packet(name: &str, form: Form, packet: &[u8], out: &mut [u8]) {
    let count = read(form, packet, out).expect("an accepted packet");
    let sheet = out[..count].to_vec();
    let print = |call: &str, best: f64| println!("{call} {name} {} {best:.1}", packet.len());
    print("read", time(|| _ = black_box(read(form, black_box(packet), black_box(out)))));
    time_write(name, &sheet, out);
    print("normalise", time(|| _ = black_box(normalise(form, black_box(packet), black_box(out)))));
    let edits = [
        ("edit", Level::Set, 9, Change::Put(&[1, 0])),
        ("edit-target", Level::Target(1), 4, Change::Put(&[1])),
    ];
    for (call, level, tag, put) in edits {
        print(call, time(|| _ = black_box(edit(form, black_box(packet), level, tag, put, black_box(out)))));
    }
    print("edit-two", time(|| _ = black_box(centre(form, black_box(packet), black_box(out)))));
    if let Some(records) = added(form, packet, out) {
        print("add-target", time(|| _ = black_box(add_target(form, black_box(packet), black_box(&records), black_box(out)))));
    }
    if let Some(target) = dropped(form, packet) {
        print("drop-target", time(|| _ = black_box(drop_target(form, black_box(packet), black_box(target), black_box(out)))));
    }
}

/// The target to add, if there is space for it.
fn added(form: Form, packet: &[u8], out: &mut [u8]) -> Option<Vec<u8>> {
    Some(typical_target(form, packet)).filter(|records| add_target(form, packet, records, out).is_ok())
}

/// The target to drop, if there is one.
fn dropped(form: Form, packet: &[u8]) -> Option<u64> {
    let ids = ids(form, packet);
    ids.get(ids.len() / 2).copied()
}

fn centre(form: Form, packet: &[u8], out: &mut [u8]) -> Answer {
    edit_two(form, packet, Level::Target(1), 19, Change::Put(&[2, 17]), 20, Change::Put(&[5, 131]), out)
}

fn time_write(name: &str, sheet: &[u8], out: &mut [u8]) {
    let best = time(|| _ = black_box(write(black_box(sheet), black_box(out))));
    println!("write {name} {} {best:.1}", sheet.len());
}

/// Nanoseconds of one call, the least of the rounds.
fn time(mut call: impl FnMut()) -> f64 {
    let mut round = |times: u32| {
        let start = Instant::now();
        (0..times).for_each(|_| call());
        start.elapsed()
    };
    let mut times = 1;
    while round(times) < ROUND / 8 {
        times *= 2;
    }
    let one = round(times) / times;
    let times = (ROUND.as_nanos() / one.as_nanos().max(1)).max(1) as u32;
    let least = (0..ROUNDS).map(|_| round(times)).min().expect("a round");
    least.as_nanos() as f64 / f64::from(times)
}

/// The named packets; two whose tags and ids stand so that a look back for a
/// repeated one is the longest: each after the second is between the least
/// and the greatest so far; and targets of which none is laid out as the one
/// before, though as long.
fn packets() -> Vec<(String, Form, Vec<u8>)> {
    let all = named().into_iter().map(|named| (named.name.to_string(), named.form, named.packet));
    let tags = between(&(16_384 - 2_048..16_384u16).collect::<Vec<_>>());
    let ids = most_packs().packs().map_or(0, |packs| packs.len() as u64);
    let items = tags.iter().map(|&tag| Node::item(tag, &[1])).collect();
    let bare = |&id: &u64| Node::Pack { width: 0, id, items: Vec::new() };
    let packs = between(&(0..ids).collect::<Vec<_>>()).iter().map(bare).collect();
    let turns = (1..=290u64).map(|id| Node::Pack { width: 0, id, items: turned(id) }).collect();
    let worst = [
        ("tags-between", items),
        ("ids-between", vec![Node::Series { width: 0, packs }]),
        ("targets-in-turn", vec![Node::item(5, &[2]), Node::Series { width: 0, packs: turns }]),
    ];
    let embedded = |(name, set): (&str, Vec<Node>)| {
        let mut tree = Tree::new(Form::Embedded);
        tree.set = set;
        (name.to_string(), tree.form, tree.bytes())
    };
    all.chain(worst.map(embedded)).collect()
}

/// Items of as many bytes for each target, with another tag by turns.
fn turned(id: u64) -> Vec<Node> {
    let tags = if id % 2 == 0 { [4, 5, 6, 19, 20] } else { [4, 6, 7, 19, 20] };
    tags.map(|tag| Node::item(tag, &[1 + (id % 9) as u8])).into()
}

/// Sheets of as many items or targets as fit, from the greatest tag or id to
/// the least, and between as above, the last two with ids alike in their low
/// 14 bits, of targets that hold nothing and one item each. What they say
/// fits in no packet.
fn sheets() -> Vec<(String, Vec<u8>)> {
    let tags: Vec<u64> = (0..((SHEET_LIMIT - 3) / 7) as u64).map(|n| 16_383 - n).collect();
    let ids: Vec<u64> = (0..((SHEET_LIMIT - 5) / 10) as u64).rev().collect();
    let item = |tag: &u64| [b"IT", &(*tag as u16).to_be_bytes()[..], &[0, 1, 1]].concat();
    let target = |id: &u64| [b"TG", &id.to_be_bytes()[..]].concat();
    let sheet = |head: &[u8], records: Vec<Vec<u8>>| [head, &records.concat()].concat();
    let items = |tags: &[u64]| sheet(b"PK\0", tags.iter().map(item).collect());
    let targets = |ids: &[u64]| sheet(b"PK\0TS", ids.iter().map(target).collect());
    let alike: Vec<u64> = ids.iter().map(|id| id << 14).collect();
    let held = |id: &u64| [&target(id)[..], b"TI\0\x04\0\x01\x02"].concat();
    let fewer = &between(&alike)[..(SHEET_LIMIT - 5) / 17];
    vec![
        ("sheet-tags-falling".into(), items(&tags)),
        ("sheet-ids-falling".into(), targets(&ids)),
        ("sheet-tags-between".into(), items(&between(&tags))),
        ("sheet-ids-between".into(), targets(&between(&ids))),
        ("sheet-ids-alike".into(), targets(&between(&alike))),
        ("sheet-ids-alike-held".into(), sheet(b"PK\0TS", fewer.iter().map(held).collect())),
    ]
}
