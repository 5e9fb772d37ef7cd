//! Faults put into the records of a target to add, by the number of the
//! refusal they lead to unless another fault comes before.

use super::add_target::Draft;
use super::random::Random;
use super::sheets::{item, opening, target};
use super::targets::Records;
use super::valid::{self, CENTROID, OFFSET_TAGS, PACK_TAGS};
use crate::packet::Form;
use crate::table::pack_rule;

/// What one record can lead to; 17 has the most causes.
pub const NUMBERS: [u8; 12] = [17, 7, 17, 9, 17, 11, 17, 12, 17, 13, 17, 17];

pub fn damage(random: &mut Random, records: &mut Records, number: u8) {
    match number {
        7 => empty(random, records),
        9 => again(random, records),
        11 => length_not_allowed(random, records),
        12 => pixel_zero(random, records),
        13 => offset(random, records),
        _ => match random.below(3) {
            0 => not_shortest(random, records),
            1 => foreign(random, records),
            _ => bad_record(random, records),
        },
    }
}

/// Faults that are answered after all records: bit 0 of `which` is an id that
/// stands already, bit 1 a lone 19 or 20, bit 2 no tag 17.
pub fn faults(random: &mut Random, draft: &mut Draft, which: u64) {
    let ids = draft.tree.ids();
    let records = &mut draft.records;
    if which & 1 != 0 && !ids.is_empty() {
        let id = random.pick(&[ids[0], ids[ids.len() - 1], ids[ids.len() / 2]]);
        records[0] = target(id);
    }
    if which & 2 != 0 {
        remove(records, &CENTROID);
        let (tag, value) = (random.pick(&CENTROID), random.pick(&[vec![1], vec![1, 0]]));
        insert(random, records, item(b"TI", tag, &value));
    }
    if which & 4 != 0 {
        remove(records, &[17]);
    }
}

/// Takes the items of these tags away.
fn remove(records: &mut Records, tags: &[u16]) {
    let heads: Records = tags.iter().map(|&tag| item(b"TI", tag, &[])[..4].to_vec()).collect();
    records.retain(|record| !heads.iter().any(|head| record.starts_with(head)));
}

/// Puts a record somewhere after the first.
fn insert(random: &mut Random, records: &mut Records, record: Vec<u8>) {
    let at = random.between(records.len().min(1), records.len());
    records.insert(at, record);
}

/// Puts an item in place of any of its tag.
fn replace(random: &mut Random, records: &mut Records, tag: u16, value: &[u8]) {
    remove(records, &[tag]);
    insert(random, records, item(b"TI", tag, value));
}

fn empty(random: &mut Random, records: &mut Records) {
    let tag = match random.once_in(3) {
        true => valid::unlisted(random),
        false => random.pick(&[&PACK_TAGS[..], &OFFSET_TAGS[..]].concat()),
    };
    match random.once_in(3) {
        true => insert(random, records, item(b"TI", tag, &[])),
        false => replace(random, records, tag, &[]),
    }
}

/// An item's tag again, its value good or not.
fn again(random: &mut Random, records: &mut Records) {
    while records.len() < 2 {
        records.push(item(b"TI", random.pick(&[4, 8, 24, 300]), &[1, 2, 3]));
    }
    let at = random.between(1, records.len() - 1);
    let mut record = records[at].clone();
    if random.once_in(3) && record.len() >= 6 {
        let tag = u16::from_be_bytes([record[2], record[3]]);
        record = item(b"TI", tag, &random.pick(&[vec![], vec![0], vec![0, 0], vec![7; 9]]));
    }
    let to = random.pick(&[at, at + 1, records.len()]);
    records.insert(to, record);
}

fn length_not_allowed(random: &mut Random, records: &mut Records) {
    let tag = random.pick(&[&PACK_TAGS[..], &OFFSET_TAGS[..]].concat());
    let rule = pack_rule(tag);
    let lengths = [1, 2, 3, 4, 5, 7, 9, 11, 15, 17, 21, 23, 128, 256, 266];
    let wrong: Vec<usize> = lengths.into_iter().filter(|&length| !rule.allows(length)).collect();
    let length = random.pick(&wrong);
    let value = if random.once_in(2) { vec![0; length] } else { random.bytes(length) };
    replace(random, records, tag, &value);
}

fn pixel_zero(random: &mut Random, records: &mut Records) {
    let tag = random.pick(&[1, 2, 3, 19, 20]);
    let greatest = pack_rule(tag).greatest;
    let value = vec![0; random.between(1, greatest)];
    replace(random, records, tag, &value);
}

fn offset(random: &mut Random, records: &mut Records) {
    let (tag, length) = (random.pick(&OFFSET_TAGS), random.pick(&[3, 3, 3, 2, 4]));
    replace(random, records, tag, &vec![7; length]);
}

/// A number with zeros before it, of allowed length most often.
fn not_shortest(random: &mut Random, records: &mut Records) {
    let tag = random.pick(&[1, 2, 3, 6, 9, 19, 20, 22]);
    let zeros = random.between(1, 2);
    let number = random.pick(&[vec![0], vec![5], vec![1, 0], vec![0xFF; 2]]);
    replace(random, records, tag, &[vec![0; zeros], number].concat());
}

/// A record that a target does not have, or bytes that are none.
fn foreign(random: &mut Random, records: &mut Records) {
    let id = random.pick(&[0, 1, 2, 1 << 63]);
    let choices = [
        opening(Form::Embedded),
        opening(Form::Standalone),
        item(b"IT", random.pick(&[4, 5, 6, 101]), &[2]),
        b"TS".to_vec(),
        target(id),
        records.first().cloned().unwrap_or_default(),
        random.pick(&[&b"XX"[..], b"T", b"ti\x00\x04\x00\x01\x01", b"\x00", b"TI", b"TG"]).to_vec(),
    ];
    let record = random.pick(&choices);
    match random.below(4) {
        0 => records.insert(0, record),
        1 => records.push(record),
        _ => insert(random, records, record),
    }
}

/// A record that is bad in itself: cut, long, of a tag or id that none has,
/// or not there.
fn bad_record(random: &mut Random, records: &mut Records) {
    match random.below(8) {
        0 => records.clear(),
        1 => records.truncate(1),
        _ if records.is_empty() => {}
        2 => _ = records.remove(0),
        3 => records[0] = target(random.pick(&[1 << 63, (1 << 63) + 1, u64::MAX])),
        4 => {
            let tag = random.pick(&[0, 16_384, 16_385, 32_768, 65_535]);
            let value = vec![1; random.below(3)];
            insert(random, records, item(b"TI", tag, &value));
        }
        5 => {
            // A value that ends after the records do.
            let mut record = item(b"TI", random.pick(&[4, 24, 300]), &[1; 9]);
            record.truncate(random.between(2, 14));
            records.push(record);
        }
        6 => records[0].truncate(random.below(10)),
        _ => {
            let last = records.len() - 1;
            let kept = random.below(records[last].len());
            records[last].truncate(kept);
        }
    }
    if records.len() == 1 && random.once_in(3) {
        records[0].truncate(9);
    }
}
