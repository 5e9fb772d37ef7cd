//! Faults put into a sheet on purpose, by the number of the refusal they
//! lead to unless another fault comes before.

use super::random::Random;
use super::sheets::{accepted, item, opening, records, target};
use super::valid::{self, CENTROID, NORMAL, OFFSET_TAGS, PACK_TAGS, SET_TAGS};
use crate::packet::Form;
use crate::table::{pack_rule, set_rule};
use crate::{PACKET_LIMIT, SHEET_LIMIT};

/// The refusals that a sheet alone can lead to; 17 has the most causes.
pub const NUMBERS: [u8; 14] = [1, 7, 9, 10, 11, 12, 13, 14, 17, 17, 17, 17, 20, 20];

type Records = Vec<Vec<u8>>;

/// A sheet with one fault.
pub fn refused(random: &mut Random, number: u8) -> Vec<u8> {
    let form = match number {
        13 | 14 => Form::Standalone,
        _ => valid::form(random),
    };
    let mut records = records(&valid::tree(random, form, NORMAL));
    match number {
        1 => over_limit(random, &mut records),
        7 => empty(random, &mut records),
        9 | 10 => repeated(random, &mut records, number),
        11 => length_not_allowed(random, &mut records),
        12 => pixel_zero(random, &mut records),
        13 => offset(random, &mut records),
        14 => missing(random, &mut records),
        20 => lone(random, &mut records),
        _ if random.once_in(2) => bad_record(random, &mut records),
        _ => misplaced(random, &mut records),
    }
    records.concat()
}

/// Where a `TI` may stand; a series is added if there is none.
fn in_target(random: &mut Random, records: &mut Records) -> usize {
    let after = |records: &Records| -> Vec<usize> {
        let targets = records.iter().enumerate();
        let in_target = |record: &[u8]| record.starts_with(b"TG") || record.starts_with(b"TI");
        targets.filter(|(_, record)| in_target(record)).map(|(at, _)| at + 1).collect()
    };
    if after(records).is_empty() {
        records.extend([b"TS".to_vec(), target(9), item(b"TI", 17, &[3; 10])]);
    }
    random.pick(&after(records))
}

/// Where an `IT` may stand without closing a series early.
fn in_set(random: &mut Random, records: &mut Records) -> usize {
    let series = records.iter().position(|record| record == b"TS").unwrap_or(records.len());
    match random.once_in(2) {
        true => random.between(1, series),
        false => records.len(),
    }
}

/// Puts an item of the set or of a target somewhere.
fn insert(random: &mut Random, records: &mut Records, set: bool, tag: u16, value: &[u8]) {
    let at = if set { in_set(random, records) } else { in_target(random, records) };
    records.insert(at, item(if set { b"IT" } else { b"TI" }, tag, value));
}

/// Takes an item's records away, so that its tag can be used again; with a
/// target's 19 goes its 20, and with 20 its 19.
fn remove(records: &mut Records, set: bool, tag: u16) {
    let mut tags = vec![tag];
    if !set && CENTROID.contains(&tag) {
        tags.extend(CENTROID);
    }
    for tag in tags {
        let head = item(if set { b"IT" } else { b"TI" }, tag, &[]);
        records.retain(|record| !record.starts_with(&head[..4]));
    }
}

fn over_limit(random: &mut Random, records: &mut Records) {
    remove(records, true, 13);
    let beyond = random.below(3);
    if random.once_in(2) {
        return records.push(item(b"IT", 13, &vec![0; PACKET_LIMIT - 4 + beyond]));
    }
    records.push(item(b"IT", 13, &[0; 40_000]));
    let have = records.concat().len();
    let length = (SHEET_LIMIT + 1 + beyond).saturating_sub(have + 6);
    records.push(item(b"IT", 16_383, &vec![0; length]));
}

fn empty(random: &mut Random, records: &mut Records) {
    let set = random.once_in(2);
    let tag = match random.once_in(2) {
        true => random.pick(if set { &SET_TAGS[..] } else { &PACK_TAGS[..] }),
        false => random.pick(&[13, 18, 300]),
    };
    insert(random, records, set, tag, &[]);
}

/// 9 or 10: an item, a series or a target again.
fn repeated(random: &mut Random, records: &mut Records, number: u8) {
    if number == 9 && random.once_in(4) {
        in_target(random, records);
        return records.extend([b"TS".to_vec(), target(77)]);
    }
    let at = in_target(random, records);
    let marks: &[&[u8; 2]] = if number == 9 { &[b"IT", b"TI"] } else { &[b"TG"] };
    let again: Records = records
        .iter()
        .filter(|record| marks.iter().any(|mark| record.starts_with(&mark[..])))
        .cloned()
        .collect();
    if again.is_empty() {
        return;
    }
    let record = random.pick(&again);
    let at = if record.starts_with(b"IT") { in_set(random, records) } else { at };
    records.insert(at, record);
}

fn length_not_allowed(random: &mut Random, records: &mut Records) {
    let set = random.once_in(2);
    let tag = random.pick(if set { &SET_TAGS[..] } else { &PACK_TAGS[..] });
    let rule = if set { set_rule(tag) } else { pack_rule(tag) };
    let lengths = [1, 2, 4, 7, 9, 11, 13, 23, 33, 129];
    let wrong: Vec<usize> = lengths.into_iter().filter(|&length| !rule.allows(length)).collect();
    let length = random.pick(&wrong);
    let value = if random.once_in(2) { vec![0; length] } else { random.bytes(length) };
    remove(records, set, tag);
    insert(random, records, set, tag, &value);
}

fn pixel_zero(random: &mut Random, records: &mut Records) {
    let tag = random.pick(&[1, 2, 3, 19, 20]);
    let value = vec![0; random.between(1, 4)];
    remove(records, false, tag);
    insert(random, records, false, tag, &value);
}

fn offset(random: &mut Random, records: &mut Records) {
    let tag = random.pick(&OFFSET_TAGS);
    let value = vec![7; random.pick(&[3, 3, 2])];
    insert(random, records, false, tag, &value);
}

fn missing(random: &mut Random, records: &mut Records) {
    match random.below(5) {
        0 => records.truncate(1),
        1 => records[1] = item(b"IT", random.pick(&[3, 5, 13]), &[1]),
        2 => {
            records.remove(1);
        }
        _ => {
            in_target(random, records);
            remove(records, false, 17);
            let odd = random.pick(&[b"XX".to_vec(), b"T".to_vec(), b"TI".to_vec(), vec![]]);
            records.push(odd);
        }
    }
}

/// One of 19 and 20 without the other, with tag 17 or not, in some target,
/// and sometimes another fault after it.
fn lone(random: &mut Random, records: &mut Records) {
    in_target(random, records);
    let targets: Vec<usize> =
        (0..records.len()).filter(|&at| records[at].starts_with(b"TG")).collect();
    let start = random.pick(&targets) + 1;
    let count = records[start..].iter().take_while(|record| record.starts_with(b"TI")).count();
    let mut items: Records = records.drain(start..start + count).collect();
    remove(&mut items, false, 19);
    if random.once_in(3) {
        remove(&mut items, false, 17);
    }
    let (tag, value) = (random.pick(&CENTROID), random.pick(&[vec![1], vec![1, 0], vec![9; 4]]));
    items.insert(random.below(items.len() + 1), item(b"TI", tag, &value));
    let odd = [b"XX".to_vec(), b"T".to_vec(), b"TI".to_vec(), target(1 << 63), item(b"IT", 5, &[])];
    match random.below(4) {
        0 => items.push(random.pick(&odd)),
        1 => records.push(random.pick(&odd)),
        _ => {}
    }
    records.splice(start..start, items);
}

/// 17: a record that is bad in itself.
fn bad_record(random: &mut Random, records: &mut Records) {
    let set = random.once_in(2);
    match random.below(8) {
        0 => records[0][2] = random.pick(&[2, 3, 0x30, 255]),
        1 => {
            let last = records.pop().unwrap_or_default();
            records.push(last[..random.below(last.len())].to_vec());
        }
        2 => records.push(random.pick(&[&b"X"[..], b"XX", b"IX\x00\x05", b"it"]).to_vec()),
        3 => {
            let tag = random.pick(&[0, 16_384, 16_385, 32_768, 65_535]);
            insert(random, records, set, tag, &[1]);
        }
        4 => {
            let tag = random.pick(&[1, 101]);
            let value = vec![1; random.below(3)];
            insert(random, records, true, tag, &value);
        }
        5 => {
            let at = in_target(random, records);
            let id = random.pick(&[1 << 63, u64::MAX]);
            records.insert(at, target(id));
        }
        _ => not_shortest(random, records, set),
    }
}

fn not_shortest(random: &mut Random, records: &mut Records, set: bool) {
    let tag = random.pick(if set { &[4, 5, 6, 8, 9][..] } else { &[1, 3, 6, 9, 19, 22][..] });
    let value = [0, random.pick(&[0, 1])];
    remove(records, set, tag);
    insert(random, records, set, tag, &value);
}

/// 17: a good record where it may not stand.
fn misplaced(random: &mut Random, records: &mut Records) {
    match random.below(7) {
        0 => {
            let form = valid::form(random);
            records.insert(random.between(0, records.len()), opening(form));
        }
        1 => records.push(b"TS".to_vec()),
        2 => {
            let at = in_target(random, records);
            records.insert(at, b"TS".to_vec());
        }
        3 => records.insert(1, target(3)),
        4 => records.insert(1, item(b"TI", 4, &[1])),
        5 => {
            in_target(random, records);
            let late = random.pick(&[target(3), item(b"TI", 4, &[1])]);
            records.extend([item(b"IT", 300, &[1]), late]);
        }
        _ => {
            *records = accepted(random);
            records.remove(0);
        }
    }
}
