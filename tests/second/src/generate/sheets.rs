//! Sheets to write.

use super::mutate::{mutate, telling};
use super::random::{self, Random};
use super::sheet_damage::{self, NUMBERS};
use super::tree::{Node, Tree};
use super::valid::{self, NORMAL};
use super::{limits, SheetCase};
use crate::coding::shortest;
use crate::packet::Form;
use crate::table::{pack_rule, set_rule};
use crate::{PACKET_LIMIT, SHEET_LIMIT};

/// Which kind of sheet an index stands for.
pub fn sheet(seed: u64, index: u64) -> SheetCase {
    let random = &mut Random::new(seed, 2, index);
    let bytes = match index % 16 {
        0..=4 => accepted(random).concat(),
        5..=8 => {
            let number = random::turn(&NUMBERS, index / 16 + index);
            sheet_damage::refused(random, number)
        }
        9 | 10 => mutated(random),
        11 | 12 => disordered(random),
        13 => near_packet_limit(random),
        14 => near_sheet_limit(random),
        _ => by_chance(random),
    };
    SheetCase { bytes }
}

/// A record of an item.
pub fn item(mark: &[u8; 2], tag: u16, value: &[u8]) -> Vec<u8> {
    let length = (value.len() as u16).to_be_bytes();
    [&mark[..], &tag.to_be_bytes(), &length, value].concat()
}

pub fn target(id: u64) -> Vec<u8> {
    [&b"TG"[..], &id.to_be_bytes()].concat()
}

pub fn opening(form: Form) -> Vec<u8> {
    vec![b'P', b'K', u8::from(form == Form::Standalone)]
}

/// The records of a tree's sheet, one by one.
pub fn records(tree: &Tree) -> Vec<Vec<u8>> {
    let mut out = vec![opening(tree.form)];
    for node in &tree.set {
        match node {
            Node::Item { tag, value, .. } => {
                let number = set_rule(*tag).is_number();
                out.push(item(b"IT", *tag, if number { shortest(value) } else { value }));
            }
            Node::Series { packs, .. } => {
                out.push(b"TS".to_vec());
                packs.iter().for_each(|pack| push_pack(pack, &mut out));
            }
            _ => {}
        }
    }
    out
}

/// The records of a pack.
pub fn push_pack(node: &Node, out: &mut Vec<Vec<u8>>) {
    let Node::Pack { id, items, .. } = node else {
        return;
    };
    out.push(target(*id));
    for node in items {
        if let Node::Item { tag, value, .. } = node {
            let number = pack_rule(*tag).is_number();
            out.push(item(b"TI", *tag, if number { shortest(value) } else { value }));
        }
    }
}

/// The records of a sheet that is accepted.
pub fn accepted(random: &mut Random) -> Vec<Vec<u8>> {
    let form = valid::form(random);
    records(&valid::tree(random, form, NORMAL))
}

fn mutated(random: &mut Random) -> Vec<u8> {
    let mut bytes = accepted(random).concat();
    let other = accepted(random).concat();
    mutate(random, &mut bytes, &other);
    bytes
}

/// Whole records that are moved, doubled, lost or strange.
fn disordered(random: &mut Random) -> Vec<u8> {
    let mut records = accepted(random);
    for _ in 0..random.between(1, 3) {
        let at = random.below(records.len());
        let to = random.between(usize::from(records.len() > 1), records.len());
        match random.below(6) {
            0 => {
                let to = to.min(records.len() - 1);
                records.swap(at, to);
            }
            1 if records.len() > 1 => {
                records.remove(at);
            }
            2 => records.insert(to, records[at].clone()),
            3 => records.insert(to, one_by_chance(random)),
            _ => {
                let moved = records.remove(at);
                records.insert(to.min(records.len()), moved);
            }
        }
    }
    records.concat()
}

/// A record that a sheet may or may not have.
fn one_by_chance(random: &mut Random) -> Vec<u8> {
    let tag = random.pick(&[0, 1, 2, 3, 5, 6, 10, 17, 19, 20, 101, 128, 16_383, 16_384]);
    let length = random.pick(&[0, 1, 1, 1, 2, 3, 8, 10]);
    let mut value = random.bytes(length);
    if random.once_in(3) {
        value.fill(0);
    }
    match random.below(10) {
        0..=3 => item(b"IT", tag, &value),
        4..=6 => item(b"TI", tag, &value),
        7 => b"TS".to_vec(),
        8 => target(random.pick(&[0, 1, 2, (1 << 63) - 1, 1 << 63])),
        _ => random.pick(&[b"PK\x00".to_vec(), b"T".to_vec(), b"XX".to_vec(), b"TSTG".to_vec()]),
    }
}

/// A few records by chance, after a form that is most often good.
fn by_chance(random: &mut Random) -> Vec<u8> {
    let count = random.below(6);
    let form = random.pick(&[0, 0, 0, 1, 1, 1, 2, 255]);
    let mut bytes = vec![b'P', b'K', form];
    if form == 1 && random.below(4) < 3 {
        bytes.extend(item(b"IT", 2, &[0; 8]));
    }
    if random.once_in(2) {
        bytes.extend([b"TS".to_vec(), target(1)].concat());
    }
    (0..count).for_each(|_| bytes.extend(one_by_chance(random)));
    if random.once_in(4) {
        bytes.truncate(random.below(bytes.len() + 1));
    }
    if random.once_in(16) {
        let count = random.below(6);
        bytes = telling(random, count);
    }
    bytes
}

/// Sheets whose packet comes to about 8,192 bytes.
fn near_packet_limit(random: &mut Random) -> Vec<u8> {
    let form = valid::form(random);
    let total = PACKET_LIMIT + 2 - random.below(5);
    let mut tree = match random.below(8) {
        0 => limits::most_items(),
        1 => limits::most_packs(),
        2 => limits::falling(limits::most_packs()),
        _ => valid::tree(random, form, NORMAL),
    };
    limits::pad(random, &mut tree, total);
    if let Some(Node::Item { width, .. }) = tree.set.iter_mut().find(|node| node.tag() == 13) {
        *width = 0;
    }
    limits::stretch(&mut tree, total);
    records(&tree).concat()
}

/// Sheets of about 65,536 bytes: of one value, of many items or of many
/// targets.
fn near_sheet_limit(random: &mut Random) -> Vec<u8> {
    let total = SHEET_LIMIT + 2 - random.below(5);
    let mut records = accepted(random);
    match random.below(4) {
        0 => many_targets(random, &mut records),
        1 => many_items(random, &mut records),
        _ => {}
    }
    let have = records.concat().len();
    let length = total.saturating_sub(have + 6).min(65_535);
    records.push(item(b"IT", 16_383, &vec![0; length]));
    records.concat()
}

fn many_items(random: &mut Random, records: &mut Vec<Vec<u8>>) {
    let first = random.between(128, 1_000) as u16;
    let mut tags: Vec<u16> = (first..first + 6_000).collect();
    random.order(&mut tags);
    records.extend(tags.into_iter().map(|tag| item(b"IT", tag, &[1])));
}

fn many_targets(random: &mut Random, records: &mut Vec<Vec<u8>>) {
    let mut ids = valid::ids(random, 6_400);
    if random.once_in(3) {
        ids.push(ids[0]);
    }
    *records = vec![opening(Form::Embedded), b"TS".to_vec()];
    records.extend(ids.into_iter().map(target));
}
