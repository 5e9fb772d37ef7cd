//! Named inputs for benchmarks.

use super::limits::{falling, most_items, most_packs};
use super::random::Random;
use super::sheets;
use super::tree::{Node, Outer, Tree};
use crate::coding::shortest;
use crate::packet::Form;
use crate::{locate, Row, ROWS_LIMIT};

/// An accepted packet with a name.
pub struct Named {
    pub name: &'static str,
    pub form: Form,
    pub packet: Vec<u8>,
}

/// The benchmark packets, all of them accepted:
///
/// - `example-a`: document 01's example A, 15 bytes;
/// - `targets-12`, `targets-290`: embedded sets of so many targets, each
///   with centroid, priority, confidence, row and column;
/// - `targets-12-standalone`, `targets-290-standalone`: each target with
///   centroid, priority, confidence and location;
/// - `targets-240-long`: the same out of normal form, each length in two
///   bytes and each pixel number with a leading zero;
/// - `ids-strewn-12`, `ids-strewn-290`: `targets-12` and `targets-290` with
///   their targets in no order;
/// - `ids-falling`: `targets-290` from its last target to its first;
/// - `items-falling`: `targets-290` with each pack's items from last to first;
/// - `packs-falling`: `most-packs` from its last to its first;
/// - `tags-falling`: two-byte tags from 16,383 down, as many as fit;
/// - `most-items`, `most-packs`: the most that fit in 8,192 bytes.
pub fn named() -> Vec<Named> {
    let embedded = Form::Embedded;
    let list = [
        ("example-a", example_a()),
        ("targets-12", targets(embedded, 12, false)),
        ("targets-290", targets(embedded, 290, false)),
        ("targets-12-standalone", targets(Form::Standalone, 12, false)),
        ("targets-290-standalone", targets(Form::Standalone, 290, false)),
        ("targets-240-long", targets(embedded, 240, true)),
        ("ids-strewn-12", strewn(targets(embedded, 12, false))),
        ("ids-strewn-290", strewn(targets(embedded, 290, false))),
        ("ids-falling", falling(targets(embedded, 290, false))),
        ("items-falling", items_falling()),
        ("packs-falling", falling(most_packs())),
        ("tags-falling", tags_falling()),
        ("most-items", most_items()),
        ("most-packs", most_packs()),
    ];
    let named = |(name, tree): (_, Tree)| Named { name, form: tree.form, packet: tree.bytes() };
    list.map(named).into()
}

/// The records of a typical target to add to an accepted packet: its id one
/// above the greatest, with centroid, bounding box, priority, confidence and,
/// in standalone, location, and with row and column.
pub fn typical_target(form: Form, packet: &[u8]) -> Vec<u8> {
    let mut rows = vec![Row::default(); ROWS_LIMIT];
    let count = locate(form, packet, &mut rows).unwrap_or(0);
    let packs = rows[..count].iter().filter(|row| row.target > 0 && row.tag == 0);
    let ids = packs.filter_map(|row| crate::coding::id(packet, row.offset as usize).ok());
    let id = ids.map(|(id, _)| id + 1).max().unwrap_or(1);
    let items: [(u16, &[u8]); 8] = [
        (1, &[0x0F, 0xA4, 0x10]),
        (2, &[0x0F, 0x80, 0x05]),
        (3, &[0x0F, 0xC8, 0x1B]),
        (4, &[1]),
        (5, &[80]),
        (17, &[0x42, 1, 2, 3, 0x21, 4, 5, 6, 0x0B, 7]),
        (19, &[2, 0x16]),
        (20, &[3, 0xD0]),
    ];
    let items = items.iter().filter(|(tag, _)| form == Form::Standalone || *tag != 17);
    let items = items.flat_map(|(tag, value)| sheets::item(b"TI", *tag, value));
    sheets::target(id).into_iter().chain(items).collect()
}

fn example_a() -> Tree {
    let mut tree = Tree::new(Form::Embedded);
    let items = vec![Node::item(19, &[3, 0x68]), Node::item(20, &[4, 0x71])];
    let pack = Node::Pack { width: 0, id: 1, items };
    let series = Node::Series { width: 0, packs: vec![pack] };
    tree.set = vec![Node::item(5, &[2]), series];
    tree
}

/// A set of so many targets in a frame of 1,920 by 1,080.
fn targets(form: Form, count: u16, long: bool) -> Tree {
    let width = u8::from(long);
    let mut tree = Tree::new(form);
    tree.outer = Outer::Width(width);
    let total = count.to_be_bytes();
    let total = shortest(&total);
    let items: [(u16, &[u8]); 8] = [
        (2, &[0, 5, 0xF1, 0x2A, 0x33, 0x61, 0x98, 0x40]),
        (3, b"tracker"),
        (4, &[6]),
        (5, total),
        (6, total),
        (8, &[7, 0x80]),
        (9, &[4, 0x38]),
        (10, b"EO Nose"),
    ];
    tree.set = items.map(|(tag, value)| Node::item(tag, value)).into();
    let packs = (1..=count).map(|id| target(form, id, long)).collect();
    tree.set.push(Node::Series { width, packs });
    tree
}

fn target(form: Form, id: u16, long: bool) -> Node {
    let (row, column) = (1 + id * 37 % 1_080, 1 + id * 53 % 1_920);
    let centroid = u32::from(row - 1) * 1_920 + u32::from(column);
    let width = u8::from(long);
    let item = |tag, value: &[u8]| Node::Item { tag, width, value: value.to_vec() };
    let pixel = |tag, number: u32| {
        let bytes = number.to_be_bytes();
        let short = shortest(&bytes);
        let padded = [&[0], short].concat();
        item(tag, if long { &padded } else { short })
    };
    let mut items =
        vec![pixel(1, centroid), item(4, &[1 + (id % 9) as u8]), item(5, &[(id % 101) as u8])];
    if form == Form::Standalone {
        items.push(item(17, &[0x42, 1, 2, 3, 0x21, 4, 5, 6, 0x0B, id as u8]));
    } else {
        items.push(pixel(19, u32::from(row)));
        items.push(pixel(20, u32::from(column)));
    }
    Node::Pack { width, id: u64::from(id), items }
}

/// Its packs in no order.
fn strewn(mut tree: Tree) -> Tree {
    let mut random = Random::new(1, 0, 0);
    if let Some(packs) = tree.packs() {
        packs.sort_by_cached_key(|_| random.number());
    }
    tree
}

fn items_falling() -> Tree {
    let mut tree = targets(Form::Embedded, 290, false);
    for node in tree.packs().into_iter().flatten() {
        if let Node::Pack { items, .. } = node {
            items.reverse();
        }
    }
    tree
}

fn tags_falling() -> Tree {
    let mut tree = Tree::new(Form::Embedded);
    let tags = (16_384 - 2_048..16_384u16).rev();
    tree.set = tags.map(|tag| Node::item(tag, &[1])).collect();
    tree
}
