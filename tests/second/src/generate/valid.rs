//! Trees of packets that are accepted.

use super::random::Random;
use super::tree::{Node, Outer, Tree, Width};
use crate::packet::Form;
use crate::table::{pack_rule, set_rule, Kind, Rule};
use crate::PACKET_LIMIT;

/// Listed tags that items are made of, without the set's 1 and 101.
pub const SET_TAGS: [u16; 10] = [2, 3, 4, 5, 6, 8, 9, 10, 11, 12];
pub const PACK_TAGS: [u16; 15] = [1, 2, 3, 4, 5, 6, 7, 8, 9, 12, 17, 19, 20, 22, 23];
/// The pack's tags of which a pack has both or neither.
pub const CENTROID: [u16; 2] = [19, 20];
/// The pack's tags that standalone may not have.
pub const OFFSET_TAGS: [u16; 6] = [10, 11, 13, 14, 15, 16];
/// Lengths where their own coding changes.
pub const EDGES: [usize; 8] = [126, 127, 128, 129, 254, 255, 256, 257];

/// How far a packet is from its normal form.
#[derive(Clone, Copy)]
pub struct Style {
    /// One length in so many is long; none if 0.
    pub long: usize,
    /// One number in so many has leading zeros; none if 0.
    pub padded: usize,
}

/// Both as in normal form.
pub const NORMAL: Style = Style { long: 0, padded: 0 };

impl Style {
    pub fn any(random: &mut Random) -> Style {
        let choices = [0, 1, 2, 2, 6, 6];
        Style { long: random.pick(&choices), padded: random.pick(&choices) }
    }

    /// Never in normal form, if there is but one length and number.
    pub fn loose(random: &mut Random) -> Style {
        Style { long: random.between(1, 3), padded: random.between(1, 3) }
    }

    pub fn width(&self, random: &mut Random) -> Width {
        if self.long > 0 && random.once_in(self.long) {
            return random.between(1, 4) as Width;
        }
        0
    }
}

pub fn form(random: &mut Random) -> Form {
    random.pick(&[Form::Embedded, Form::Standalone])
}

/// A tag the table does not list, of one byte or two.
pub fn unlisted(random: &mut Random) -> u16 {
    match random.below(4) {
        0 => random.pick(&[7, 13, 18, 21, 24, 100, 102, 103, 127]),
        1 => random.pick(&[128, 129, 255, 256, 16_382, 16_383]),
        2 => random.between(24, 127) as u16,
        _ => random.between(128, 16_383) as u16,
    }
}

/// A value that its rule allows.
pub fn value(random: &mut Random, rule: &Rule, style: Style) -> Vec<u8> {
    let greatest = rule.greatest;
    let length = match rule.kind {
        Kind::Location => random.pick(&[10, 16, 22]),
        _ if greatest > 128 => free_length(random),
        _ => random.between(rule.least, greatest),
    };
    let mut value = random.bytes(length);
    if rule.is_number() {
        let padded = style.padded > 0 && random.once_in(style.padded);
        let zeros = if padded { random.below(length) } else { 0 };
        value[..zeros].fill(0);
        if rule.kind == Kind::Pixel || length > 1 {
            value[zeros] |= 1 << random.below(8);
        }
    } else if random.once_in(4) {
        value[0] = 0;
    }
    value
}

fn free_length(random: &mut Random) -> usize {
    match random.below(64) {
        0 => random.between(258, 900),
        1..=4 => random.pick(&EDGES),
        5..=20 => random.between(1, 40),
        _ => random.between(1, 6),
    }
}

/// An item of the set or of a pack.
pub fn item(random: &mut Random, set: bool, tag: u16, style: Style) -> Node {
    let rule = if set { set_rule(tag) } else { pack_rule(tag) };
    let value = value(random, rule, style);
    let width = style.width(random);
    Node::Item { tag, width, value }
}

/// Some distinct tags, rising, none of them one of `never`.
fn tags(random: &mut Random, listed: &[u16], never: &[u16], count: usize) -> Vec<u16> {
    let mut tags: Vec<u16> = (0..count)
        .map(|_| match random.below(8) {
            0..=5 => random.pick(listed),
            _ => unlisted(random),
        })
        .filter(|tag| !never.contains(tag))
        .collect();
    if random.once_in(40) {
        tags.extend((0..random.between(20, 300)).map(|_| random.between(128, 16_383) as u16));
    }
    tags.sort_unstable();
    tags.dedup();
    tags
}

/// Gives one of 19 and 20 the other, or takes it away; the tags are rising.
fn pair(random: &mut Random, tags: &mut Vec<u16>) {
    if tags.contains(&19) == tags.contains(&20) {
        return;
    }
    tags.retain(|tag| !CENTROID.contains(tag));
    if !random.once_in(3) {
        let at = tags.partition_point(|&tag| tag < 19);
        tags.splice(at..at, CENTROID);
    }
}

/// An id of so many bytes, 1 to 9.
pub fn id_of_width(random: &mut Random, width: usize) -> u64 {
    let least = if width == 1 { 0 } else { 1 << (7 * (width - 1)) };
    let span = (1u64 << (7 * width)) - least;
    match random.below(8) {
        0 => least,
        1 => least + span - 1,
        _ => least + random.number() % span,
    }
}

/// Some distinct ids in one of the orders.
pub fn ids(random: &mut Random, count: usize) -> Vec<u64> {
    let first = random.number() % 1_000;
    let mode = random.below(4);
    let width = random.between(1, 9);
    let mut ids: Vec<u64> = (0..count as u64)
        .map(|index| match mode {
            0 => first + index,
            1 => id_of_width(random, width),
            _ => {
                let width = random.between(1, 9);
                id_of_width(random, width)
            }
        })
        .collect();
    ids.sort_unstable();
    ids.dedup();
    random.order(&mut ids);
    ids
}

pub fn pack(random: &mut Random, form: Form, id: u64, most: usize, style: Style) -> Node {
    let mut listed = PACK_TAGS.to_vec();
    let mut never = Vec::new();
    match form {
        Form::Embedded => listed.extend(OFFSET_TAGS),
        Form::Standalone => never.extend(OFFSET_TAGS),
    }
    let count = random.between(0, most);
    let mut tags = tags(random, &listed, &never, count);
    pair(random, &mut tags);
    random.order(&mut tags);
    if form == Form::Standalone && !tags.contains(&17) {
        tags.insert(random.below(tags.len() + 1), 17);
    }
    let items = tags.iter().map(|&tag| item(random, false, tag, style)).collect();
    let width = style.width(random);
    Node::Pack { width, id, items }
}

pub fn series(random: &mut Random, form: Form, style: Style) -> Node {
    let (count, most) = match random.below(32) {
        0 => (random.between(100, 300), 0),
        1..=4 => (random.between(7, 40), 4),
        _ => (random.between(1, 6), 8),
    };
    let ids = ids(random, count);
    let packs = ids.iter().map(|&id| pack(random, form, id, most, style)).collect();
    let width = style.width(random);
    Node::Series { width, packs }
}

/// A set's items and, more often than not, a series among them.
fn set(random: &mut Random, form: Form, style: Style) -> Vec<Node> {
    let count = random.between(0, 9);
    let mut never = vec![1, 101];
    if form == Form::Standalone {
        never.push(2);
    }
    let mut tags = tags(random, &SET_TAGS, &never, count);
    if random.once_in(8) {
        // In the set these are tags like any other: each may stand alone.
        tags.extend([17, 19, 20].iter().filter(|_| random.once_in(2)));
        tags.sort_unstable();
    }
    random.order(&mut tags);
    let mut set: Vec<Node> = tags.iter().map(|&tag| item(random, true, tag, style)).collect();
    if random.below(4) < 3 {
        let series = series(random, form, style);
        set.insert(random.below(set.len() + 1), series);
    }
    if form == Form::Standalone {
        set.insert(0, item(random, true, 2, style));
    }
    set
}

/// A tree whose packet is accepted.
pub fn tree(random: &mut Random, form: Form, style: Style) -> Tree {
    let mut tree = Tree::new(form);
    tree.outer = Outer::Width(style.width(random));
    tree.set = set(random, form, style);
    while tree.bytes().len() > PACKET_LIMIT {
        tree.set.pop();
    }
    tree
}
