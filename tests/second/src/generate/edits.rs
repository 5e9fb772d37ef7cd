//! Edits, most of them of accepted packets that are not in normal form.

use super::packets::{mutated, refused};
use super::random::{self, Random};
use super::tree::{Node, Outer, Tree};
use super::valid::{self, Style, CENTROID, EDGES, NORMAL, OFFSET_TAGS, PACK_TAGS, SET_TAGS};
use super::{damage, limits, EditCase, PacketCase};
use crate::packet::Form;
use crate::table::{pack_rule, set_rule, Kind, Rule};
use crate::{Level, PACKET_LIMIT};

/// The refusals of the edit's own rules.
const NUMBERS: [u8; 9] = [1, 7, 11, 12, 13, 14, 18, 19, 20];

/// Which kind of edit an index stands for.
pub fn edit(seed: u64, index: u64) -> EditCase {
    let random = &mut Random::new(seed, 3, index);
    let form = valid::form(random);
    match index % 16 {
        0..=6 => anywhere(random, form),
        7 | 8 => pack_edge(random, form),
        9 => series_edge(random, form),
        10 => outer_edge(random),
        11 | 12 => near_limit(random, form),
        13 | 14 => own_refusal(random, form, random::turn(&NUMBERS, index / 16)),
        _ => packet_refused(random, form, index / 16),
    }
}

/// The rule of a tag at a level.
pub fn rule(level: Level, tag: u16) -> &'static Rule {
    match level {
        Level::Set => set_rule(tag),
        Level::Target(_) => pack_rule(tag),
    }
}

/// An accepted packet, most often out of normal form.
pub fn tree(random: &mut Random, form: Form) -> Tree {
    let style = if random.once_in(4) { NORMAL } else { Style::loose(random) };
    valid::tree(random, form, style)
}

fn case(tree: &Tree, level: Level, tag: u64, value: Option<Vec<u8>>) -> EditCase {
    EditCase { form: tree.form, packet: tree.bytes(), level, tag, value }
}

/// The set or one of the targets, the first and last often.
pub fn level(random: &mut Random, tree: &Tree) -> Level {
    let ids = tree.ids();
    let (Some(&first), Some(&last)) = (ids.first(), ids.last()) else {
        return Level::Set;
    };
    match random.below(12) {
        0..=4 => Level::Set,
        5 => Level::Target(first),
        6 => Level::Target(last),
        _ => Level::Target(random.pick(&ids)),
    }
}

/// The tags that stand at a level.
pub fn standing(tree: &mut Tree, level: Level) -> Vec<u16> {
    let nodes = match level {
        Level::Set => Some(&mut tree.set),
        Level::Target(id) => tree.target(id),
    };
    nodes.map_or(Vec::new(), |nodes| nodes.iter().map(Node::tag).collect())
}

/// A tag that stands there (its first and last often), or some other.
pub fn tag(random: &mut Random, level: Level, standing: &[u16]) -> u16 {
    let listed: &[u16] = if level == Level::Set { &SET_TAGS } else { &PACK_TAGS };
    match random.below(12) {
        0 if !standing.is_empty() => standing[0],
        1 if !standing.is_empty() => standing[standing.len() - 1],
        2..=6 if !standing.is_empty() => random.pick(standing),
        7 => valid::unlisted(random),
        8 if level != Level::Set => random.pick(&OFFSET_TAGS),
        _ => random.pick(listed),
    }
}

/// A value to put that its rule allows, padded if it is a number.
pub fn value(random: &mut Random, level: Level, tag: u16) -> Vec<u8> {
    match rule(level, tag) {
        rule if rule.kind == Kind::Series => vec![1],
        rule => valid::value(random, rule, Style { long: 0, padded: 2 }),
    }
}

/// A value to put or a removal, sometimes one that is refused.
pub fn change(random: &mut Random, level: Level, tag: u16) -> Option<Vec<u8>> {
    match random.below(16) {
        0..=4 => None,
        5 => {
            let length = random.below(24);
            Some(random.bytes(length))
        }
        6 => Some(vec![0; random.below(8)]),
        _ => Some(value(random, level, tag)),
    }
}

fn anywhere(random: &mut Random, form: Form) -> EditCase {
    let mut tree = tree(random, form);
    any_of(random, &mut tree)
}

fn any_of(random: &mut Random, tree: &mut Tree) -> EditCase {
    let level = level(random, tree);
    let standing = standing(tree, level);
    let tag = tag(random, level, &standing);
    let value = change(random, level, tag);
    case(tree, level, u64::from(tag), value)
}

/// A small put or removal in packs of about 127 or 255 bytes.
fn pack_edge(random: &mut Random, form: Form) -> EditCase {
    let mut tree = limits::edges(random, form);
    let ids = tree.ids();
    let level = Level::Target(random.pick(&ids));
    match random.below(6) {
        0 => case(&tree, level, 9, None),
        1 => case(&tree, level, 18, None),
        2 => {
            let length = random.pick(&EDGES) - random.below(20);
            let value = random.bytes(length);
            case(&tree, level, 18, Some(value))
        }
        3 => any_of(random, &mut tree),
        _ => {
            let tag = random.pick(&[4, 6, 9, 12, 22, 200]);
            let value = value(random, level, tag);
            case(&tree, level, u64::from(tag), Some(value))
        }
    }
}

/// An edit in a series of about 127 or 255 bytes.
fn series_edge(random: &mut Random, form: Form) -> EditCase {
    let style = Style::any(random);
    let mut tree = Tree::new(form);
    if form == Form::Standalone {
        tree.set.push(valid::item(random, true, 2, style));
    }
    let total = random.pick(&EDGES) + random.below(4);
    let packs = (1..4).map(|id| valid::pack(random, form, id, 1, style)).collect();
    tree.set.push(Node::Series { width: style.width(random), packs });
    let have = tree.packs().map_or(0, |packs| super::tree::all(packs).len());
    let length = total.saturating_sub(have + 4);
    if length > 0 {
        let value = random.bytes(length);
        if let Some(items) = tree.target(2) {
            items.retain(|node| node.tag() != 300);
            items.push(Node::item(300, &value));
        }
    }
    any_of(random, &mut tree)
}

/// An edit in a standalone packet whose outer length is at an edge.
fn outer_edge(random: &mut Random) -> EditCase {
    let total = 17 + random.pick(&EDGES) + random.below(4);
    let mut tree = limits::of_size(random, Form::Standalone, total);
    tree.outer = Outer::Width(random.pick(&[0, 0, 1, 2, 4]));
    any_of(random, &mut tree)
}

/// An edit whose result has about 8,192 bytes.
fn near_limit(random: &mut Random, form: Form) -> EditCase {
    let total = PACKET_LIMIT - random.below(16);
    let mut tree = limits::of_size(random, form, total);
    let level = level(random, &tree);
    if random.once_in(4) {
        return any_of(random, &mut tree);
    }
    let standing = standing(&mut tree, level);
    let tag = match random.once_in(3) {
        true => random.pick(&[24, 300]),
        false => tag(random, level, &standing),
    };
    let length = (PACKET_LIMIT + 4 - random.below(4)).saturating_sub(tree.bytes().len());
    let value = match random.once_in(2) {
        true => random.bytes(length),
        false => value(random, level, tag),
    };
    case(&tree, level, u64::from(tag), Some(value))
}

/// An edit that its own rules refuse, by number.
fn own_refusal(random: &mut Random, form: Form, number: u8) -> EditCase {
    let form = if matches!(number, 13 | 14) { Form::Standalone } else { form };
    let mut tree = tree(random, form);
    if tree.packs().is_none() {
        let series = valid::series(random, form, NORMAL);
        tree.set.push(series);
    }
    let ids = tree.ids();
    let target = Level::Target(random.pick(&ids));
    let level = level(random, &tree);
    let listed = if level == Level::Set { &SET_TAGS[..] } else { &PACK_TAGS[..] };
    let tag = random.pick(listed);
    let (level, tag, value) = match number {
        1 => (level, 300, Some(vec![0; random.pick(&[PACKET_LIMIT, 65_535, 65_536, 70_000])])),
        7 => (level, u64::from(tag), Some(Vec::new())),
        11 => (level, u64::from(tag), Some(vec![0; random.pick(&[7, 11, 129])])),
        12 => (target, random.pick(&[1, 2, 3, 19, 20]), Some(vec![0; random.between(1, 4)])),
        13 => (target, u64::from(random.pick(&OFFSET_TAGS)), Some(vec![1; random.between(1, 3)])),
        14 => random.pick(&[(Level::Set, 2, None), (target, 17, None)]),
        18 => absent(random, level, target),
        20 => lone(random, &mut tree, target),
        _ => not_editable(random, level),
    };
    case(&tree, level, tag, value)
}

type Named = (Level, u64, Option<Vec<u8>>);

fn absent(random: &mut Random, level: Level, target: Level) -> Named {
    let id = random.pick(&[999_999_999_999, (1 << 63) - 3, 1 << 63, u64::MAX]);
    random.pick(&[
        (level, 9_999, None),
        (target, 10, None),
        (Level::Target(id), 4, None),
        (Level::Target(id), 4, Some(vec![1])),
        (Level::Target(id), 19, Some(Vec::new())),
    ])
}

/// One of 19 and 20 put where neither stands, or removed where both do.
fn lone(random: &mut Random, tree: &mut Tree, target: Level) -> Named {
    let tag = random.pick(&CENTROID);
    let stands = standing(tree, target).contains(&tag);
    let value = (!stands).then(|| value(random, target, tag));
    (target, u64::from(tag), value)
}

fn not_editable(random: &mut Random, level: Level) -> Named {
    let value = random.pick(&[None, Some(vec![1, 2]), Some(Vec::new())]);
    match random.once_in(2) {
        true => (Level::Set, random.pick(&[1, 101]), value),
        false => (level, random.pick(&[0, 16_384, 65_537, 1 << 40, u64::MAX]), value),
    }
}

/// A packet that is refused.
pub fn bad_packet(random: &mut Random, form: Form, turn: u64) -> PacketCase {
    match turn % 4 {
        0 => mutated(random, form),
        _ => {
            let number = random.pick(&damage::NUMBERS);
            refused(random, form, number)
        }
    }
}

/// An edit of a packet that is itself refused, its own rules broken or not.
fn packet_refused(random: &mut Random, form: Form, turn: u64) -> EditCase {
    let packet = bad_packet(random, form, turn);
    let level = random.pick(&[Level::Set, Level::Target(1), Level::Target(u64::MAX)]);
    let tag = random.pick(&[0, 2, 4, 5, 17, 19, 20_000]);
    let value = random.pick(&[None, Some(vec![1]), Some(Vec::new())]);
    EditCase { form: packet.form, packet: packet.bytes, level, tag, value }
}
