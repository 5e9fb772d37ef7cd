//! Packets to add a target to or to drop one from: of no target, of one or
//! of many, with set tag 6 in every shape.

use super::random::{self, Random};
use super::sheets::push_pack;
use super::tree::{Node, Tree};
use super::valid::{self, Style, NORMAL};
use crate::coding::{shortest, ID_LIMIT};
use crate::packet::Form;
use crate::PACKET_LIMIT;

/// How set tag 6 stands.
#[derive(Clone, Copy, PartialEq)]
enum Reported {
    Absent,
    Right,
    Wrong,
    /// With leading zeros.
    Padded,
    /// With a long length.
    Long,
}

const REPORTED: [Reported; 5] =
    [Reported::Right, Reported::Absent, Reported::Wrong, Reported::Padded, Reported::Long];

/// Bytes left free for a target to come.
const FREE: usize = 400;

/// A packet of so many targets, and set tag 6 in one of its shapes in turn.
pub fn scene(random: &mut Random, form: Form, count: usize, turn: u64) -> Tree {
    let style = if random.once_in(4) { NORMAL } else { Style::loose(random) };
    let mut tree = valid::tree(random, form, style);
    tree.set.retain(|node| !matches!(node.tag(), 6 | 101));
    while tree.bytes().len() > PACKET_LIMIT / 4 && tree.set.len() > 1 {
        tree.set.pop();
    }
    if count > 0 {
        let series = series(random, form, count, style);
        insert(random, &mut tree, series);
    }
    while tree.bytes().len() > PACKET_LIMIT - FREE {
        match tree.packs() {
            Some(packs) if packs.len() > 1 => _ = packs.pop(),
            // One that is too long alone gets fewer items.
            Some(packs) => *packs = vec![valid::pack(random, form, 3, 2, NORMAL)],
            None => _ = tree.set.pop(),
        }
    }
    report(random, &mut tree, turn, style);
    tree
}

/// How many targets a scene has, in turn.
pub fn count(random: &mut Random, turn: u64) -> usize {
    match turn % 8 {
        0 => 0,
        1 | 2 => 1,
        3 => 2,
        4 | 5 => random.between(3, 9),
        6 => random.pick(&[10, 40, 126, 127, 128, 129]),
        _ => random.pick(&[254, 255, 256, 257]),
    }
}

/// So many targets, small ones where they are many.
fn series(random: &mut Random, form: Form, count: usize, style: Style) -> Node {
    let width = style.width(random);
    if count < 10 {
        let ids = valid::ids(random, count);
        let packs = ids.iter().map(|&id| valid::pack(random, form, id, 6, style)).collect();
        return Node::Series { width, packs };
    }
    let first = random.pick(&[0, 1, 100, 16_000]);
    let mut ids: Vec<u64> = (first..first + count as u64).collect();
    random.order(&mut ids);
    let pack = |id| {
        let located = form == Form::Standalone || random.once_in(16);
        let items = if located { vec![Node::item(17, &[7; 10])] } else { Vec::new() };
        let width = if random.once_in(9) { style.width(random) } else { 0 };
        Node::Pack { width, id, items }
    };
    Node::Series { width, packs: ids.into_iter().map(pack).collect() }
}

/// Puts a node into the set, at its end often, but never before a time stamp
/// that must be first.
pub fn insert(random: &mut Random, tree: &mut Tree, node: Node) {
    let least = usize::from(tree.form == Form::Standalone);
    let at = match random.once_in(3) {
        true => tree.set.len(),
        false => random.between(least, tree.set.len()),
    };
    tree.set.insert(at, node);
}

/// Gives the set a tag 6 in one of its shapes, or none.
pub fn report(random: &mut Random, tree: &mut Tree, turn: u64, style: Style) {
    let shape = random::turn(&REPORTED, turn);
    if shape == Reported::Absent {
        return;
    }
    let count = tree.ids().len() as u32;
    let wrong = [count + 1, count.saturating_sub(1), 0, 1, 255, 256, 65_536, 0xFF_FFFF];
    let right = shape == Reported::Right || shape != Reported::Wrong && random.once_in(2);
    let number = if right { count } else { random.pick(&wrong) }.to_be_bytes();
    let value = match shape {
        Reported::Padded => number[random.pick(&[1, 2])..].to_vec(),
        Reported::Long if random.once_in(4) => number[1..].to_vec(),
        _ => shortest(&number).to_vec(),
    };
    let width = match shape {
        Reported::Long => random.between(1, 4) as u8,
        _ => style.width(random),
    };
    insert(random, tree, Node::Item { tag: 6, width, value });
}

/// An id that no target has.
pub fn fresh_id(random: &mut Random, tree: &Tree) -> u64 {
    let ids = tree.ids();
    let next = ids.iter().max().map_or(1, |id| id + 1);
    let width = random.between(1, 9);
    let mut id = match random.below(6) {
        0 | 1 => next,
        2 => random.pick(&[0, 1, 127, 128, 16_383, 16_384, ID_LIMIT - 1]),
        _ => valid::id_of_width(random, width),
    };
    while id >= ID_LIMIT || ids.contains(&id) {
        let width = random.between(3, 9);
        id = valid::id_of_width(random, width);
    }
    id
}

/// The records of a target, one by one.
pub type Records = Vec<Vec<u8>>;

/// The records of a pack.
pub fn records(pack: &Node) -> Records {
    let mut out = Vec::new();
    push_pack(pack, &mut out);
    out
}

/// How much room to lend where so many bytes are needed: more than enough,
/// or about as much, or too little.
pub fn lend(random: &mut Random, needed: usize) -> usize {
    match random.below(10) {
        0 => needed,
        1 => needed.saturating_sub(1),
        2 => needed + 1,
        3 => random.below(40),
        _ => PACKET_LIMIT,
    }
}

/// What an answer in no room says is needed.
pub fn needed(answer: crate::Answer) -> usize {
    match answer {
        Err(refusal) if refusal.number == crate::refusal::TOO_SHORT => refusal.place,
        _ => 0,
    }
}
