//! Faults put into a tree on purpose, by the number of the refusal they lead
//! to unless another fault comes before.

use super::breach::*;
use super::random::Random;
use super::tree::{push_length, Node, Outer, Tail, Tree};
use super::valid::{self, PACK_TAGS, SET_TAGS};
use crate::packet::Form;
use crate::PACKET_LIMIT;

/// The refusals that a packet alone can lead to; 20 has many places.
pub const NUMBERS: [u8; 18] = [1, 2, 3, 4, 5, 6, 7, 8, 9, 10, 11, 12, 13, 14, 15, 20, 20, 20];

/// Puts one fault into a tree that was accepted.
pub fn damage(random: &mut Random, tree: &mut Tree, number: u8) {
    match number {
        1 => over_limit(random, tree),
        2 => key(random, tree),
        3 => cut(random, tree),
        4 => tag(random, tree),
        5 => length(random, tree),
        6 => past_end(random, tree),
        7 => empty(random, tree),
        8 => id(random, tree),
        9 => tag_repeated(random, tree),
        10 => id_repeated(random, tree),
        11 => length_not_allowed(random, tree),
        12 => pixel_zero(random, tree),
        13 => may_not_stand(random, tree),
        14 => missing(random, tree),
        20 => lone(random, tree),
        _ => wrong_sum(random, tree),
    }
}

/// The packs of a tree, which gets a series if it has none.
pub(super) fn packs<'a>(random: &mut Random, tree: &'a mut Tree) -> &'a mut Vec<Node> {
    if tree.packs().is_none() {
        let series = valid::series(random, tree.form, valid::NORMAL);
        tree.set.push(series);
    }
    tree.packs().expect("a series stands there")
}

/// The items of some pack.
pub(super) fn pack<'a>(random: &mut Random, tree: &'a mut Tree) -> &'a mut Vec<Node> {
    let packs = packs(random, tree);
    if !packs.iter().any(|node| matches!(node, Node::Pack { .. })) {
        packs.push(Node::Pack { width: 0, id: 5, items: Vec::new() });
    }
    let mut choices: Vec<&mut Vec<Node>> = packs
        .iter_mut()
        .filter_map(|node| match node {
            Node::Pack { items, .. } => Some(items),
            _ => None,
        })
        .collect();
    let chosen = random.below(choices.len());
    choices.swap_remove(chosen)
}

/// Some level: whether it is the set, and its items.
pub(super) fn level<'a>(random: &mut Random, tree: &'a mut Tree) -> (bool, &'a mut Vec<Node>) {
    match random.once_in(2) {
        true => (true, &mut tree.set),
        false => (false, pack(random, tree)),
    }
}

/// Puts a node somewhere in a level, most often not before its first.
pub(super) fn insert(random: &mut Random, nodes: &mut Vec<Node>, node: Node) {
    let least = usize::from(!nodes.is_empty() && !random.once_in(6));
    let at = random.between(least, nodes.len());
    nodes.insert(at, node);
}

fn over_limit(random: &mut Random, tree: &mut Tree) {
    let beyond = random.pick(&[0, 1, 5, 900]);
    let missing = (PACKET_LIMIT + beyond).saturating_sub(tree.bytes().len());
    let value = random.bytes(missing.max(1));
    tree.set.push(Node::item(13, &value));
}

fn key(random: &mut Random, tree: &mut Tree) {
    if random.once_in(3) {
        *tree = Tree { set: Vec::new(), outer: Outer::Raw(Vec::new()), ..tree.clone() };
        tree.tail = Tail::Raw(Vec::new());
        tree.key.truncate(random.below(16));
    } else {
        let at = random.below(tree.key.len());
        tree.key[at] ^= 1 << random.below(8);
    }
    tree.form = Form::Standalone;
}

/// 3: at the end of the set, of a pack, of a series, or in the outer length.
fn cut(random: &mut Random, tree: &mut Tree) {
    let two_bytes = [0x81 + random.byte() % 0x7F, random.byte() & 0x7F];
    let tag = 24 + random.byte() % 70;
    let item = random.pick(&[
        two_bytes[..1].to_vec(),
        vec![0x80],
        two_bytes.to_vec(),
        vec![tag],
        vec![tag, 0x81],
        vec![tag, 0x82, 0],
        vec![tag, 0x84, 0, 0, 0],
        vec![1, 0x81],
    ]);
    match random.below(5) {
        0 if tree.form == Form::Standalone => {
            *tree = Tree { set: Vec::new(), tail: Tail::Raw(Vec::new()), ..tree.clone() };
            tree.outer =
                Outer::Raw(random.pick(&[vec![], vec![0x81], vec![0x82, 0], vec![0x84, 0, 0, 0]]));
        }
        0 | 1 if tree.form == Form::Standalone => tree.tail = Tail::Raw(item),
        0 | 1 => tree.set.push(Node::Raw(item)),
        2 => {
            let pack = cut_pack(random);
            packs(random, tree).push(Node::Raw(pack));
        }
        _ => pack(random, tree).push(Node::Raw(item)),
    }
}

/// A pack whose length or id is cut by its own end or the series'.
fn cut_pack(random: &mut Random) -> Vec<u8> {
    let eight = [vec![8], vec![0xFF; 8]].concat();
    random.pick(&[vec![0x81], vec![0x83, 0], vec![0], vec![1, 0x80], vec![2, 0x85, 0x80], eight])
}

fn tag(random: &mut Random, tree: &mut Tree) {
    let low = random.byte();
    let bytes = random.pick(&[
        vec![0x80, low, 1, 1],
        vec![0x80, 5, 1, 2],
        vec![0, 1, 1],
        vec![0],
        vec![0x81 + low % 0x7F, 0x80 | low, 5, 1, 2],
    ]);
    let (_, nodes) = level(random, tree);
    insert(random, nodes, Node::Raw(bytes));
}

fn length(random: &mut Random, tree: &mut Tree) {
    let bad = random.pick(&[0x80, 0x85, 0x86, 0xFF]);
    let tag = 24 + random.byte() % 70;
    match random.below(5) {
        0 if tree.form == Form::Standalone => tree.outer = Outer::Raw(vec![bad]),
        0 | 1 => {
            let sum = random.pick(&[
                vec![1, 0x81, 2, 0, 0],
                vec![1, 0x82, 0, 2, 0, 0],
                vec![1, 0x81, 255],
            ]);
            match tree.form {
                Form::Embedded => insert(random, &mut tree.set, Node::Raw(sum)),
                Form::Standalone => tree.tail = Tail::Raw(sum),
            }
        }
        2 => {
            let packs = packs(random, tree);
            insert(random, packs, Node::Raw(vec![bad, 1, 7]));
        }
        _ => {
            let (_, nodes) = level(random, tree);
            let rest = random.below(3);
            let bytes = [vec![tag, bad], vec![1; rest]].concat();
            insert(random, nodes, Node::Raw(bytes));
        }
    }
}

fn past_end(random: &mut Random, tree: &mut Tree) {
    let tag = 24 + random.byte() % 70;
    let long =
        random.pick(&[vec![0x84, 255, 255, 255, 255], vec![0x83, 1, 0, 0], vec![0x82, 0x20, 0]]);
    match random.below(4) {
        0 if tree.form == Form::Standalone => tree.outer = Outer::Off(random.pick(&[-1, 1, 300])),
        0 | 1 => {
            let packs = packs(random, tree);
            packs.push(Node::Raw(random.pick(&[vec![2, 7], long, vec![5, 7, 4, 1, 1]])));
        }
        2 => {
            let (_, nodes) = level(random, tree);
            insert(random, nodes, Node::Raw([vec![tag], long, vec![1]].concat()));
        }
        _ => {
            let nodes = pack(random, tree);
            nodes.push(Node::Raw(random.pick(&[vec![tag, 1], vec![tag, 3, 1, 1]])));
        }
    }
}

fn empty(random: &mut Random, tree: &mut Tree) {
    let (set, nodes) = level(random, tree);
    let listed: &[u16] = if set { &SET_TAGS } else { &PACK_TAGS };
    let tag = match random.below(4) {
        0 => 101,
        1 => valid::unlisted(random),
        _ => random.pick(listed),
    };
    let node = Node::Item { tag, width: random.pick(&[0, 0, 1, 2]), value: Vec::new() };
    insert(random, nodes, node);
}

fn id(random: &mut Random, tree: &mut Tree) {
    let packs = packs(random, tree);
    let last = random.byte() & 0x7F;
    let id = random.pick(&[
        vec![0x80, last],
        vec![0x80, 0x81, last],
        [vec![0xFF; 9], vec![last]].concat(),
        vec![0xFF; 9],
        vec![0x80; 9],
    ]);
    let mut bytes = Vec::new();
    push_length(&mut bytes, id.len(), random.pick(&[0, 1]));
    bytes.extend(id);
    insert(random, packs, Node::Raw(bytes));
}
