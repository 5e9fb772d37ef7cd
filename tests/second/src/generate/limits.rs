//! Packets near the limits: 8,192 bytes, the most items, the most packs, and
//! the lengths at which lengths themselves grow.

use super::random::Random;
use super::tree::{Node, Outer, Tree};
use super::valid::{self, Style, CENTROID, EDGES, NORMAL};
use crate::packet::Form;
use crate::table::{pack_rule, set_rule};
use crate::PACKET_LIMIT;

/// A tree near one of the limits, on either side of it.
pub fn tree(random: &mut Random, form: Form) -> Tree {
    match random.below(14) {
        0 => most_items(),
        1 => most_packs(),
        2 => falling(most_packs()),
        3 => many_packs(random),
        4 => many_tags(random),
        5..=9 => {
            let total = PACKET_LIMIT + 2 - random.below(5);
            of_size(random, form, total)
        }
        _ => edges(random, form),
    }
}

/// A tree whose packet has this many bytes, or nearly so.
pub fn of_size(random: &mut Random, form: Form, total: usize) -> Tree {
    let style = Style::any(random);
    let mut tree = valid::tree(random, form, style);
    if random.once_in(2) {
        while tree.bytes().len() > total / 2 {
            tree.set.pop();
        }
    }
    pad(random, &mut tree, total);
    tree
}

/// Adds or changes an item of set tag 13 so that the packet has this many
/// bytes, or as nearly as the widths of lengths allow.
pub fn pad(random: &mut Random, tree: &mut Tree, total: usize) {
    tree.set.retain(|node| node.tag() != 13);
    while tree.bytes().len() + 6 > total && tree.set.len() > 1 {
        tree.set.pop();
    }
    let at = random.between(tree.set.len().min(1), tree.set.len());
    let width = random.pick(&[0, 0, 0, 2, 4]);
    tree.set.insert(at, Node::Item { tag: 13, width, value: vec![0] });
    stretch(tree, total);
}

/// Makes the item of set tag 13 as long as that takes.
pub fn stretch(tree: &mut Tree, total: usize) {
    for _ in 0..3 {
        let have = tree.bytes().len();
        if let Some(Node::Item { value, .. }) = tree.set.iter_mut().find(|node| node.tag() == 13) {
            let length = (value.len() + total).saturating_sub(have).max(1);
            value.resize(length, 0x5A);
        }
    }
}

/// Values, packs and a series of lengths around 127 and 255.
pub fn edges(random: &mut Random, form: Form) -> Tree {
    let style = Style::any(random);
    let mut tree = Tree::new(form);
    tree.outer = Outer::Width(style.width(random));
    if form == Form::Standalone {
        tree.set.push(valid::item(random, true, 2, NORMAL));
    }
    let count = random.between(1, 4);
    let packs = (0..count as u64).map(|id| edge_pack(random, form, id, style)).collect();
    tree.set.push(Node::Series { width: style.width(random), packs });
    for tag in [10, 13, 300] {
        let mut length = random.pick(&EDGES);
        if tag == 10 {
            length = length.min(128);
        }
        let value = random.bytes(length);
        tree.set.push(Node::Item { tag, width: style.width(random), value });
    }
    tree
}

/// A pack whose length is at an edge, or a little off it.
pub fn edge_pack(random: &mut Random, form: Form, id: u64, style: Style) -> Node {
    let mut tags = vec![9];
    if form == Form::Standalone {
        tags.push(17);
    }
    if random.once_in(2) {
        tags.extend(CENTROID);
    }
    let mut items: Vec<Node> =
        tags.iter().map(|&tag| valid::item(random, false, tag, style)).collect();
    let around = 1 + super::tree::all(&items).len();
    let total = random.pick(&EDGES) + random.below(3);
    let length = total.saturating_sub(around + 2).max(1);
    items.push(Node::item(18, &random.bytes(length)));
    random.shuffle(&mut items);
    Node::Pack { width: style.width(random), id, items }
}

/// As many items as fit: one byte of tag, length and value each, in packs
/// with every tag that one byte suffices for.
pub fn most_items() -> Tree {
    let small = |set: bool| {
        (1..128u16).filter(move |&tag| {
            let rule = if set { set_rule(tag) } else { pack_rule(tag) };
            rule.allows(1) && (!set || tag != 101)
        })
    };
    let mut tree = Tree::new(Form::Embedded);
    tree.set = small(true).map(|tag| Node::item(tag, &[1])).collect();
    tree.set.push(Node::Series { width: 0, packs: Vec::new() });
    let items: Vec<Node> = small(false).map(|tag| Node::item(tag, &[1])).collect();
    loop {
        let have = tree.bytes().len();
        // Length and id of a pack take four bytes, three for a small one.
        let count = items.len().min((PACKET_LIMIT - have).saturating_sub(4) / 3);
        let Some(packs) = tree.packs().filter(|_| count > 0) else {
            return tree;
        };
        let id = packs.len() as u64;
        packs.push(Node::Pack { width: 0, id, items: items[..count].to_vec() });
    }
}

/// As many packs as fit: bare ones, their ids of one byte and then of two.
pub fn most_packs() -> Tree {
    let bare = |id| Node::Pack { width: 0, id, items: Vec::new() };
    let mut tree = Tree::new(Form::Embedded);
    let room = PACKET_LIMIT - 4 - 128 * 2;
    let packs = (0..128 + room as u64 / 3).map(bare).collect();
    tree.set.push(Node::Series { width: 0, packs });
    tree
}

/// The same with its packs the other way round.
pub fn falling(mut tree: Tree) -> Tree {
    if let Some(packs) = tree.packs() {
        packs.reverse();
    }
    tree
}

/// Many bare packs, their ids of three bytes in one of the orders, and
/// sometimes one id twice.
pub fn many_packs(random: &mut Random) -> Tree {
    let count = random.between(500, 2_040);
    let mut ids: Vec<u64> = (0..count).map(|_| valid::id_of_width(random, 3)).collect();
    ids.sort_unstable();
    ids.dedup();
    random.order(&mut ids);
    if random.once_in(3) {
        let again = random.pick(&ids);
        ids.insert(random.below(ids.len()), again);
    }
    let bare = |id| Node::Pack { width: 0, id, items: Vec::new() };
    let mut tree = Tree::new(Form::Embedded);
    let packs = ids.into_iter().map(bare).collect();
    tree.set.push(Node::Series { width: 0, packs });
    tree
}

/// Many items of two-byte tags in one of the orders, sometimes one twice.
pub fn many_tags(random: &mut Random) -> Tree {
    let count = random.between(300, 2_040);
    let mut tags: Vec<u16> = (0..count).map(|_| random.between(128, 16_383) as u16).collect();
    tags.sort_unstable();
    tags.dedup();
    random.order(&mut tags);
    if random.once_in(3) {
        let again = random.pick(&tags);
        tags.insert(random.below(tags.len()), again);
    }
    let mut tree = Tree::new(Form::Embedded);
    tree.set = tags.into_iter().map(|tag| Node::item(tag, &[1])).collect();
    tree
}
