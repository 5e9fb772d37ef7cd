//! Faults against the rules between items and against the table, 9 to 15
//! and 20.

use super::damage::{insert, level, pack, packs};
use super::random::Random;
use super::tree::{Node, Tail, Tree};
use super::valid::{self, item, CENTROID, OFFSET_TAGS, PACK_TAGS, SET_TAGS};
use crate::packet::Form;
use crate::table::{pack_rule, set_rule, Rule};

pub(super) fn tag_repeated(random: &mut Random, tree: &mut Tree) {
    if random.once_in(6) {
        let series = valid::series(random, tree.form, valid::NORMAL);
        packs(random, tree);
        return insert(random, &mut tree.set, series);
    }
    let (set, nodes) = level(random, tree);
    if nodes.is_empty() {
        nodes.push(Node::item(24, &[1]));
    }
    let tag = random.pick(nodes).tag().max(2);
    let again = match random.below(3) {
        _ if set && tag == 101 => Node::Raw(vec![101, 1, 0]),
        0 => Node::item(tag, &[1]),
        _ => item(random, set, tag, valid::NORMAL),
    };
    insert(random, nodes, again);
}

pub(super) fn id_repeated(random: &mut Random, tree: &mut Tree) {
    packs(random, tree);
    let ids = tree.ids();
    let id = if ids.is_empty() { 5 } else { random.pick(&ids) };
    let again = match random.once_in(2) {
        true => Node::Pack { width: 0, id, items: Vec::new() },
        false => valid::pack(random, tree.form, id, 3, valid::NORMAL),
    };
    let packs = packs(random, tree);
    insert(random, packs, again);
}

/// A length just outside what the rule allows.
fn wrong_length(random: &mut Random, rule: &Rule) -> usize {
    let (least, greatest) = (rule.least, rule.greatest);
    let choices = [greatest + 1, greatest + 2, least.saturating_sub(1), least / 2, 11, 13, 17];
    let wrong: Vec<usize> =
        choices.into_iter().filter(|&length| length > 0 && !rule.allows(length)).collect();
    random.pick(&wrong)
}

pub(super) fn length_not_allowed(random: &mut Random, tree: &mut Tree) {
    let (set, nodes) = level(random, tree);
    let tag = random.pick(if set { &SET_TAGS[..] } else { &PACK_TAGS[..] });
    let rule = if set { set_rule(tag) } else { pack_rule(tag) };
    let length = wrong_length(random, rule);
    let value = random.bytes(length);
    replace(random, nodes, Node::item(tag, &value));
}

pub(super) fn pixel_zero(random: &mut Random, tree: &mut Tree) {
    let tag = random.pick(&[1, 2, 3, 19, 20]);
    let greatest = pack_rule(tag).greatest;
    let value = vec![0; random.between(1, greatest)];
    let nodes = pack(random, tree);
    replace(random, nodes, Node::item(tag, &value));
}

/// Puts an item over the one with its tag, else somewhere new.
fn replace(random: &mut Random, nodes: &mut Vec<Node>, node: Node) {
    match nodes.iter().position(|other| other.tag() == node.tag()) {
        Some(at) => nodes[at] = node,
        None => insert(random, nodes, node),
    }
}

pub(super) fn may_not_stand(random: &mut Random, tree: &mut Tree) {
    if tree.form == Form::Standalone && random.once_in(2) {
        let tag = random.pick(&OFFSET_TAGS);
        let length = random.pick(&[3, 3, 3, 1, 4]);
        let value = random.bytes(length);
        let nodes = pack(random, tree);
        return insert(random, nodes, Node::item(tag, &value));
    }
    let value = random.pick(&[vec![0, 0], vec![0], vec![1, 2, 3]]);
    insert(random, &mut tree.set, Node::item(1, &value));
}

pub(super) fn missing(random: &mut Random, tree: &mut Tree) {
    if tree.form == Form::Embedded {
        tree.form = Form::Standalone;
        return;
    }
    match random.below(4) {
        0 => tree.tail = Tail::Raw(Vec::new()),
        1 if !tree.set.is_empty() => {
            tree.set.remove(0);
        }
        2 => {
            let other = valid::unlisted(random).max(2);
            tree.set.insert(0, Node::item(if other == 101 { 3 } else { other }, &[7, 7]));
        }
        _ => {
            let nodes = pack(random, tree);
            nodes.retain(|node| node.tag() != 17);
        }
    }
}

/// One of 19 and 20 without the other, with tag 17 or not, and sometimes a
/// fault that comes later.
pub(super) fn lone(random: &mut Random, tree: &mut Tree) {
    let style = random.pick(&[valid::NORMAL, valid::Style { long: 2, padded: 2 }]);
    let nodes = pack(random, tree);
    nodes.retain(|node| !CENTROID.contains(&node.tag()));
    let place = random.below(3);
    if place < 2 {
        nodes.retain(|node| node.tag() != 17);
    }
    if place == 1 {
        let node = item(random, false, 17, style);
        insert(random, nodes, node);
    }
    let tag = random.pick(&CENTROID);
    let node = item(random, false, tag, style);
    insert(random, nodes, node);
    match random.below(8) {
        0 => nodes.push(Node::Raw(random.pick(&[vec![24], vec![0], vec![24, 0]]))),
        1 => {
            let bad = random.pick(&[vec![0x80], vec![0], vec![1, 0x80], vec![9, 1]]);
            packs(random, tree).push(Node::Raw(bad));
        }
        2 => tree.set.push(Node::Raw(random.pick(&[vec![0], vec![5, 0], vec![1, 0x81]]))),
        3 => wrong_sum(random, tree),
        _ => {}
    }
}

pub(super) fn wrong_sum(random: &mut Random, tree: &mut Tree) {
    tree.tail = Tail::Sum(1 << random.below(16));
}
