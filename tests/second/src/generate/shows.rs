//! Shows: pairs of packets so related that the named item is often there.

use super::damage::{damage, NUMBERS};
use super::edits::{level, standing, tag};
use super::packets::accepted;
use super::random::Random;
use super::tree::{Node, Tree};
use super::valid::{self, CENTROID, NORMAL};
use super::ShowCase;
use crate::packet::Form;
use crate::Level;

/// A show by its index.
pub fn show(seed: u64, index: u64) -> ShowCase {
    let random = &mut Random::new(seed, 4, index);
    let form = valid::form(random);
    let mut base = accepted(random, form);
    let (mut level, mut tag) = name(random, &mut base);
    if random.once_in(16) {
        let strange = random.number();
        level = random.pick(&[Level::Set, Level::Target(strange), Level::Target(1)]);
        tag = random.pick(&[0, 1, 2, 4, 101, 16_383, 16_384, 65_541, u64::MAX]);
    }
    let reviewer = version(random, &base, index % 16 == 14);
    let detector = version(random, &base, index % 16 == 15);
    ShowCase { form, reviewer, detector, level, tag }
}

/// An item of a tree, or one that could be.
fn name(random: &mut Random, tree: &mut Tree) -> (Level, u64) {
    let level = level(random, tree);
    let mut standing = standing(tree, level);
    if tree.form == Form::Standalone && level == Level::Set {
        standing.push(1);
    }
    match standing.is_empty() || random.once_in(3) {
        true => (level, u64::from(tag(random, level, &standing))),
        false => (level, u64::from(random.pick(&standing))),
    }
}

/// The tree with some items gone, changed or new, or else refused.
fn version(random: &mut Random, tree: &Tree, bad: bool) -> Vec<u8> {
    let mut tree = tree.clone();
    if bad {
        let number = random.pick(&NUMBERS);
        damage(random, &mut tree, number);
        return tree.bytes();
    }
    let standalone = tree.form == Form::Standalone;
    for node in &mut tree.set {
        if let Node::Series { packs, .. } = node {
            packs.iter_mut().for_each(|pack| vary_pack(random, pack, standalone));
            if packs.len() > 1 && random.once_in(3) {
                packs.remove(random.below(packs.len()));
            }
        }
    }
    vary(random, &mut tree.set, true, if standalone { 2 } else { 0 });
    if random.once_in(8) {
        tree.set.retain(|node| node.tag() != 9_000);
        tree.set.push(valid::item(random, true, 9_000, NORMAL));
    }
    tree.bytes()
}

fn vary_pack(random: &mut Random, node: &mut Node, standalone: bool) {
    if let Node::Pack { items, .. } = node {
        vary(random, items, false, if standalone { 17 } else { 0 });
        let stands = CENTROID.map(|tag| items.iter().any(|node| node.tag() == tag));
        if stands[0] != stands[1] {
            items.retain(|node| !CENTROID.contains(&node.tag()));
        }
    }
}

/// Takes some items away, but never the one with a tag that must stand, and
/// gives some others new values.
fn vary(random: &mut Random, nodes: &mut Vec<Node>, set: bool, must: u16) {
    let times = random.pick(&[2, 4, 100]);
    nodes.retain(|node| node.tag() == must || !random.once_in(times));
    for node in nodes {
        if matches!(node, Node::Item { .. }) && random.once_in(4) {
            *node = valid::item(random, set, node.tag(), NORMAL);
        }
    }
}
