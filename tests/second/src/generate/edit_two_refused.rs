//! Edits of two changes that are refused by one of their own rules: in the
//! first change's turn, in the second's, or on the result of both.

use super::edit_two::{any_two, fine, target, tree_with_targets, Draft, Named};
use super::edits::standing;
use super::random::{self, Random};
use super::tree::Tree;
use super::valid::{self, CENTROID, NORMAL, OFFSET_TAGS, PACK_TAGS, SET_TAGS};
use crate::packet::Form;
use crate::{Level, PACKET_LIMIT};

/// What one change's own rules refuse.
const NUMBERS: [u8; 6] = [7, 11, 12, 13, 18, 19];

/// A packet, a target of it and the tags that stand there.
fn scene(random: &mut Random, form: Form, number: u8) -> (Tree, u64, Vec<u16>) {
    let form = if number == 13 { Form::Standalone } else { form };
    let mut tree = tree_with_targets(random, form);
    let id = target(random, &tree);
    let standing = standing(&mut tree, Level::Target(id));
    (tree, id, standing)
}

/// A change of a target that is refused by this number.
fn faulty(random: &mut Random, number: u8, standing: &[u16]) -> Named {
    let tag = u64::from(random.pick(&PACK_TAGS));
    let zeros = vec![0; random.between(1, 4)];
    match number {
        7 => (tag, Some(Vec::new())),
        11 => (tag, Some(vec![0; random.pick(&[7, 11, 129])])),
        12 => (random.pick(&[1, 2, 3, 19, 20]), Some(zeros)),
        13 => (u64::from(random.pick(&OFFSET_TAGS)), Some(zeros)),
        18 => {
            let absent = [4, 9, 19, 20, 102, 9_999].into_iter();
            let absent: Vec<u16> = absent.filter(|tag| !standing.contains(tag)).collect();
            (u64::from(random.pick(&absent)), None)
        }
        _ => {
            let value = random.pick(&[None, Some(vec![1, 2]), Some(Vec::new())]);
            (random.pick(&[0, 16_384, 65_537, 1 << 40, u64::MAX]), value)
        }
    }
}

/// Any change: refused by some number, or fine.
fn either(random: &mut Random, id: u64, standing: &[u16]) -> Named {
    let number = random.pick(&NUMBERS);
    match random.once_in(2) {
        true => faulty(random, number, standing),
        false => {
            let tag = random.pick(&PACK_TAGS);
            fine(random, Level::Target(id), tag, standing)
        }
    }
}

/// The first change refused, whatever the second: its own number, or 18 for a
/// target that is absent, or a change to the set.
pub fn first(random: &mut Random, form: Form, turn: u64) -> Draft {
    let number = random::turn(&NUMBERS, turn);
    let (tree, id, standing) = scene(random, form, number);
    let first = faulty(random, number, &standing);
    let second = match random.once_in(4) {
        true => first.clone(),
        false => either(random, id, &standing),
    };
    let mut draft = Draft { tree, level: Level::Target(id), changes: [first, second] };
    if number == 18 && random.once_in(2) {
        let id = random.pick(&[999_999_999_999, (1 << 63) - 3, 1 << 63, u64::MAX]);
        let tag = random.pick(&[0, 4, 17, 19]);
        draft.level = Level::Target(id);
        draft.changes[0] = (tag, random.pick(&[None, Some(vec![1]), Some(Vec::new())]));
    }
    if number == 19 && random.once_in(3) {
        draft.level = Level::Set;
        draft.changes[0].0 = random.pick(&[0, 1, 101, 16_384]);
    }
    draft
}

/// The second change refused after a first that is fine, or fine but for the
/// result: one that takes tag 17 or leaves one of 19 and 20 alone.
pub fn second(random: &mut Random, form: Form, turn: u64) -> Draft {
    let number = random::turn(&NUMBERS, turn);
    let (mut tree, id, mut standing) = scene(random, form, number);
    let level = Level::Target(id);
    let tag = random.pick(&[4, 8, 17, 19, 20, 22, 300]);
    let mut first = fine(random, level, tag, &standing);
    if random.once_in(3) {
        if let Some(items) = tree.target(id).filter(|_| !standing.contains(&17)) {
            items.push(valid::item(random, false, 17, NORMAL));
            standing.push(17);
        }
        first = (17, None);
    }
    let mut second = faulty(random, number, &standing);
    if number == 19 && random.once_in(2) {
        // The same tag again, whatever is done to it.
        second.0 = first.0;
    }
    Draft { tree, level, changes: [first, second] }
}

/// Both changes fine and their result refused, by 20, 14 or 1, or the second
/// refused as the set is named.
pub fn result(random: &mut Random, form: Form, turn: u64) -> Draft {
    let (mut tree, id, standing) = scene(random, form, if turn % 5 < 2 { 13 } else { 0 });
    let level = Level::Target(id);
    let mut changes = any_two(random, &mut tree, id, 17);
    let centroid = random.pick(&CENTROID);
    match turn % 5 {
        0 => changes[random.below(2)] = (17, None),
        1 => changes = [(17, None), fine(random, level, centroid, &standing)],
        2 => {
            let tag = random.pick(&[4, 17, 22, 300]);
            changes = [tag, centroid].map(|tag| fine(random, level, tag, &standing));
        }
        3 => {
            let length = random.pick(&[PACKET_LIMIT, 65_535, 65_536, 70_000]);
            changes[random.below(2)] = (300, Some(vec![0; length]));
        }
        _ => return set(random, tree),
    }
    if random.once_in(2) {
        changes.reverse();
    }
    Draft { tree, level, changes }
}

/// Two changes to the set, which has only one.
fn set(random: &mut Random, mut tree: Tree) -> Draft {
    let standing = standing(&mut tree, Level::Set);
    let tags = [random.pick(&[2, 5, 300]), random.pick(&SET_TAGS)];
    let mut changes = tags.map(|tag| fine(random, Level::Set, tag, &standing));
    if random.once_in(4) {
        let turn = random.below(2);
        changes[turn].1 = random.pick(&[None, Some(Vec::new()), Some(vec![0; 129])]);
    }
    Draft { tree, level: Level::Set, changes }
}
