//! Targets to drop: the first, one in the middle, the last, the only one, and
//! some that are not there.

use super::edits::bad_packet;
use super::limits::{falling, most_packs};
use super::random::Random;
use super::targets::{count, fresh_id, lend, needed, report, scene};
use super::tree::Tree;
use super::valid::{self, NORMAL};
use super::{target_edges, DropTargetCase};
use crate::packet::Form;
use crate::PACKET_LIMIT;

/// Which kind of drop an index stands for.
pub fn drop_target(seed: u64, index: u64) -> DropTargetCase {
    let random = &mut Random::new(seed, 7, index);
    let form = valid::form(random);
    let turn = index / 16;
    let mut case = match index % 16 {
        0..=5 => standing(random, form, turn + index % 16),
        6 | 7 => only(random, form, turn),
        8 => target_edges::dropped_series(random, form),
        9 => target_edges::dropped_outer(random),
        10 => target_edges::dropped_limit(random, form),
        11 => most(random, turn),
        12..=14 => absent(random, form, turn),
        _ => packet_refused(random, form, turn),
    };
    let needed = needed(case.answer(&mut []));
    case.room = lend(random, needed);
    case
}

impl DropTargetCase {
    /// The answer in this much room.
    pub(super) fn answer(&self, out: &mut [u8]) -> crate::Answer {
        crate::drop_target(self.form, &self.packet, self.target, out)
    }
}

fn case(tree: &Tree, target: u64) -> DropTargetCase {
    DropTargetCase { form: tree.form, packet: tree.bytes(), target, room: PACKET_LIMIT }
}

/// The first, the last or some other target.
fn one_of(random: &mut Random, tree: &Tree) -> u64 {
    let ids = tree.ids();
    match random.below(4) {
        0 => ids[0],
        1 => ids[ids.len() - 1],
        _ => random.pick(&ids),
    }
}

/// One of two or more targets.
fn standing(random: &mut Random, form: Form, turn: u64) -> DropTargetCase {
    let count = count(random, turn).max(2);
    let tree = scene(random, form, count, turn / 8);
    let target = one_of(random, &tree);
    case(&tree, target)
}

/// The only target: tag 101 goes with it.
fn only(random: &mut Random, form: Form, turn: u64) -> DropTargetCase {
    let tree = scene(random, form, 1, turn);
    let target = one_of(random, &tree);
    case(&tree, target)
}

/// One of as many targets as fit, but for tag 6: thousands, of which the
/// shortest takes two bytes.
fn most(random: &mut Random, turn: u64) -> DropTargetCase {
    let mut tree = most_packs();
    if random.once_in(2) {
        tree = falling(tree);
    }
    report(random, &mut tree, turn, NORMAL);
    while tree.bytes().len() > PACKET_LIMIT {
        _ = tree.packs().and_then(Vec::pop);
    }
    let target = one_of(random, &tree);
    case(&tree, target)
}

/// A target that is not there, where some are or none.
fn absent(random: &mut Random, form: Form, turn: u64) -> DropTargetCase {
    let count = count(random, turn);
    let tree = scene(random, form, count, turn / 8);
    let ids = tree.ids();
    let near = ids.first().map_or(0, |id| id ^ 1);
    // The same in the low bits as one that stands.
    let high = ids.first().map_or(u64::MAX, |id| id | 1 << 63);
    let choices = [near, high, 1 << 63, u64::MAX, (1 << 63) - 1, 0, fresh_id(random, &tree)];
    case(&tree, random.pick(&choices))
}

/// A drop from a packet that is itself refused.
fn packet_refused(random: &mut Random, form: Form, turn: u64) -> DropTargetCase {
    let packet = bad_packet(random, form, turn);
    let target = random.pick(&[0, 1, 5, 100, 1 << 63, u64::MAX]);
    DropTargetCase { form: packet.form, packet: packet.bytes, target, room: PACKET_LIMIT }
}
