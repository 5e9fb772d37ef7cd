//! Edits of two changes to one target.

use super::edits::{bad_packet, change, standing, tag, tree, value};
use super::random::{self, Random};
use super::tree::{Node, Tree};
use super::valid::{self, CENTROID, NORMAL};
use super::{edit_two_edges, edit_two_refused, EditTwoCase};
use crate::packet::Form;
use crate::refusal::TOO_SHORT;
use crate::{Level, PACKET_LIMIT};

/// Which kind of edit of two changes an index stands for.
pub fn edit_two(seed: u64, index: u64) -> EditTwoCase {
    let random = &mut Random::new(seed, 5, index);
    let form = valid::form(random);
    let turn = index / 16;
    let case = match index % 16 {
        0..=2 => anywhere(random, form).case(),
        3..=5 => placed(random, form, turn).case(),
        6 => centroid(random, form, turn).case(),
        7 => edit_two_edges::pack(random, form).case(),
        8 => edit_two_edges::series(random, form).case(),
        9 => edit_two_edges::outer(random).case(),
        10 => edit_two_edges::limit(random, form).case(),
        11 => edit_two_refused::first(random, form, turn).case(),
        12 | 13 => edit_two_refused::second(random, form, turn).case(),
        14 => edit_two_refused::result(random, form, turn).case(),
        _ => packet_refused(random, form, turn),
    };
    lend(random, case)
}

/// A tag and what to put, nothing for a removal.
pub type Named = (u64, Option<Vec<u8>>);

/// An edit while it is made, its packet still a tree.
pub struct Draft {
    pub tree: Tree,
    pub level: Level,
    pub changes: [Named; 2],
}

impl Draft {
    pub fn case(&self) -> EditTwoCase {
        let (form, packet, level) = (self.tree.form, self.tree.bytes(), self.level);
        let [(tag, value), (tag2, value2)] = self.changes.clone();
        EditTwoCase { form, packet, level, tag, value, tag2, value2, room: PACKET_LIMIT }
    }
}

impl EditTwoCase {
    /// The answer in this much room.
    pub(super) fn answer(&self, out: &mut [u8]) -> crate::Answer {
        let (change, change2) = (self.change(), self.change2());
        let (tag, tag2) = (self.tag, self.tag2);
        crate::edit_two(self.form, &self.packet, self.level, tag, change, tag2, change2, out)
    }
}

/// Says how much room to lend; where it is about as much as needed, the call
/// itself is asked for that.
fn lend(random: &mut Random, mut case: EditTwoCase) -> EditTwoCase {
    let needed = match case.answer(&mut []) {
        Err(refusal) if refusal.number == TOO_SHORT => refusal.place,
        _ => 0,
    };
    case.room = match random.below(10) {
        0 => needed,
        1 => needed.saturating_sub(1),
        2 => needed + 1,
        3 => random.below(40),
        _ => PACKET_LIMIT,
    };
    case
}

/// An accepted packet with a series.
pub fn tree_with_targets(random: &mut Random, form: Form) -> Tree {
    let mut tree = tree(random, form);
    if tree.packs().is_none() {
        let series = valid::series(random, form, NORMAL);
        tree.set.push(series);
    }
    tree
}

/// One of the targets, the first and last often.
pub fn target(random: &mut Random, tree: &Tree) -> u64 {
    let ids = tree.ids();
    match random.below(6) {
        0 => ids[0],
        1 => ids[ids.len() - 1],
        _ => random.pick(&ids),
    }
}

/// A change that its own rules accept, but for those of the result.
pub fn fine(random: &mut Random, level: Level, tag: u16, standing: &[u16]) -> Named {
    let removed = standing.contains(&tag) && random.once_in(2);
    (u64::from(tag), (!removed).then(|| value(random, level, tag)))
}

/// Two changes by chance, most often both fine, but never of the tag kept.
pub fn any_two(random: &mut Random, tree: &mut Tree, id: u64, kept: u16) -> [Named; 2] {
    let level = Level::Target(id);
    let mut standing = standing(tree, level);
    standing.retain(|&tag| tag != kept);
    let mut tags = [24, 25].map(|other| match tag(random, level, &standing) {
        tag if tag == kept => other,
        tag => tag,
    });
    if tags.iter().any(|tag| CENTROID.contains(tag)) && !random.once_in(4) {
        tags = CENTROID;
        random.shuffle(&mut tags);
    }
    if tags[0] == tags[1] && !random.once_in(8) {
        tags[1] = 26;
    }
    tags.map(|tag| match random.once_in(16) {
        true => (u64::from(tag), change(random, level, tag)),
        false => fine(random, level, tag, &standing),
    })
}

fn anywhere(random: &mut Random, form: Form) -> Draft {
    let mut tree = tree_with_targets(random, form);
    let id = target(random, &tree);
    let changes = any_two(random, &mut tree, id, 0);
    Draft { tree, level: Level::Target(id), changes }
}

/// What a change does to its item.
#[derive(Clone, Copy, PartialEq)]
enum Kind {
    New,
    Over,
    Gone,
}

const KINDS: [Kind; 3] = [Kind::New, Kind::Over, Kind::Gone];

/// Every two kinds in turn, in a small pack: the items stand first or last,
/// beside each other or not, either before the other.
fn placed(random: &mut Random, form: Form, turn: u64) -> Draft {
    let kinds = [random::turn(&KINDS, turn), random::turn(&KINDS, turn / 3)];
    let mut pool = vec![1, 4, 6, 9, 12, 18, 22, 127, 128, 300, 16_383];
    random.shuffle(&mut pool);
    let mut tags = [pool[0], pool[1]];
    let both = (kinds[0] == Kind::New) == (kinds[1] == Kind::New);
    if both && random.once_in(3) {
        tags = CENTROID;
        random.shuffle(&mut tags);
    }
    let mut pack: Vec<u16> = pool[2..2 + random.below(4)].to_vec();
    if form == Form::Standalone {
        pack.push(17);
    }
    let stand = tags.iter().zip(kinds).filter(|(_, kind)| *kind != Kind::New);
    pack.extend(stand.map(|(tag, _)| tag));
    random.shuffle(&mut pack);
    let mut tree = tree_with_targets(random, form);
    let id = target(random, &tree);
    let level = Level::Target(id);
    refill(random, &mut tree, id, &pack);
    let mut kinds = kinds.into_iter();
    let changes = tags.map(|tag| {
        let gone = kinds.next() == Some(Kind::Gone);
        (u64::from(tag), (!gone).then(|| value(random, level, tag)))
    });
    Draft { tree, level, changes }
}

/// Gives a target items of just these tags.
pub fn refill(random: &mut Random, tree: &mut Tree, id: u64, tags: &[u16]) {
    let style = valid::Style::any(random);
    let items: Vec<Node> = tags.iter().map(|&tag| valid::item(random, false, tag, style)).collect();
    if let Some(old) = tree.target(id) {
        *old = items;
    }
}

/// 19 and 20 in either order, or one of them beside another tag, where both
/// stand or neither does.
fn centroid(random: &mut Random, form: Form, turn: u64) -> Draft {
    let mut tree = tree_with_targets(random, form);
    let id = target(random, &tree);
    let level = Level::Target(id);
    if let Some(items) = tree.target(id) {
        items.retain(|node| !CENTROID.contains(&node.tag()));
        if turn.is_multiple_of(2) {
            items.extend(CENTROID.map(|tag| valid::item(random, false, tag, NORMAL)));
            random.shuffle(items);
        }
    }
    let mut tags = match turn / 2 % 4 {
        0 => [19, random.pick(&[4, 18, 17])],
        1 => [20, random.pick(&[4, 21, 300])],
        _ => CENTROID,
    };
    random.shuffle(&mut tags);
    let standing = standing(&mut tree, level);
    let changes = tags.map(|tag| fine(random, level, tag, &standing));
    Draft { tree, level, changes }
}

/// An edit of a packet that is itself refused, its own rules broken or not.
fn packet_refused(random: &mut Random, form: Form, turn: u64) -> EditTwoCase {
    let packet = bad_packet(random, form, turn);
    let level = random.pick(&[Level::Set, Level::Target(1), Level::Target(u64::MAX)]);
    let mut named = || {
        let tag = random.pick(&[0, 2, 4, 5, 17, 19, 20, 20_000]);
        (tag, random.pick(&[None, Some(vec![1]), Some(Vec::new())]))
    };
    let ((tag, value), (tag2, value2)) = (named(), named());
    let (form, packet, room) = (packet.form, packet.bytes, PACKET_LIMIT);
    EditTwoCase { form, packet, level, tag, value, tag2, value2, room }
}
