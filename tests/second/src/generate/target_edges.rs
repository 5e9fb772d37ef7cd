//! Additions and drops whose results lie at the edges: lengths of the pack,
//! the series and the set at which these lengths themselves grow, and 8,192
//! bytes in all.

use super::edit_two::refill;
use super::edit_two_edges::{length, set_length, PACK_FILLER, SET_FILLER};
use super::random::Random;
use super::targets::{fresh_id, insert, records, report};
use super::tree::{Node, Outer, Tree};
use super::valid::{self, Style, CENTROID, EDGES, NORMAL};
use super::{AddTargetCase, DropTargetCase};
use crate::packet::Form;
use crate::PACKET_LIMIT;

/// A packet of a few small packs, and the pack to add or to drop.
struct Draft {
    tree: Tree,
    pack: Node,
    drop: bool,
}

/// What is made as long as it takes.
#[derive(Clone, Copy)]
enum Filler {
    /// The item of the set.
    Set,
    /// The item of the target of this id.
    Target(u64),
    /// The item of the target to add.
    Added,
}

/// An added pack of about 127 or 255 bytes.
pub fn pack(random: &mut Random, form: Form) -> AddTargetCase {
    let mut draft = small(random, form, false);
    let goal = random.pick(&EDGES);
    let number = draft.tree.ids().len() as u32 + 1;
    fit(&mut draft, Filler::Added, goal, |form, packet| length(form, packet, number, 0));
    draft.add()
}

/// A series of about 127 or 255 bytes, by the added pack or by another.
pub fn series(random: &mut Random, form: Form) -> AddTargetCase {
    let mut draft = small(random, form, false);
    fit_series(random, &mut draft);
    draft.add()
}

/// A standalone set of about 127 or 255 bytes.
pub fn outer(random: &mut Random) -> AddTargetCase {
    let mut draft = small(random, Form::Standalone, false);
    fit_outer(random, &mut draft);
    draft.add()
}

/// A packet of about 8,192 bytes, by the added pack or by the set.
pub fn limit(random: &mut Random, form: Form) -> AddTargetCase {
    let mut draft = small(random, form, false);
    let filler = random.pick(&[Filler::Added, Filler::Set]);
    // First to a little less, as there is no size to measure beyond.
    const LESS: usize = 32;
    fit(&mut draft, filler, PACKET_LIMIT - LESS, |_, packet| Some(packet.len()));
    let more = LESS + random.pick(&[0, 1, 1, 2, 2, 3, 3, 4, 11]) - 2;
    if let Some(value) = draft.filler(filler) {
        value.resize(value.len() + more, 0x5A);
    }
    draft.add()
}

/// What is left of a series, about 127 or 255 bytes.
pub fn dropped_series(random: &mut Random, form: Form) -> DropTargetCase {
    let mut draft = small(random, form, true);
    fit_series(random, &mut draft);
    draft.dropped()
}

/// What is left of a standalone set, about 127 or 255 bytes.
pub fn dropped_outer(random: &mut Random) -> DropTargetCase {
    let mut draft = small(random, Form::Standalone, true);
    fit_outer(random, &mut draft);
    draft.dropped()
}

/// A drop from a packet of 8,192 bytes or a few less.
pub fn dropped_limit(random: &mut Random, form: Form) -> DropTargetCase {
    let mut draft = small(random, form, true);
    let total = PACKET_LIMIT - random.pick(&[0, 0, 0, 1, 3]);
    for _ in 0..3 {
        let have = draft.tree.bytes().len();
        if let Some(value) = draft.filler(Filler::Set) {
            value.resize((value.len() + total).saturating_sub(have), 0x5A);
        }
    }
    draft.dropped()
}

fn fit_series(random: &mut Random, draft: &mut Draft) {
    let mut fillers: Vec<Filler> = draft.tree.ids().into_iter().map(Filler::Target).collect();
    match draft.drop {
        true => fillers.retain(|filler| !matches!(filler, Filler::Target(id) if *id == draft.id())),
        false => fillers.push(Filler::Added),
    }
    if fillers.is_empty() {
        return;
    }
    let (filler, goal) = (random.pick(&fillers), random.pick(&EDGES));
    fit(draft, filler, goal, |form, packet| length(form, packet, 0, 101));
}

fn fit_outer(random: &mut Random, draft: &mut Draft) {
    draft.tree.outer = Outer::Width(random.pick(&[0, 0, 1, 2, 4]));
    let goal = random.pick(&EDGES);
    fit(draft, Filler::Set, goal, set_length);
}

/// A packet of a few small packs, each with a filler, as the set has one.
fn small(random: &mut Random, form: Form, drop: bool) -> Draft {
    let style = Style::any(random);
    let mut tree = Tree::new(form);
    tree.set.push(Node::item(SET_FILLER, &[1]));
    if form == Form::Standalone {
        tree.set.insert(0, valid::item(random, true, 2, style));
    }
    let count = random.between(usize::from(drop), 3) as u64;
    let packs: Vec<Node> = (1..=count).map(|id| bare(random, form, id, style)).collect();
    if count > 0 {
        let series = Node::Series { width: style.width(random), packs };
        insert(random, &mut tree, series);
    }
    for id in 1..=count {
        let tags = tags(random, form);
        refill(random, &mut tree, id, &tags);
        if let Some(value) = filler_in(tree.target(id)) {
            value.truncate(1);
        }
    }
    let turn = random.number();
    report(random, &mut tree, turn, style);
    let ids = tree.ids();
    let id = if drop { random.pick(&ids) } else { fresh_id(random, &tree) };
    let mut pack = bare(random, form, id, NORMAL);
    if let Node::Pack { items, .. } = &mut pack {
        let tags = tags(random, form);
        *items = tags.iter().map(|&tag| valid::item(random, false, tag, NORMAL)).collect();
        if let Some(value) = filler_in(Some(items)) {
            value.truncate(1);
        }
    }
    Draft { tree, pack, drop }
}

fn bare(random: &mut Random, form: Form, id: u64, style: Style) -> Node {
    valid::pack(random, form, id, 0, style)
}

/// A filler's tag and a few more.
fn tags(random: &mut Random, form: Form) -> Vec<u16> {
    let mut tags = vec![PACK_FILLER];
    if form == Form::Standalone {
        tags.push(17);
    }
    if random.once_in(2) {
        tags.push(random.pick(&[4, 9, 300]));
    }
    if random.once_in(3) {
        tags.extend(CENTROID);
    }
    random.shuffle(&mut tags);
    tags
}

/// The value of the filler among a target's items.
fn filler_in(items: Option<&mut Vec<Node>>) -> Option<&mut Vec<u8>> {
    value_of(items?, PACK_FILLER)
}

fn value_of(nodes: &mut [Node], named: u16) -> Option<&mut Vec<u8>> {
    nodes.iter_mut().find_map(|node| match node {
        Node::Item { tag, value, .. } if *tag == named => Some(value),
        _ => None,
    })
}

impl Draft {
    fn id(&self) -> u64 {
        match &self.pack {
            Node::Pack { id, .. } => *id,
            _ => 0,
        }
    }

    fn add(&self) -> AddTargetCase {
        let (form, packet) = (self.tree.form, self.tree.bytes());
        let records = records(&self.pack).concat();
        AddTargetCase { form, packet, records, room: PACKET_LIMIT }
    }

    fn dropped(&self) -> DropTargetCase {
        let (form, packet, target) = (self.tree.form, self.tree.bytes(), self.id());
        DropTargetCase { form, packet, target, room: PACKET_LIMIT }
    }

    fn filler(&mut self, filler: Filler) -> Option<&mut Vec<u8>> {
        match (filler, &mut self.pack) {
            (Filler::Set, _) => value_of(&mut self.tree.set, SET_FILLER),
            (Filler::Target(id), _) => filler_in(self.tree.target(id)),
            (Filler::Added, Node::Pack { items, .. }) => filler_in(Some(items)),
            _ => None,
        }
    }

    fn result(&self) -> Option<Vec<u8>> {
        let mut out = vec![0; PACKET_LIMIT];
        let answer = match self.drop {
            true => self.dropped().answer(&mut out),
            false => self.add().answer(&mut out),
        };
        out.truncate(answer.ok()?);
        Some(out)
    }
}

/// Makes a filler as long as it takes for the result to come to the goal, or
/// as nearly as the widths of lengths allow.
fn fit(
    draft: &mut Draft,
    filler: Filler,
    goal: usize,
    measure: impl Fn(Form, &[u8]) -> Option<usize>,
) {
    for _ in 0..4 {
        let have = draft.result().and_then(|packet| measure(draft.tree.form, &packet));
        let (Some(have), Some(value)) = (have, draft.filler(filler)) else {
            return;
        };
        let length = (value.len() + goal).saturating_sub(have).max(1);
        value.resize(length, 0x5A);
    }
}
