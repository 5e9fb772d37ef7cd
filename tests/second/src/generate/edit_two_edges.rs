//! Edits of two changes whose results lie at the edges: lengths of the pack,
//! the series and the set at which these lengths themselves grow, and 8,192
//! bytes in all.

use super::edit_two::{any_two, refill, target, Draft};
use super::random::Random;
use super::tree::{Node, Outer, Tree};
use super::valid::{self, Style, CENTROID, EDGES};
use crate::coding;
use crate::packet::{Form, KEY};
use crate::{locate, Level, Row, PACKET_LIMIT, ROWS_LIMIT};

/// The tags of the items that are made as long as it takes.
pub const PACK_FILLER: u16 = 18;
pub const SET_FILLER: u16 = 13;

/// A pack of about 127 or 255 bytes.
pub fn pack(random: &mut Random, form: Form) -> Draft {
    let mut draft = small(random, form);
    let (named, goal) = (named(&draft), random.pick(&EDGES));
    fit(&mut draft, named, goal, |draft| Some(lengths(draft)?.pack));
    draft
}

/// A series of about 127 or 255 bytes, by the pack named or by another.
pub fn series(random: &mut Random, form: Form) -> Draft {
    let mut draft = small(random, form);
    let ids = draft.tree.ids();
    let (filled, goal) = (random.pick(&ids), random.pick(&EDGES));
    fit(&mut draft, Some(filled), goal, |draft| Some(lengths(draft)?.series));
    draft
}

/// A standalone set of about 127 or 255 bytes.
pub fn outer(random: &mut Random) -> Draft {
    let mut draft = small(random, Form::Standalone);
    draft.tree.outer = Outer::Width(random.pick(&[0, 0, 1, 2, 4]));
    let goal = random.pick(&EDGES);
    fit(&mut draft, None, goal, |draft| Some(lengths(draft)?.set));
    draft
}

/// A packet of about 8,192 bytes, by the pack or by the set.
pub fn limit(random: &mut Random, form: Form) -> Draft {
    let mut draft = small(random, form);
    let named = named(&draft);
    let filled = if random.once_in(2) { named } else { None };
    // First to a little less, as there is no size to measure beyond.
    const LESS: usize = 32;
    fit(&mut draft, filled, PACKET_LIMIT - LESS, |draft| Some(result(draft)?.len()));
    let more = LESS + random.pick(&[0, 1, 1, 2, 2, 3, 3, 4, 11]) - 2;
    if let Some(value) = filler(&mut draft.tree, filled) {
        value.resize(value.len() + more, 0x5A);
    }
    draft
}

/// A packet of a few small packs, each with a filler, as the set has one.
fn small(random: &mut Random, form: Form) -> Draft {
    let style = Style::any(random);
    let mut tree = Tree::new(form);
    tree.set.push(Node::item(SET_FILLER, &[1]));
    if form == Form::Standalone {
        tree.set.insert(0, valid::item(random, true, 2, style));
    }
    let count = random.between(1, 3) as u64;
    let packs = (1..=count).map(|id| valid::pack(random, form, id, 0, style)).collect();
    tree.set.push(Node::Series { width: style.width(random), packs });
    for id in 1..=count {
        let mut tags = vec![PACK_FILLER];
        if form == Form::Standalone {
            tags.push(17);
        }
        if random.once_in(2) {
            tags.push(random.pick(&[4, 9, 300]));
        }
        if random.once_in(3) {
            tags.extend(CENTROID);
        }
        random.shuffle(&mut tags);
        refill(random, &mut tree, id, &tags);
        if let Some(value) = filler(&mut tree, Some(id)) {
            value.truncate(1);
        }
    }
    let id = target(random, &tree);
    let changes = any_two(random, &mut tree, id, PACK_FILLER);
    Draft { tree, level: Level::Target(id), changes }
}

fn named(draft: &Draft) -> Option<u64> {
    match draft.level {
        Level::Target(id) => Some(id),
        Level::Set => None,
    }
}

/// The value of the filler of a target, or of the set.
fn filler(tree: &mut Tree, target: Option<u64>) -> Option<&mut Vec<u8>> {
    let (nodes, filler) = match target {
        Some(id) => (tree.target(id)?, PACK_FILLER),
        None => (&mut tree.set, SET_FILLER),
    };
    nodes.iter_mut().find_map(|node| match node {
        Node::Item { tag, value, .. } if *tag == filler => Some(value),
        _ => None,
    })
}

/// Makes a filler as long as it takes for the result to come to the goal, or
/// as nearly as the widths of lengths allow.
fn fit(
    draft: &mut Draft,
    target: Option<u64>,
    goal: usize,
    measure: impl Fn(&Draft) -> Option<usize>,
) {
    for _ in 0..4 {
        let have = measure(draft);
        let (Some(have), Some(value)) = (have, filler(&mut draft.tree, target)) else {
            return;
        };
        let length = (value.len() + goal).saturating_sub(have).max(1);
        value.resize(length, 0x5A);
    }
}

fn result(draft: &Draft) -> Option<Vec<u8>> {
    let mut out = vec![0; PACKET_LIMIT];
    let count = draft.case().answer(&mut out).ok()?;
    out.truncate(count);
    Some(out)
}

/// The lengths around the items of an edit's result.
struct Lengths {
    set: usize,
    series: usize,
    pack: usize,
}

fn lengths(draft: &Draft) -> Option<Lengths> {
    let (form, packet) = (draft.tree.form, result(draft)?);
    let ids = draft.tree.ids();
    let number = ids.iter().position(|&id| Some(id) == named(draft))? as u32 + 1;
    let (series, pack) = (length(form, &packet, 0, 101)?, length(form, &packet, number, 0)?);
    Some(Lengths { set: set_length(form, &packet)?, series, pack })
}

/// The length of an item or pack, named as in its row.
pub fn length(form: Form, packet: &[u8], target: u32, tag: u32) -> Option<usize> {
    let mut rows = vec![Row::default(); ROWS_LIMIT];
    let count = locate(form, packet, &mut rows).ok()?;
    let row = rows[..count].iter().find(|row| (row.target, row.tag) == (target, tag));
    row.map(|row| row.length as usize)
}

/// The length of the set.
pub fn set_length(form: Form, packet: &[u8]) -> Option<usize> {
    match form {
        Form::Embedded => Some(packet.len()),
        Form::Standalone => Some(coding::length(packet, KEY.len()).ok()?.0),
    }
}
