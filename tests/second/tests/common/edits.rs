//! The rules of an edit the plain way: its changes are made to a tree one
//! after the other, and the result is judged as a whole.

use super::model::{allows, in_sheet, is_offset, is_pixel, parse};
use super::plain::first_fault;
use super::sheets::{self, Record};
use second::generate::tree::{Node, Outer, Tree};
use second::generate::{EditCase, EditTwoCase};
use second::{edit, edit_two, read};
use second::{Answer, Change, Form, Level, Refusal, PACKET_LIMIT, PACKET_SHEET_LIMIT};

/// An edit of one or two changes.
#[derive(Clone, Debug)]
pub struct Edit {
    pub form: Form,
    pub packet: Vec<u8>,
    pub level: Level,
    /// Tags and what to put, nothing for a removal.
    pub changes: Vec<(u64, Option<Vec<u8>>)>,
}

impl From<EditCase> for Edit {
    fn from(case: EditCase) -> Edit {
        let EditCase { form, packet, level, tag, value } = case;
        Edit { form, packet, level, changes: vec![(tag, value)] }
    }
}

impl From<EditTwoCase> for Edit {
    fn from(case: EditTwoCase) -> Edit {
        let EditTwoCase { form, packet, level, tag, value, tag2, value2, .. } = case;
        Edit { form, packet, level, changes: vec![(tag, value), (tag2, value2)] }
    }
}

impl Edit {
    /// The call's answer in some room.
    pub fn answer(&self, out: &mut [u8]) -> Answer {
        let change = |at: usize| {
            let (tag, value) = &self.changes[at];
            (*tag, value.as_deref().map_or(Change::Remove, Change::Put))
        };
        let (form, packet, level) = (self.form, &self.packet, self.level);
        let (tag, first) = change(0);
        if self.changes.len() == 1 {
            return edit(form, packet, level, tag, first, out);
        }
        let (tag2, second) = change(1);
        edit_two(form, packet, level, tag, first, tag2, second, out)
    }

    /// The call's result with room to spare.
    pub fn call(&self) -> Result<Vec<u8>, Refusal> {
        let mut out = vec![0; PACKET_LIMIT];
        let count = self.answer(&mut out)?;
        out.truncate(count);
        Ok(out)
    }

    /// The records of the packet's sheet with the changes made.
    pub fn records(&self) -> Vec<Record> {
        let mut records = sheets::of_tree(&parse(self.form, &self.packet));
        for (tag, value) in &self.changes {
            sheets::edit(&mut records, self.level, *tag, value.as_deref());
        }
        records
    }

    /// The same edit of this change alone.
    pub fn only(&self, at: usize) -> Edit {
        Edit { changes: vec![self.changes[at].clone()], ..self.clone() }
    }
}

/// Who refuses: the packet, a change in its turn, or the result of all.
#[derive(Clone, Copy, Debug, PartialEq, Eq, PartialOrd, Ord)]
pub enum By {
    Packet,
    Change(usize),
    Result,
}

/// The bytes that the rules give, whatever the room.
pub fn expected(edit: &Edit) -> Result<Vec<u8>, (By, Refusal)> {
    let bytes = unmeasured(edit)?;
    let over = first_fault(&[(1, bytes.len() > PACKET_LIMIT)]);
    over.map_err(|number| (By::Result, Refusal { number, place: 0 }))?;
    Ok(bytes)
}

/// The same before the last 1 is asked.
pub fn unmeasured(edit: &Edit) -> Result<Vec<u8>, (By, Refusal)> {
    let own = read(edit.form, &edit.packet, &mut vec![0; PACKET_SHEET_LIMIT]);
    own.map_err(|refusal| (By::Packet, refusal))?;
    let mut tree = parse(edit.form, &edit.packet);
    let at_zero = |by| move |number| (by, Refusal { number, place: 0 });
    for turn in 0..edit.changes.len() {
        make(&mut tree, edit, turn).map_err(at_zero(By::Change(turn)))?;
    }
    judge(&mut tree, edit.level).map_err(at_zero(By::Result))?;
    Ok(tree.bytes())
}

/// The items of the level named, its own lengths made shortest.
fn opened(tree: &mut Tree, level: Level) -> Option<&mut Vec<Node>> {
    tree.outer = Outer::Width(0);
    let Level::Target(named) = level else {
        return Some(&mut tree.set);
    };
    let series = tree.set.iter_mut().find(|node| node.tag() == 101)?;
    let Node::Series { width: series_width, packs } = series else {
        return None;
    };
    packs.iter_mut().find_map(|pack| match pack {
        Node::Pack { width, id, items } if *id == named => {
            (*series_width, *width) = (0, 0);
            Some(items)
        }
        _ => None,
    })
}

/// Makes one change in its turn: 19, 18, then for a put 7, 13, 11, 12.
fn make(tree: &mut Tree, edit: &Edit, turn: usize) -> Result<(), u8> {
    let set = edit.level == Level::Set;
    let (tag, value) = &edit.changes[turn];
    let before = edit.changes[..turn].iter().any(|(other, _)| other == tag);
    first_fault(&[
        (19, !(1..=16_383).contains(tag)),
        (19, set && [1, 101].contains(tag)),
        (19, before || turn > 0 && set),
    ])?;
    let tag = *tag as u16;
    let items = opened(tree, edit.level).ok_or(18)?;
    let at = items.iter().position(|node| node.tag() == tag);
    let Some(value) = value else {
        items.remove(at.ok_or(18)?);
        return Ok(());
    };
    first_fault(&[
        (7, value.is_empty()),
        (13, edit.form == Form::Standalone && is_offset(set, tag)),
        (11, !allows(set, tag, value.len())),
        (12, is_pixel(set, tag) && value.iter().all(|&byte| byte == 0)),
    ])?;
    let new = Node::item(tag, &in_sheet(set, tag, value));
    match at {
        Some(at) => items[at] = new,
        None => items.push(new),
    }
    Ok(())
}

/// The level as all changes left it: 20, 14.
fn judge(tree: &mut Tree, level: Level) -> Result<(), u8> {
    let (set, standalone) = (level == Level::Set, tree.form == Form::Standalone);
    let Some(items) = opened(tree, level) else {
        return Ok(());
    };
    let stands = |tag| items.iter().any(|node| node.tag() == tag);
    first_fault(&[
        (20, !set && stands(19) != stands(20)),
        (14, standalone && !stands(if set { 2 } else { 17 })),
    ])
}
