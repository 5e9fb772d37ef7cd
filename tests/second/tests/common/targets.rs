//! The rules of adding and dropping a target the plain way: the records are
//! read one by one into a list, and the change is made to a tree.

use super::model::{allows, is_number, is_offset, is_pixel, parse, shorten};
use super::plain::{check, first_fault};
use super::sheets::{of_tree, Record};
use second::generate::tree::{Node, Outer, Tree};
use second::generate::{AddTargetCase, DropTargetCase};
use second::{add_target, drop_target, Answer, Form, Refusal, PACKET_LIMIT};

/// A target to add or to drop.
#[derive(Clone, Debug)]
pub struct Move {
    pub form: Form,
    pub packet: Vec<u8>,
    pub what: What,
}

#[derive(Clone, Debug)]
pub enum What {
    /// By its records.
    Add(Vec<u8>),
    Drop(u64),
}

impl From<AddTargetCase> for Move {
    fn from(case: AddTargetCase) -> Move {
        Move { form: case.form, packet: case.packet, what: What::Add(case.records) }
    }
}

impl From<DropTargetCase> for Move {
    fn from(case: DropTargetCase) -> Move {
        Move { form: case.form, packet: case.packet, what: What::Drop(case.target) }
    }
}

/// Who refuses: the packet, the records one by one, or the result.
#[derive(Clone, Copy, Debug, PartialEq, Eq, PartialOrd, Ord)]
pub enum By {
    Packet,
    Records,
    Result,
}

/// A target's id and its items.
pub type Given = (u64, Vec<(u16, Vec<u8>)>);

impl Move {
    /// The call's answer in some room.
    pub fn answer(&self, out: &mut [u8]) -> Answer {
        match &self.what {
            What::Add(records) => add_target(self.form, &self.packet, records, out),
            What::Drop(target) => drop_target(self.form, &self.packet, *target, out),
        }
    }

    /// The call's result with room to spare.
    pub fn call(&self) -> Result<Vec<u8>, Refusal> {
        let mut out = vec![0; PACKET_LIMIT];
        let count = self.answer(&mut out)?;
        out.truncate(count);
        Ok(out)
    }

    /// The bytes that the rules give, whatever the room.
    pub fn expected(&self) -> Result<Vec<u8>, (By, Refusal)> {
        let bytes = self.unmeasured()?;
        match bytes.len() > PACKET_LIMIT {
            true => Err((By::Result, Refusal { number: 1, place: 0 })),
            false => Ok(bytes),
        }
    }

    /// The same before the last 1 is asked.
    pub fn unmeasured(&self) -> Result<Vec<u8>, (By, Refusal)> {
        check(self.form, &self.packet).map_err(|refusal| (By::Packet, refusal))?;
        let mut tree = parse(self.form, &self.packet);
        let at_zero = |by| move |number| (by, Refusal { number, place: 0 });
        match &self.what {
            What::Add(records) => {
                let given = given(self.form, records).map_err(at_zero(By::Records))?;
                judge(&tree, &given).map_err(at_zero(By::Result))?;
                add(&mut tree, given);
            }
            What::Drop(id) => drop(&mut tree, *id).map_err(at_zero(By::Result))?,
        }
        report(&mut tree);
        Ok(tree.bytes())
    }

    /// The records of the packet's sheet with the change made.
    pub fn records(&self) -> Vec<Record> {
        let mut records = of_tree(&parse(self.form, &self.packet));
        match &self.what {
            What::Add(bytes) => {
                let new = given(self.form, bytes).expect("good records");
                add_records(&mut records, new);
            }
            What::Drop(id) => drop_records(&mut records, *id),
        }
        let count = records.iter().filter(|record| &record.mark == b"TG").count() as u64;
        let reported = records.iter_mut().find(|r| &r.mark == b"IT" && r.number == 6);
        if let Some(record) = reported {
            record.value = shorten(&count.to_be_bytes());
        }
        records
    }
}

/// The first bytes, if there are so many.
fn take<'a>(rest: &mut &'a [u8], count: usize) -> Option<&'a [u8]> {
    let (front, back) = rest.split_at_checked(count)?;
    *rest = back;
    Some(front)
}

/// The records one by one: 17, 7, 9, 13, 11, 12, 17.
pub fn given(form: Form, records: &[u8]) -> Result<Given, u8> {
    let mut rest = records;
    let head = take(&mut rest, 10).filter(|head| head.starts_with(b"TG")).ok_or(17)?;
    let id = head[2..].iter().fold(0, |sum, &byte| sum << 8 | u64::from(byte));
    first_fault(&[(17, id >> 63 == 1)])?;
    let mut items: Vec<(u16, Vec<u8>)> = Vec::new();
    while !rest.is_empty() {
        let head = take(&mut rest, 6).filter(|head| head.starts_with(b"TI")).ok_or(17)?;
        let tag = u16::from(head[2]) << 8 | u16::from(head[3]);
        let length = usize::from(head[4]) << 8 | usize::from(head[5]);
        let value = take(&mut rest, length).ok_or(17)?;
        let zero = value.iter().all(|&byte| byte == 0);
        first_fault(&[
            (17, tag == 0 || tag > 16_383),
            (7, length == 0),
            (9, items.iter().any(|(other, _)| *other == tag)),
            (13, form == Form::Standalone && is_offset(false, tag)),
            (11, !allows(false, tag, length)),
            (12, is_pixel(false, tag) && zero),
            (17, is_number(false, tag) && length > 1 && value.starts_with(&[0])),
        ])?;
        items.push((tag, value.to_vec()));
    }
    Ok((id, items))
}

/// What waits for all records: 10, 20, 14.
fn judge(tree: &Tree, (id, items): &Given) -> Result<(), u8> {
    let has = |tag| items.iter().any(|(other, _)| *other == tag);
    first_fault(&[
        (10, tree.ids().contains(id)),
        (20, has(19) != has(20)),
        (14, tree.form == Form::Standalone && !has(17)),
    ])
}

fn add(tree: &mut Tree, (id, items): Given) {
    let items = items.iter().map(|(tag, value)| Node::item(*tag, value)).collect();
    if tree.packs().is_none() {
        tree.set.push(Node::Series { width: 0, packs: Vec::new() });
    }
    let packs = tree.packs().expect("a series stands there");
    packs.push(Node::Pack { width: 0, id, items });
}

fn drop(tree: &mut Tree, target: u64) -> Result<(), u8> {
    first_fault(&[(18, !tree.ids().contains(&target))])?;
    let packs = tree.packs().expect("the target's series");
    packs.retain(|pack| !matches!(pack, Node::Pack { id, .. } if *id == target));
    if packs.is_empty() {
        tree.set.retain(|node| node.tag() != 101);
    }
    Ok(())
}

/// Tag 6 if present, and the lengths around the packs, all shortest.
fn report(tree: &mut Tree) {
    let count = shorten(&(tree.ids().len() as u32).to_be_bytes());
    tree.outer = Outer::Width(0);
    for node in &mut tree.set {
        match node {
            Node::Item { tag: 6, .. } => *node = Node::item(6, &count),
            Node::Series { width, .. } => *width = 0,
            _ => {}
        }
    }
}

/// Where the records of targets end: the last one's last, or the sheet's end.
fn add_records(records: &mut Vec<Record>, (id, items): Given) {
    let in_series = |record: &Record| matches!(&record.mark, b"TS" | b"TG" | b"TI");
    let mut new = vec![Record { mark: *b"TG", number: id, value: Vec::new() }];
    let item = |(tag, value)| Record { mark: *b"TI", number: u64::from(tag), value };
    new.extend(items.into_iter().map(item));
    let at = match records.iter().rposition(in_series) {
        Some(last) => last + 1,
        None => {
            records.push(Record { mark: *b"TS", number: 0, value: Vec::new() });
            records.len()
        }
    };
    records.splice(at..at, new);
}

fn drop_records(records: &mut Vec<Record>, id: u64) {
    let is_target = |record: &Record| &record.mark == b"TG" && record.number == id;
    let at = records.iter().position(is_target).expect("the target stands there");
    let more = records[at + 1..].iter().take_while(|record| &record.mark == b"TI").count();
    records.drain(at..at + 1 + more);
    if !records.iter().any(|record| &record.mark == b"TG") {
        records.retain(|record| &record.mark != b"TS");
    }
}
