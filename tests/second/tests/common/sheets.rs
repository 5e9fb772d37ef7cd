//! Sheets as lists of records, made from trees and edited one record at a
//! time.

use super::model::in_sheet;
use second::generate::tree::{Node, Tree};
use second::{Form, Level};

/// A record: its mark, its number (tag or id) and its value.
#[derive(Clone, Debug, PartialEq, Eq)]
pub struct Record {
    pub mark: [u8; 2],
    pub number: u64,
    pub value: Vec<u8>,
}

impl Record {
    fn new(mark: &[u8; 2], number: u64, value: &[u8]) -> Record {
        Record { mark: *mark, number, value: value.to_vec() }
    }

    fn item(set: bool, tag: u16, value: &[u8]) -> Record {
        let mark = if set { b"IT" } else { b"TI" };
        Record::new(mark, u64::from(tag), &in_sheet(set, tag, value))
    }

    pub fn bytes(&self) -> Vec<u8> {
        let mut out = self.mark.to_vec();
        match &self.mark {
            b"PK" => out.push(self.number as u8),
            b"TG" => out.extend(self.number.to_be_bytes()),
            b"IT" | b"TI" => {
                out.extend((self.number as u16).to_be_bytes());
                out.extend((self.value.len() as u16).to_be_bytes());
                out.extend(&self.value);
            }
            _ => {}
        }
        out
    }
}

/// The bytes of a list of records.
pub fn sheet(records: &[Record]) -> Vec<u8> {
    records.iter().flat_map(Record::bytes).collect()
}

/// The sheet that a tree means.
pub fn of_tree(tree: &Tree) -> Vec<Record> {
    let form = u64::from(tree.form == Form::Standalone);
    let mut out = vec![Record::new(b"PK", form, &[])];
    for node in &tree.set {
        match node {
            Node::Item { tag, value, .. } => out.push(Record::item(true, *tag, value)),
            Node::Series { packs, .. } => {
                out.push(Record::new(b"TS", 0, &[]));
                packs.iter().for_each(|pack| of_pack(pack, &mut out));
            }
            _ => panic!("no such node in an accepted packet"),
        }
    }
    out
}

fn of_pack(node: &Node, out: &mut Vec<Record>) {
    let Node::Pack { id, items, .. } = node else {
        panic!("no pack in a series");
    };
    out.push(Record::new(b"TG", *id, &[]));
    for node in items {
        let Node::Item { tag, value, .. } = node else {
            panic!("no item in a pack");
        };
        out.push(Record::item(false, *tag, value));
    }
}

/// Makes the one change of an edit to the records.
pub fn edit(records: &mut Vec<Record>, level: Level, tag: u64, value: Option<&[u8]>) {
    let set = level == Level::Set;
    let (from, until) = match level {
        Level::Set => (1, records.len()),
        Level::Target(id) => {
            let is_target = |record: &Record| &record.mark == b"TG" && record.number == id;
            let from = records.iter().position(is_target).expect("the target stands there") + 1;
            let more = records[from..].iter().take_while(|record| &record.mark == b"TI").count();
            (from, from + more)
        }
    };
    let mark = if set { b"IT" } else { b"TI" };
    let is_item = |record: &Record| &record.mark == mark && record.number == tag;
    let at = (from..until).find(|&at| is_item(&records[at]));
    let new = value.map(|value| Record::item(set, tag as u16, value));
    match (at, new) {
        (Some(at), Some(new)) => records[at] = new,
        (None, Some(new)) => records.insert(until, new),
        (Some(at), None) => {
            records.remove(at);
        }
        (None, None) => panic!("nothing to remove"),
    }
}
