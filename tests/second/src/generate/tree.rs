//! A packet as a tree, with every length's width as it is to stand, so that
//! packets out of normal form and damaged ones can be made on purpose. Its
//! coding is written out here again, on growing vectors.

use crate::packet::{Form, KEY};

/// How a length is written: 0 for shortest, 1 to 4 for that many bytes after
/// 81 to 84 where the length fits in them.
pub type Width = u8;

#[derive(Clone, Debug)]
pub enum Node {
    Item {
        tag: u16,
        width: Width,
        value: Vec<u8>,
    },
    Series {
        width: Width,
        packs: Vec<Node>,
    },
    Pack {
        width: Width,
        id: u64,
        items: Vec<Node>,
    },
    /// Bytes in the place of an item or pack.
    Raw(Vec<u8>),
}

#[derive(Clone, Debug)]
pub enum Outer {
    Width(Width),
    /// The length wrong by so much.
    Off(isize),
    /// Bytes in place of the length.
    Raw(Vec<u8>),
}

#[derive(Clone, Debug)]
pub enum Tail {
    /// The checksum, its value changed by these bits.
    Sum(u16),
    /// Bytes in place of the checksum item.
    Raw(Vec<u8>),
}

#[derive(Clone, Debug)]
pub struct Tree {
    pub form: Form,
    /// Standalone only: key, outer length and checksum.
    pub key: Vec<u8>,
    pub outer: Outer,
    pub set: Vec<Node>,
    pub tail: Tail,
}

pub fn push_tag(out: &mut Vec<u8>, tag: u16) {
    if tag > 127 {
        out.push(0x80 | (tag >> 7) as u8);
    }
    out.push((tag & 0x7F) as u8);
}

pub fn push_length(out: &mut Vec<u8>, length: usize, width: Width) {
    let digits = (length as u32).to_be_bytes();
    let zeros = digits.iter().take_while(|&&digit| digit == 0).count();
    let least = 4 - zeros;
    if usize::from(width) >= least.max(1) {
        out.push(0x80 | width);
        out.extend(&digits[4 - usize::from(width)..]);
    } else if length > 127 {
        out.push(0x80 | least as u8);
        out.extend(&digits[zeros..]);
    } else {
        out.push(length as u8);
    }
}

pub fn push_id(out: &mut Vec<u8>, id: u64) {
    let mut digits = vec![(id & 0x7F) as u8];
    let mut rest = id >> 7;
    while rest > 0 {
        digits.push(0x80 | (rest & 0x7F) as u8);
        rest >>= 7;
    }
    out.extend(digits.iter().rev());
}

/// The sum of a standalone packet up to its checksum's value.
pub fn sum(bytes: &[u8]) -> u16 {
    let weigh = |(at, &byte): (usize, &u8)| u32::from(byte) << if at % 2 == 0 { 8 } else { 0 };
    bytes.iter().enumerate().map(weigh).sum::<u32>() as u16
}

fn push_value(out: &mut Vec<u8>, width: Width, value: &[u8]) {
    push_length(out, value.len(), width);
    out.extend(value);
}

impl Node {
    pub fn push(&self, out: &mut Vec<u8>) {
        match self {
            Node::Item { tag, width, value } => {
                push_tag(out, *tag);
                push_value(out, *width, value);
            }
            Node::Series { width, packs } => {
                push_tag(out, 101);
                push_value(out, *width, &all(packs));
            }
            Node::Pack { width, id, items } => {
                let mut value = Vec::new();
                push_id(&mut value, *id);
                value.extend(all(items));
                push_value(out, *width, &value);
            }
            Node::Raw(bytes) => out.extend(bytes),
        }
    }

    /// An item with its length written shortest.
    pub fn item(tag: u16, value: &[u8]) -> Node {
        Node::Item { tag, width: 0, value: value.to_vec() }
    }

    /// The tag of an item or a series, 0 for anything else.
    pub fn tag(&self) -> u16 {
        match self {
            Node::Item { tag, .. } => *tag,
            Node::Series { .. } => 101,
            _ => 0,
        }
    }
}

/// Nodes one after the other.
pub fn all(nodes: &[Node]) -> Vec<u8> {
    let mut out = Vec::new();
    nodes.iter().for_each(|node| node.push(&mut out));
    out
}

impl Tree {
    pub fn new(form: Form) -> Tree {
        let (key, outer, tail) = (KEY.to_vec(), Outer::Width(0), Tail::Sum(0));
        Tree { form, key, outer, set: Vec::new(), tail }
    }

    /// The packet.
    pub fn bytes(&self) -> Vec<u8> {
        let mut set = all(&self.set);
        if self.form == Form::Embedded {
            return set;
        }
        match &self.tail {
            Tail::Sum(_) => set.extend([1, 2, 0, 0]),
            Tail::Raw(bytes) => set.extend(bytes),
        }
        let mut out = self.key.clone();
        match &self.outer {
            Outer::Width(width) => push_length(&mut out, set.len(), *width),
            Outer::Off(by) => push_length(&mut out, set.len().saturating_add_signed(*by), 0),
            Outer::Raw(bytes) => out.extend(bytes),
        }
        out.extend(set);
        if let Tail::Sum(change) = self.tail {
            let end = out.len() - 2;
            let sum = sum(&out[..end]) ^ change;
            out[end..].copy_from_slice(&sum.to_be_bytes());
        }
        out
    }

    /// The packs of the series, if the set has one.
    pub fn packs(&mut self) -> Option<&mut Vec<Node>> {
        self.set.iter_mut().find_map(|node| match node {
            Node::Series { packs, .. } => Some(packs),
            _ => None,
        })
    }

    /// The ids of the targets.
    pub fn ids(&self) -> Vec<u64> {
        let ids = |packs: &[Node]| -> Vec<u64> {
            let id = |node: &Node| match node {
                Node::Pack { id, .. } => Some(*id),
                _ => None,
            };
            packs.iter().filter_map(id).collect()
        };
        let series = self.set.iter().find_map(|node| match node {
            Node::Series { packs, .. } => Some(ids(packs)),
            _ => None,
        });
        series.unwrap_or_default()
    }

    /// The items of a target.
    pub fn target(&mut self, named: u64) -> Option<&mut Vec<Node>> {
        self.packs()?.iter_mut().find_map(|node| match node {
            Node::Pack { id, items, .. } if *id == named => Some(items),
            _ => None,
        })
    }
}
