//! A plain model: document 01's table written out once more, and accepted
//! packets taken apart into trees with each length's width as it stood.

use second::generate::tree::{Node, Outer, Tree};
use second::Form;

/// Whether the tag's value is a number.
pub fn is_number(set: bool, tag: u16) -> bool {
    match set {
        true => matches!(tag, 4 | 5 | 6 | 8 | 9),
        false => matches!(tag, 6 | 9 | 22) || is_pixel(set, tag),
    }
}

pub fn is_pixel(set: bool, tag: u16) -> bool {
    !set && matches!(tag, 1 | 2 | 3 | 19 | 20)
}

pub fn is_offset(set: bool, tag: u16) -> bool {
    !set && matches!(tag, 10 | 11 | 13..=16)
}

/// Whether the tag's value may have this length.
pub fn allows(set: bool, tag: u16, length: usize) -> bool {
    let lengths = match (set, tag) {
        (true, 1 | 11 | 12) => 2..=2,
        (true, 2) => 8..=8,
        (true, 3) => 1..=32,
        (true, 4) => 1..=2,
        (true, 5 | 6 | 8 | 9) => 1..=3,
        (true, 10) => 1..=128,
        (false, 1..=3) => 1..=6,
        (false, 4 | 5 | 7 | 23) => 1..=1,
        (false, 6) => 1..=2,
        (false, 8 | 10 | 11 | 13..=16) => 3..=3,
        (false, 9 | 22) => 1..=3,
        (false, 12) => 2..=2,
        (false, 17) => return [10, 16, 22].contains(&length),
        (false, 19 | 20) => 1..=4,
        _ => 1..=usize::MAX,
    };
    lengths.contains(&length)
}

/// A number without leading zeros.
pub fn shorten(value: &[u8]) -> Vec<u8> {
    let zeros = value.iter().take_while(|&&byte| byte == 0).count();
    value[zeros.min(value.len() - 1)..].to_vec()
}

/// A value as a sheet has it.
pub fn in_sheet(set: bool, tag: u16, value: &[u8]) -> Vec<u8> {
    match is_number(set, tag) {
        true => shorten(value),
        false => value.to_vec(),
    }
}

/// Bytes taken from the front, one thing after the other.
struct Front<'a>(&'a [u8]);

impl<'a> Front<'a> {
    fn take(&mut self, count: usize) -> &'a [u8] {
        let (front, rest) = self.0.split_at(count);
        self.0 = rest;
        front
    }

    fn base_128(&mut self) -> u64 {
        let mut value = 0;
        loop {
            let byte = self.take(1)[0];
            value = value << 7 | u64::from(byte & 0x7F);
            if byte < 0x80 {
                return value;
            }
        }
    }

    /// A length's value, its width, and the bytes it counts.
    fn counted(&mut self) -> (u8, &'a [u8]) {
        let first = self.take(1)[0];
        if first < 0x80 {
            return (0, self.take(usize::from(first)));
        }
        let width = first & 0x7F;
        let digits = self.take(usize::from(width)).iter();
        let length = digits.fold(0, |sum, &digit| sum << 8 | usize::from(digit));
        (width, self.take(length))
    }
}

fn items(bytes: &[u8], set: bool) -> Vec<Node> {
    let mut front = Front(bytes);
    let mut nodes = Vec::new();
    while !front.0.is_empty() {
        let tag = front.base_128() as u16;
        let (width, value) = front.counted();
        nodes.push(match tag {
            101 if set => Node::Series { width, packs: packs(value) },
            _ => Node::Item { tag, width, value: value.to_vec() },
        });
    }
    nodes
}

fn packs(bytes: &[u8]) -> Vec<Node> {
    let mut front = Front(bytes);
    let mut nodes = Vec::new();
    while !front.0.is_empty() {
        let (width, value) = front.counted();
        let mut inner = Front(value);
        let id = inner.base_128();
        nodes.push(Node::Pack { width, id, items: items(inner.0, false) });
    }
    nodes
}

/// Takes an accepted packet apart; its tree gives the same bytes again.
pub fn parse(form: Form, packet: &[u8]) -> Tree {
    let mut tree = Tree::new(form);
    if form == Form::Embedded {
        tree.set = items(packet, true);
    } else {
        let (width, set) = Front(&packet[16..]).counted();
        tree.outer = Outer::Width(width);
        tree.set = items(set, true);
        let sum = tree.set.pop();
        assert_eq!(sum.map(|node| node.tag()), Some(1));
    }
    assert_eq!(tree.bytes(), packet);
    tree
}
