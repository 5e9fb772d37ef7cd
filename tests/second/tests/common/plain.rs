//! The first fault of a packet, found the plain way: every tag and id before
//! is remembered, and the questions are asked in document 01's order.

use super::model::{allows, is_offset, is_pixel};
use second::generate::tree::sum;
use second::packet::KEY;
use second::{Form, Refusal};
use std::collections::HashSet;

/// A number and what follows it, or the number of a refusal.
type Coded<'a, T> = Result<(T, &'a [u8]), u8>;

fn refuse<T>(number: u8, place: usize) -> Result<T, Refusal> {
    Err(Refusal { number, place })
}

/// Asks questions in order: the first that is answered yes.
pub fn first_fault(questions: &[(u8, bool)]) -> Result<(), u8> {
    let fault = questions.iter().find(|(_, broken)| *broken);
    fault.map_or(Ok(()), |(number, _)| Err(*number))
}

/// Seven bits to a byte, at most `most` bytes, the refusal number if bad.
fn base_128(bytes: &[u8], most: usize, bad: u8) -> Coded<'_, u64> {
    let last = bytes.iter().take(most).position(|byte| byte & 0x80 == 0);
    let Some(last) = last else {
        return Err(if bytes.len() < most { 3 } else { bad });
    };
    let (digits, rest) = bytes.split_at(last + 1);
    let value = digits.iter().fold(0, |sum, byte| sum * 128 + u64::from(byte & 0x7F));
    if digits[0] == 0x80 {
        return Err(bad);
    }
    Ok((value, rest))
}

fn tag(bytes: &[u8]) -> Coded<'_, u16> {
    match base_128(bytes, 2, 4)? {
        (0, _) => Err(4),
        (tag, rest) => Ok((tag as u16, rest)),
    }
}

fn length(bytes: &[u8]) -> Coded<'_, usize> {
    let (first, rest) = bytes.split_first().ok_or(3)?;
    let width = match first {
        0..=0x7F => return Ok((usize::from(*first), rest)),
        0x81..=0x84 => usize::from(first - 0x80),
        _ => return Err(5),
    };
    if rest.len() < width {
        return Err(3);
    }
    let (digits, rest) = rest.split_at(width);
    Ok((digits.iter().fold(0, |sum, byte| sum * 256 + usize::from(*byte)), rest))
}

struct Level<'a> {
    set: bool,
    form: Form,
    /// The level's bytes and where they begin in the packet.
    bytes: &'a [u8],
    base: usize,
}

impl Level<'_> {
    /// The tags of the level, if all is well.
    fn tags(&self) -> Result<HashSet<u16>, Refusal> {
        let mut tags = HashSet::new();
        let mut rest = self.bytes;
        while !rest.is_empty() {
            let place = self.base + self.bytes.len() - rest.len();
            let item = self.item(rest, &tags);
            let (tag, value, after) = item.or_else(|number| refuse(number, place))?;
            tags.insert(tag);
            rest = after;
            if self.set && tag == 101 {
                series(self.form, value, self.base + self.bytes.len() - rest.len() - value.len())?;
            }
        }
        Ok(tags)
    }

    /// One item: its tag, its value and what follows.
    fn item<'b>(
        &self,
        bytes: &'b [u8],
        before: &HashSet<u16>,
    ) -> Result<(u16, &'b [u8], &'b [u8]), u8> {
        let (set, standalone) = (self.set, self.form == Form::Standalone);
        let (tag, after_tag) = tag(bytes)?;
        let (length, rest) = length(after_tag)?;
        let sum = set && tag == 1;
        let wide = after_tag.len() - rest.len() > 1;
        first_fault(&[(5, sum && wide), (6, length > rest.len()), (7, length == 0)])?;
        let (value, rest) = rest.split_at(length);
        let at_end = rest.is_empty() && standalone;
        first_fault(&[
            (9, before.contains(&tag)),
            (13, sum && !at_end),
            (13, is_offset(set, tag) && standalone),
            (14, set && standalone && before.is_empty() && tag != 2),
            (11, !allows(set, tag, length)),
            (12, is_pixel(set, tag) && value.iter().all(|byte| *byte == 0)),
        ])?;
        Ok((tag, value, rest))
    }
}

/// The packs of a series that begins at `base`.
fn series(form: Form, bytes: &[u8], base: usize) -> Result<(), Refusal> {
    let mut ids = HashSet::new();
    let mut rest = bytes;
    while !rest.is_empty() {
        let place = base + bytes.len() - rest.len();
        let (id, items, after) = pack(rest).or_else(|number| refuse(number, place))?;
        if !ids.insert(id) {
            return refuse(10, place);
        }
        let items_base = base + bytes.len() - after.len() - items.len();
        let level = Level { set: false, form, bytes: items, base: items_base };
        let tags = level.tags()?;
        let end = [
            (20, tags.contains(&19) != tags.contains(&20)),
            (14, form == Form::Standalone && !tags.contains(&17)),
        ];
        first_fault(&end).or_else(|number| refuse(number, place))?;
        rest = after;
    }
    Ok(())
}

/// A pack's id, its items and what follows it.
fn pack(bytes: &[u8]) -> Result<(u64, &[u8], &[u8]), u8> {
    let (length, rest) = length(bytes)?;
    first_fault(&[(6, length > rest.len())])?;
    let (value, rest) = rest.split_at(length);
    let (id, items) = base_128(value, 9, 8)?;
    Ok((id, items, rest))
}

/// The answer of a packet with room to spare: nothing if it is accepted.
pub fn check(form: Form, packet: &[u8]) -> Result<(), Refusal> {
    if packet.len() > 8_192 {
        return refuse(1, 0);
    }
    let set = match form {
        Form::Embedded => packet,
        Form::Standalone => {
            let rest = packet.strip_prefix(&KEY).map_or(refuse(2, 0), Ok)?;
            let (length, set) = length(rest).or_else(|number| refuse(number, 0))?;
            first_fault(&[(6, length != set.len())]).or_else(|number| refuse(number, 0))?;
            set
        }
    };
    let level = Level { set: true, form, bytes: set, base: packet.len() - set.len() };
    let tags = level.tags()?;
    if form == Form::Standalone {
        if !tags.contains(&1) {
            return refuse(14, packet.len());
        }
        let (before, value) = packet.split_at(packet.len() - 2);
        if sum(before).to_be_bytes() != value {
            return refuse(15, packet.len() - 4);
        }
    }
    Ok(())
}
