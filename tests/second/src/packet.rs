//! What a packet is made of: items and packs, by their offsets.

use crate::coding;
use crate::refusal::{BAD_LENGTH, PAST_END};
use crate::table::{pack_rule, set_rule, Held, Kind, QuickTable};

/// Which of the two forms a packet has.
#[derive(Clone, Copy, Debug, PartialEq, Eq)]
pub enum Form {
    Embedded,
    Standalone,
}

impl Form {
    /// 0 is embedded, any other number standalone.
    pub fn from_number(number: u64) -> Form {
        match number {
            0 => Form::Embedded,
            _ => Form::Standalone,
        }
    }
}

/// What opens a standalone packet.
pub const KEY: [u8; 16] = [
    0x06, 0x0E, 0x2B, 0x34, 0x02, 0x0B, 0x01, 0x01, 0x0E, 0x01, 0x03, 0x03, 0x06, 0x00, 0x00, 0x00,
];

/// An item, by offsets in the packet.
#[derive(Clone, Copy, Debug)]
pub(crate) struct Item {
    pub tag: u16,
    /// `Bytes` also for any value that the quick question took as it stands.
    pub kind: Kind,
    /// What it is to its pack's end; nothing in a set.
    pub held: Held,
    /// Where its tag begins.
    pub place: usize,
    /// Where its value begins.
    pub start: usize,
    /// Where the shortest form of its value begins.
    pub short: usize,
    pub end: usize,
}

/// A pack, by offsets in the packet.
#[derive(Clone, Copy, Debug)]
pub(crate) struct Pack {
    pub id: u64,
    /// Where its length begins.
    pub place: usize,
    /// Where its id begins.
    pub start: usize,
    /// Where its items begin.
    pub items: usize,
    pub end: usize,
}

/// What a pass tells of the packet, left to right.
pub(crate) trait Visit {
    #[inline]
    fn set_item(&mut self, _item: &Item) {}
    #[inline]
    fn checksum(&mut self, _item: &Item) {}
    #[inline]
    fn series(&mut self, _item: &Item) {}
    #[inline]
    fn pack(&mut self, _pack: &Pack) {}
    #[inline]
    fn pack_item(&mut self, _item: &Item) {}
    #[inline]
    fn pack_end(&mut self, _pack: &Pack) {}
    #[inline]
    fn series_end(&mut self, _item: &Item) {}
}

/// An item of one byte each of tag and length, of a length the table allows,
/// its number without leading zero; nothing if it is any other.
#[inline(always)]
pub(crate) fn quick_item<const SET: bool>(
    bytes: &[u8],
    place: usize,
    quick: &QuickTable,
) -> Option<Item> {
    let [tag, length, value @ ..] = bytes.get(place..)? else {
        return None;
    };
    let quick = quick.get(usize::from(*tag))?;
    if *length >= 32 || quick.lengths >> *length & 1 == 0 || usize::from(*length) > value.len() {
        return None;
    }
    if quick.number && value[0] == 0 {
        return None;
    }
    let (start, end) = (place + 2, place + 2 + usize::from(*length));
    let (tag, kind, held) = (u16::from(*tag), Kind::Bytes, quick.held);
    Some(Item { tag, kind, held, place, start, short: start, end })
}

/// An item's tag and length, and its value's part: 3, 4, 3, 5, 6.
#[inline(always)]
pub(crate) fn read_item<const SET: bool>(bytes: &[u8], place: usize) -> Result<Item, u8> {
    let (tag, length, start) = match *bytes.get(place..).unwrap_or(&[]) {
        // Nearly every item has one byte each of tag and length.
        [tag @ 1..=0x7F, length @ 0..=0x7F, ..] => (u16::from(tag), usize::from(length), place + 2),
        [tag @ 1..=0x7F, 0x81, length, ..] => (u16::from(tag), usize::from(length), place + 3),
        [high @ 0x81..=0xFF, low @ 0..=0x7F, length @ 0..=0x7F, ..] => {
            let tag = u16::from(high & 0x7F) << 7 | u16::from(low);
            (tag, usize::from(length), place + 3)
        }
        _ => long_head(bytes, place)?,
    };
    let rule = if SET { set_rule(tag) } else { pack_rule(tag) };
    if SET && rule.kind == Kind::Checksum && start != place + 2 {
        return Err(BAD_LENGTH);
    }
    if length > bytes.len() - start {
        return Err(PAST_END);
    }
    let end = start + length;
    let mut short = start;
    if rule.is_number() {
        while short + 1 < end && bytes[short] == 0 {
            short += 1;
        }
    }
    Ok(Item { tag, kind: rule.kind, held: rule.held, place, start, short, end })
}

#[inline(never)]
fn long_head(bytes: &[u8], place: usize) -> Result<(u16, usize, usize), u8> {
    let (tag, after) = coding::tag(bytes, place)?;
    let (length, start) = coding::length(bytes, after)?;
    Ok((tag, length, start))
}

/// A pack's length and id: 3, 5, 6, 3, 8.
#[inline(always)]
pub(crate) fn read_pack(bytes: &[u8], place: usize) -> Result<Pack, u8> {
    let (length, start) = coding::length(bytes, place)?;
    if length > bytes.len() - start {
        return Err(PAST_END);
    }
    let end = start + length;
    let (id, items) = coding::id(&bytes[..end], start)?;
    Ok(Pack { id, place, start, items, end })
}
