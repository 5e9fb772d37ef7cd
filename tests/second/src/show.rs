//! Show one value: a part of the reviewer's packet, else of the detector's.

use crate::check_packet::check;
use crate::find::{Find, Level};
use crate::packet::{Form, Item};
use crate::refusal::Refusal;

/// Whose packet a part belongs to.
#[derive(Clone, Copy, Debug, PartialEq, Eq)]
pub enum Side {
    Reviewer,
    Detector,
}

/// A part of one of the two packets.
#[derive(Clone, Copy, Debug, PartialEq, Eq)]
pub struct Shown {
    pub side: Side,
    pub offset: usize,
    pub length: usize,
}

/// The empty part at the start of the detector's: the one way to say no.
const NOTHING: Shown = Shown { side: Side::Detector, offset: 0, length: 0 };

impl Shown {
    /// The part itself, from the packets that were shown.
    pub fn part<'a>(&self, reviewer: &'a [u8], detector: &'a [u8]) -> &'a [u8] {
        let packet = match self.side {
            Side::Reviewer => reviewer,
            Side::Detector => detector,
        };
        &packet[self.offset..self.offset + self.length]
    }
}

/// Shows an item's value as the reviewer has it, else as the detector has it.
/// Both packets must be accepted; set tag 101 is never shown.
pub fn show(form: Form, reviewer: &[u8], detector: &[u8], level: Level, tag: u64) -> Shown {
    let Ok(reviewed) = find(form, reviewer, level, tag) else {
        return NOTHING;
    };
    let Ok(detected) = find(form, detector, level, tag) else {
        return NOTHING;
    };
    let part = |side: Side| {
        move |item: Item| Shown { side, offset: item.start, length: item.end - item.start }
    };
    reviewed.map(part(Side::Reviewer)).or(detected.map(part(Side::Detector))).unwrap_or(NOTHING)
}

/// The series of a set is no item to this pass, so tag 101 is not found.
fn find(form: Form, packet: &[u8], level: Level, tag: u64) -> Result<Option<Item>, Refusal> {
    let mut find = Find::new(level, [tag]);
    check(form, packet, &mut find)?;
    let [item] = find.items;
    Ok(item)
}
