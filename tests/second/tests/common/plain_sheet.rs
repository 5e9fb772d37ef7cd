//! The first fault of a sheet, found the plain way.

use super::model::{allows, is_number, is_offset, is_pixel};
use super::plain::first_fault;
use second::Refusal;
use std::collections::HashSet;

fn refuse<T>(number: u8, place: usize) -> Result<T, Refusal> {
    Err(Refusal { number, place })
}

/// What the records so far have told.
#[derive(Default)]
struct Story {
    standalone: bool,
    set_tags: HashSet<u16>,
    ids: HashSet<u64>,
    /// The place and tags of the last target.
    target: (usize, HashSet<u16>),
    series: bool,
    /// A `TG` may stand next.
    in_series: bool,
    /// A `TI` may stand next.
    in_target: bool,
    /// Bytes of the set, the series and the pack in a packet.
    set: usize,
    packs: usize,
    pack: usize,
}

/// Bytes of a value with its shortest length.
fn counted(length: usize) -> usize {
    match length {
        0..=127 => 1 + length,
        128..=255 => 2 + length,
        _ => 3 + length,
    }
}

fn tag_size(tag: u16) -> usize {
    if tag > 127 {
        2
    } else {
        1
    }
}

/// The tag and value of an item's record, and where it ends.
fn item(sheet: &[u8], at: usize) -> Option<(u16, &[u8], usize)> {
    let head = sheet.get(at + 2..at + 6)?;
    let tag = u16::from_be_bytes([head[0], head[1]]);
    let length = usize::from(u16::from_be_bytes([head[2], head[3]]));
    Some((tag, sheet.get(at + 6..at + 6 + length)?, at + 6 + length))
}

impl Story {
    /// The end of a target, before a record other than `TI` or at the end.
    fn leave_target(&mut self) -> Result<(), Refusal> {
        if self.in_target {
            let (place, tags) = &self.target;
            let end = [
                (20, tags.contains(&19) != tags.contains(&20)),
                (14, self.standalone && !tags.contains(&17)),
            ];
            first_fault(&end).or_else(|number| refuse(number, *place))?;
            self.packs += counted(self.pack);
            self.in_target = false;
        }
        Ok(())
    }

    fn set_item(&mut self, sheet: &[u8], at: usize) -> Result<usize, u8> {
        let (tag, value, end) = item(sheet, at).ok_or(17)?;
        let bad_tag = matches!(tag, 0 | 1 | 101 | 16_384..);
        first_fault(&[
            (17, bad_tag),
            (7, value.is_empty()),
            (9, self.set_tags.contains(&tag)),
            (14, self.standalone && at == 3 && tag != 2),
            (11, !allows(true, tag, value.len())),
            (17, is_number(true, tag) && value.len() > 1 && value.starts_with(&[0])),
        ])?;
        self.set_tags.insert(tag);
        self.in_series = false;
        self.set += tag_size(tag) + counted(value.len());
        Ok(end)
    }

    fn target_item(&mut self, sheet: &[u8], at: usize) -> Result<usize, u8> {
        let (tag, value, end) = item(sheet, at).ok_or(17)?;
        let zero = value.iter().all(|byte| *byte == 0);
        first_fault(&[(17, !self.in_target || matches!(tag, 0 | 16_384..))])?;
        let tags = &mut self.target.1;
        first_fault(&[
            (7, value.is_empty()),
            (9, tags.contains(&tag)),
            (13, self.standalone && is_offset(false, tag)),
            (11, !allows(false, tag, value.len())),
            (12, is_pixel(false, tag) && zero),
            (17, is_number(false, tag) && value.len() > 1 && value.starts_with(&[0])),
        ])?;
        tags.insert(tag);
        self.pack += tag_size(tag) + counted(value.len());
        Ok(end)
    }

    fn open_series(&mut self, sheet: &[u8], at: usize) -> Result<usize, u8> {
        first_fault(&[
            (17, !sheet[at + 2..].starts_with(b"TG")),
            (9, self.series),
            (14, self.standalone && at == 3),
        ])?;
        (self.series, self.in_series) = (true, true);
        Ok(at + 2)
    }

    fn open_target(&mut self, sheet: &[u8], at: usize) -> Result<usize, u8> {
        let id = sheet.get(at + 2..at + 10).ok_or(17)?;
        let id = id.iter().fold(0, |sum, byte| sum << 8 | u64::from(*byte));
        first_fault(&[(17, !self.in_series || id >> 63 == 1), (10, self.ids.contains(&id))])?;
        self.ids.insert(id);
        self.target = (at, HashSet::new());
        self.in_target = true;
        self.pack = (1..9).find(|width| id >> (7 * width) == 0).unwrap_or(9);
        Ok(at + 10)
    }

    fn packet(&self) -> usize {
        let series = if self.series { 1 + counted(self.packs) } else { 0 };
        match self.standalone {
            true => 16 + counted(self.set + series + 4),
            false => self.set + series,
        }
    }
}

/// The answer of a sheet with room to spare: the bytes of its packet.
pub fn check(sheet: &[u8]) -> Result<usize, Refusal> {
    if sheet.len() > 65_536 {
        return refuse(1, 0);
    }
    let whole = sheet.starts_with(b"PK\x00") || sheet.starts_with(b"PK\x01");
    if !whole {
        return refuse(17, 0);
    }
    let mut story = Story { standalone: sheet[2] == 1, ..Story::default() };
    let mut at = 3;
    while at < sheet.len() {
        let mark = sheet.get(at..at + 2).unwrap_or(&[]);
        if mark != b"TI" {
            story.leave_target()?;
        }
        let next = match mark {
            b"IT" => story.set_item(sheet, at),
            b"TS" => story.open_series(sheet, at),
            b"TG" => story.open_target(sheet, at),
            b"TI" => story.target_item(sheet, at),
            _ => Err(17),
        };
        at = next.or_else(|number| refuse(number, at))?;
    }
    story.leave_target()?;
    if story.standalone && sheet.len() == 3 {
        return refuse(14, 3);
    }
    match story.packet() {
        long if long > 8_192 => refuse(1, 0),
        count => Ok(count),
    }
}
