//! The sheet: its records.

use crate::coding::{ID_LIMIT, TAG_LIMIT};

/// The form: once, first.
pub const PK: [u8; 2] = *b"PK";
/// An item of the set.
pub const IT: [u8; 2] = *b"IT";
/// Where the series stands.
pub const TS: [u8; 2] = *b"TS";
/// A target.
pub const TG: [u8; 2] = *b"TG";
/// An item of the target before it.
pub const TI: [u8; 2] = *b"TI";

/// Bytes of a `PK` record.
pub(crate) const OPENING: usize = 3;
/// Bytes of a `TG` record.
pub(crate) const TARGET: usize = 10;
/// Bytes of an `IT` or `TI` record before its value.
pub(crate) const HEAD: usize = 6;

/// The value of an `IT` or `TI` record, by offsets in the sheet.
#[derive(Clone, Copy)]
pub(crate) struct Tagged {
    pub tag: u16,
    pub start: usize,
    pub end: usize,
}

/// The mark of the record at an offset, if it is not cut.
#[inline(always)]
pub(crate) fn mark(sheet: &[u8], at: usize) -> Option<[u8; 2]> {
    sheet.get(at..)?.first_chunk().copied()
}

/// What an `IT` or `TI` record says, unless it is cut or has a tag that no
/// record may have.
#[inline(always)]
pub(crate) fn tagged(sheet: &[u8], at: usize) -> Option<Tagged> {
    let head = sheet.get(at..)?.first_chunk::<HEAD>()?;
    let tag = u16::from_be_bytes([head[2], head[3]]);
    let length = usize::from(u16::from_be_bytes([head[4], head[5]]));
    let start = at + HEAD;
    let whole = length <= sheet.len() - start;
    let named = tag > 0 && u64::from(tag) <= TAG_LIMIT;
    (whole && named).then_some(Tagged { tag, start, end: start + length })
}

/// A whole `TI` record of a one-byte tag and a value below 128 bytes, as
/// nearly all are.
#[inline(always)]
pub(crate) fn quick_tagged(sheet: &[u8], at: usize) -> Option<Tagged> {
    const SMALL: u32 = u32::from_be_bytes([TI[0], TI[1], 0, 0]);
    let head = sheet.get(at..)?.first_chunk::<HEAD>()?;
    let tag = u32::from_be_bytes([head[0], head[1], head[2], head[3]]) ^ SMALL;
    let length = usize::from(u16::from_be_bytes([head[4], head[5]]));
    let start = at + HEAD;
    let quick = tag < 128 && length < 128 && length <= sheet.len() - start;
    quick.then_some(Tagged { tag: tag as u16, start, end: start + length })
}

/// The id of a `TG` record, unless it is cut or has an id that none may have.
#[inline(always)]
pub(crate) fn target_id(sheet: &[u8], at: usize) -> Option<u64> {
    let bytes = sheet.get(at + 2..)?.first_chunk()?;
    let id = u64::from_be_bytes(*bytes);
    (id < ID_LIMIT).then_some(id)
}

/// The marks and offsets of records from an offset on, up to the first that
/// is none; for looking back.
#[derive(Clone)]
pub(crate) struct Marks<'a> {
    sheet: &'a [u8],
    at: usize,
}

impl<'a> Marks<'a> {
    pub fn new(sheet: &'a [u8], at: usize) -> Marks<'a> {
        Marks { sheet, at }
    }
}

impl Iterator for Marks<'_> {
    type Item = (usize, [u8; 2]);

    #[inline]
    fn next(&mut self) -> Option<(usize, [u8; 2])> {
        let (place, mark) = (self.at, mark(self.sheet, self.at)?);
        self.at = match mark {
            IT | TI => tagged(self.sheet, place)?.end,
            TG => target_id(self.sheet, place).map(|_| place + TARGET)?,
            TS => place + TS.len(),
            _ => return None,
        };
        Some((place, mark))
    }
}
