//! Locate: rows, one for each item and pack.

use crate::check_packet::check;
use crate::packet::{Form, Item, Pack, Visit};
use crate::refusal::{room, Answer};
use crate::walk::walk;

/// Where one item's or pack's value stands.
#[derive(Clone, Copy, Debug, Default, PartialEq, Eq)]
pub struct Row {
    /// 0 for the set, then 1, 2 .. by position in the series.
    pub target: u32,
    /// 0 for a pack's own row.
    pub tag: u32,
    /// From the input's start; for a pack from its id.
    pub offset: u32,
    pub length: u32,
}

/// Fills the lent rows: the count of rows written.
pub fn locate(form: Form, packet: &[u8], rows: &mut [Row]) -> Answer {
    let mut count = Count { rows: 0 };
    let start = check(form, packet, &mut count)?;
    room(count.rows, rows.len())?;
    let rows = &mut rows[..count.rows];
    walk(packet, start, &mut Fill { rows, at: 0, target: 0 });
    Ok(count.rows)
}

struct Count {
    rows: usize,
}

impl Visit for Count {
    #[inline]
    fn set_item(&mut self, _: &Item) {
        self.rows += 1;
    }

    #[inline]
    fn checksum(&mut self, _: &Item) {
        self.rows += 1;
    }

    #[inline]
    fn series(&mut self, _: &Item) {
        self.rows += 1;
    }

    #[inline]
    fn pack(&mut self, _: &Pack) {
        self.rows += 1;
    }

    #[inline]
    fn pack_item(&mut self, _: &Item) {
        self.rows += 1;
    }
}

struct Fill<'a> {
    rows: &'a mut [Row],
    at: usize,
    target: u32,
}

impl Fill<'_> {
    #[inline(always)]
    fn row(&mut self, target: u32, tag: u16, start: usize, end: usize) {
        let (offset, length) = (start as u32, (end - start) as u32);
        self.rows[self.at] = Row { target, tag: u32::from(tag), offset, length };
        self.at += 1;
    }
}

impl Visit for Fill<'_> {
    #[inline]
    fn set_item(&mut self, item: &Item) {
        self.row(0, item.tag, item.start, item.end);
    }

    #[inline]
    fn checksum(&mut self, item: &Item) {
        self.row(0, item.tag, item.start, item.end);
    }

    #[inline]
    fn series(&mut self, item: &Item) {
        self.row(0, item.tag, item.start, item.end);
    }

    #[inline]
    fn pack(&mut self, pack: &Pack) {
        self.target += 1;
        self.row(self.target, 0, pack.start, pack.end);
    }

    #[inline]
    fn pack_item(&mut self, item: &Item) {
        self.row(self.target, item.tag, item.start, item.end);
    }
}
