//! Read a packet to a sheet.

use crate::check_packet::check;
use crate::out::copy_front;
use crate::packet::{Form, Item, Pack, Visit};
use crate::refusal::{room, Answer};
use crate::sheet::{IT, PK, TG, TI, TS};
use crate::walk::walk;

/// Reads a packet to its sheet: the count of bytes written.
pub fn read(form: Form, packet: &[u8], sheet: &mut [u8]) -> Answer {
    let mut size = Size { bytes: 3 };
    let start = check(form, packet, &mut size)?;
    room(size.bytes, sheet.len())?;
    let mut out = Records { packet, sheet: &mut sheet[..size.bytes], at: 0 };
    let form = u8::from(form == Form::Standalone);
    out.put(&[PK[0], PK[1], form]);
    walk(packet, start, &mut out);
    Ok(size.bytes)
}

/// Counts the sheet's bytes in the checking pass.
struct Size {
    bytes: usize,
}

impl Visit for Size {
    #[inline]
    fn set_item(&mut self, item: &Item) {
        self.bytes += 6 + item.end - item.short;
    }

    #[inline]
    fn series(&mut self, _: &Item) {
        self.bytes += 2;
    }

    #[inline]
    fn pack(&mut self, _: &Pack) {
        self.bytes += 10;
    }

    #[inline]
    fn pack_item(&mut self, item: &Item) {
        self.bytes += 6 + item.end - item.short;
    }
}

/// Writes the sheet's records in the second pass.
struct Records<'a> {
    packet: &'a [u8],
    sheet: &'a mut [u8],
    at: usize,
}

impl Records<'_> {
    #[inline]
    fn put<const N: usize>(&mut self, bytes: &[u8; N]) {
        self.sheet[self.at..self.at + N].copy_from_slice(bytes);
        self.at += N;
    }

    #[inline(always)]
    fn item(&mut self, mark: [u8; 2], item: &Item) {
        let count = item.end - item.short;
        let tag = item.tag.to_be_bytes();
        let length = (count as u16).to_be_bytes();
        let head = [mark[0], mark[1], tag[0], tag[1], length[0], length[1]];
        let (to, from) = (&mut self.sheet[self.at..], &self.packet[item.short..]);
        to[..6].copy_from_slice(&head);
        copy_front(&mut to[6..], from, count);
        self.at += 6 + count;
    }
}

impl Visit for Records<'_> {
    #[inline]
    fn set_item(&mut self, item: &Item) {
        self.item(IT, item);
    }

    #[inline]
    fn series(&mut self, _: &Item) {
        self.put(&TS);
    }

    #[inline]
    fn pack(&mut self, pack: &Pack) {
        self.put(&TG);
        self.put(&pack.id.to_be_bytes());
    }

    #[inline]
    fn pack_item(&mut self, item: &Item) {
        self.item(TI, item);
    }
}
