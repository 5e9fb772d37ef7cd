//! Writing a packet's pieces into lent room, each in its one shortest coding.
//!
//! What is common is written in line; what is rare goes through functions of
//! their own, which take the room and an offset and give the next offset, so
//! that the state of a pass stays in registers.

use crate::coding::{checksum, id_width, length_width};

/// The lent output, cut to the bytes needed, and how far it is written.
pub(crate) struct Out<'a> {
    bytes: &'a mut [u8],
    at: usize,
}

impl<'a> Out<'a> {
    pub fn new(bytes: &'a mut [u8]) -> Out<'a> {
        Out { bytes, at: 0 }
    }

    #[inline(always)]
    pub fn copy(&mut self, part: &[u8]) {
        self.bytes[self.at..self.at + part.len()].copy_from_slice(part);
        self.at += part.len();
    }

    /// Copies the first `count` bytes of `from`.
    #[inline(always)]
    pub fn copy_front(&mut self, from: &[u8], count: usize) {
        copy_front(&mut self.bytes[self.at..], from, count);
        self.at += count;
    }

    #[inline(always)]
    pub fn tag(&mut self, tag: u16) {
        self.at = write_tag(self.bytes, self.at, tag);
    }

    #[inline(always)]
    pub fn length(&mut self, length: usize) {
        self.at = write_length(self.bytes, self.at, length);
    }

    #[inline(always)]
    pub fn id(&mut self, id: u64) {
        if id < 0x80 {
            self.bytes[self.at] = id as u8;
            self.at += 1;
        } else {
            self.at = write_id(self.bytes, self.at, id);
        }
    }

    /// Tag, length and value, the first `count` bytes of `from`.
    #[inline(always)]
    pub fn item(&mut self, tag: u16, from: &[u8], count: usize) {
        if tag > 0x7F || count > 0x7F {
            self.at = write_item(self.bytes, self.at, tag, &from[..count]);
        } else {
            self.short_item(tag as u8, from, count);
        }
    }

    /// The same with one byte each of tag and length.
    #[inline(always)]
    pub fn short_item(&mut self, tag: u8, from: &[u8], count: usize) {
        let to = &mut self.bytes[self.at..];
        to[..2].copy_from_slice(&[tag, count as u8]);
        copy_front(&mut to[2..], from, count);
        self.at += 2 + count;
    }

    /// Opens a pack: leaves one byte for its length, as nearly all need.
    #[inline(always)]
    pub fn open_pack(&mut self) -> usize {
        self.at += 1;
        self.at - 1
    }

    /// Closes the pack opened at `place`.
    #[inline(always)]
    pub fn close_pack(&mut self, place: usize) {
        let length = self.at - place - 1;
        if length < 0x80 {
            self.bytes[place] = length as u8;
        } else {
            self.at = move_pack(self.bytes, place, length);
        }
    }

    /// Set tag 1 with the sum of all that was written before its value.
    pub fn checksum(&mut self) {
        self.copy(&[1, 2]);
        let sum = checksum(&self.bytes[..self.at]);
        self.copy(&sum.to_be_bytes());
    }
}

fn write_tag(bytes: &mut [u8], at: usize, tag: u16) -> usize {
    if tag < 0x80 {
        bytes[at] = tag as u8;
        return at + 1;
    }
    bytes[at] = 0x80 | (tag >> 7) as u8;
    bytes[at + 1] = (tag & 0x7F) as u8;
    at + 2
}

/// A length is never above the packet limit here.
fn write_length(bytes: &mut [u8], at: usize, length: usize) -> usize {
    let (width, low) = (length_width(length), length as u8);
    match width {
        1 => bytes[at] = low,
        2 => bytes[at..at + 2].copy_from_slice(&[0x81, low]),
        _ => bytes[at..at + 3].copy_from_slice(&[0x82, (length >> 8) as u8, low]),
    }
    at + width
}

fn write_id(bytes: &mut [u8], at: usize, id: u64) -> usize {
    let width = id_width(id);
    let mut rest = id;
    for byte in bytes[at..at + width].iter_mut().rev() {
        *byte = 0x80 | rest as u8;
        rest >>= 7;
    }
    bytes[at + width - 1] &= 0x7F;
    at + width
}

#[inline(never)]
fn write_item(bytes: &mut [u8], at: usize, tag: u16, value: &[u8]) -> usize {
    let at = write_tag(bytes, at, tag);
    let at = write_length(bytes, at, value.len());
    bytes[at..at + value.len()].copy_from_slice(value);
    at + value.len()
}

/// Moves a pack of so many bytes on, as its length needs more than one.
#[inline(never)]
fn move_pack(bytes: &mut [u8], place: usize, length: usize) -> usize {
    let from = place + 1;
    bytes.copy_within(from..from + length, place + length_width(length));
    write_length(bytes, place, length) + length
}

/// Copies the first `count` bytes. What lies after them in `to` is written
/// later, so where there is room a short part is copied as one chunk.
#[inline(always)]
pub(crate) fn copy_front(to: &mut [u8], from: &[u8], count: usize) {
    const CHUNK: usize = 16;
    if count <= CHUNK {
        if let (Some(to), Some(from)) = (to.first_chunk_mut::<CHUNK>(), from.first_chunk()) {
            *to = *from;
            return;
        }
    }
    copy_exactly(&mut to[..count], &from[..count]);
}

/// Apart from the chunk above, or the two would be made one call.
#[inline(never)]
fn copy_exactly(to: &mut [u8], from: &[u8]) {
    to.copy_from_slice(from);
}
