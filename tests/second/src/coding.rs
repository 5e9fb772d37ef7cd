//! Tags, lengths and target ids, and the shortest form of a number.
//!
//! Each reader takes the bytes of the nearest parent (cut at its end, offsets
//! as in the whole input) and gives the value with the offset that follows
//! it, or the number of a refusal.

use crate::refusal::{BAD_ID, BAD_LENGTH, BAD_TAG, CUT};

/// The greatest tag that two bytes carry.
pub const TAG_LIMIT: u64 = 16_383;
/// Target ids lie below this.
pub const ID_LIMIT: u64 = 1 << 63;
/// The most bytes of a target id.
const ID_WIDTH: usize = 9;

fn from(bytes: &[u8], at: usize) -> &[u8] {
    bytes.get(at..).unwrap_or(&[])
}

/// Reads a tag: 3 before 4, so a lone `80` is cut.
#[inline]
pub fn tag(bytes: &[u8], at: usize) -> Result<(u16, usize), u8> {
    match *from(bytes, at) {
        [] => Err(CUT),
        [0, ..] => Err(BAD_TAG),
        [only @ 1..=0x7F, ..] => Ok((u16::from(only), at + 1)),
        [_] => Err(CUT),
        [0x80, ..] | [_, 0x80..=0xFF, ..] => Err(BAD_TAG),
        [high, low, ..] => Ok((u16::from(high & 0x7F) << 7 | u16::from(low), at + 2)),
    }
}

/// Reads a length; a bad first byte is 5 even as the last byte there is.
#[inline]
pub fn length(bytes: &[u8], at: usize) -> Result<(usize, usize), u8> {
    match *from(bytes, at) {
        [] => Err(CUT),
        [short @ 0..=0x7F, ..] => Ok((usize::from(short), at + 1)),
        [first @ 0x81..=0x84, ref rest @ ..] => long_length(rest, first & 0x7F, at + 1),
        _ => Err(BAD_LENGTH),
    }
}

#[inline(never)]
fn long_length(rest: &[u8], width: u8, at: usize) -> Result<(usize, usize), u8> {
    let width = usize::from(width);
    let digits = rest.get(..width).ok_or(CUT)?;
    let value = digits.iter().fold(0, |sum, &b| sum << 8 | usize::from(b));
    Ok((value, at + width))
}

/// Reads a target id: 3 before 8, within its first nine bytes.
#[inline(always)]
pub fn id(bytes: &[u8], at: usize) -> Result<(u64, usize), u8> {
    match *from(bytes, at) {
        [only @ 0..=0x7F, ..] => Ok((u64::from(only), at + 1)),
        [high @ 0x81..=0xFF, low @ 0..=0x7F, ..] => {
            Ok((u64::from(high & 0x7F) << 7 | u64::from(low), at + 2))
        }
        ref rest => long_id(rest, at),
    }
}

#[inline(never)]
fn long_id(rest: &[u8], at: usize) -> Result<(u64, usize), u8> {
    let mut value = 0;
    for (index, &byte) in rest.iter().take(ID_WIDTH).enumerate() {
        value = value << 7 | u64::from(byte & 0x7F);
        if byte < 0x80 {
            let padded = rest[0] == 0x80;
            return if padded { Err(BAD_ID) } else { Ok((value, at + index + 1)) };
        }
    }
    Err(if rest.len() < ID_WIDTH { CUT } else { BAD_ID })
}

/// Bytes of a tag as written.
#[inline]
pub fn tag_width(tag: u16) -> usize {
    1 + usize::from(tag > 0x7F)
}

/// Bytes of a shortest length.
#[inline]
pub fn length_width(length: usize) -> usize {
    match length {
        0..=0x7F => 1,
        0x80..=0xFF => 2,
        0x100..=0xFFFF => 3,
        // Nothing this long fits a packet; the width only has to be no less.
        _ => 5,
    }
}

/// Bytes of a target id as written.
#[inline]
pub fn id_width(id: u64) -> usize {
    match id {
        0..=0x7F => 1,
        0x80..=0x3FFF => 2,
        _ => (64 - id.leading_zeros() as usize).div_ceil(7),
    }
}

/// A number without its leading zero bytes; 0 keeps one.
#[inline]
pub fn shortest(mut number: &[u8]) -> &[u8] {
    while let [0, rest @ ..] = number {
        if rest.is_empty() {
            break;
        }
        number = rest;
    }
    number
}

/// The 16-bit sum of bytes, those at even offsets times 256.
pub fn checksum(bytes: &[u8]) -> u16 {
    let pairs = bytes.chunks_exact(2);
    let last = pairs.remainder();
    // The low byte of `words` is the sum at even offsets, all that survives
    // the multiplication; `odd` is the sum at odd offsets.
    let (mut words, mut odd) = (0u16, 0u16);
    for pair in pairs {
        let word = u16::from_le_bytes([pair[0], pair[1]]);
        words = words.wrapping_add(word);
        odd = odd.wrapping_add(word >> 8);
    }
    for &byte in last {
        words = words.wrapping_add(u16::from(byte));
    }
    (words << 8).wrapping_add(odd)
}
