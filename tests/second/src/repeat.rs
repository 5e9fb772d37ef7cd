//! Tags once per level and ids once per series.
//!
//! While the numbers rise strictly none can be a repeat. Where one does not,
//! the whole level is looked through once for its first repeat, and from
//! then on only that place is compared.

use crate::coding::TAG_LIMIT;

/// The numbers of one level so far.
pub(crate) struct Rising {
    greatest: u64,
    repeat: Option<usize>,
}

/// The place of the first repeat where there is none.
const NOWHERE: usize = usize::MAX;

impl Rising {
    #[inline(always)]
    pub fn new() -> Rising {
        Rising { greatest: 0, repeat: None }
    }

    /// Whether the number is above all before, and so no repeat.
    #[inline(always)]
    pub fn rises(&mut self, number: u64) -> bool {
        let rises = number > self.greatest;
        if rises {
            self.greatest = number;
        }
        rises
    }

    /// Whether the number at this place stood before; `number` is above 0.
    #[inline(always)]
    pub fn repeats(&mut self, number: u64, place: usize, first: impl FnOnce() -> usize) -> bool {
        !self.rises(number) && *self.repeat.get_or_insert_with(first) == place
    }
}

/// Which of the numbers up to the greatest tag stood before.
struct Small([u64; (TAG_LIMIT as usize + 1) / 64]);

impl Small {
    fn new() -> Small {
        Small([0; (TAG_LIMIT as usize + 1) / 64])
    }

    /// Notes the number: did it stand before?
    #[inline]
    fn again(&mut self, number: usize) -> bool {
        let word = &mut self.0[number / 64];
        let before = *word;
        *word |= 1 << (number % 64);
        *word == before
    }
}

/// The place of the first tag that stood before.
#[cold]
#[inline(never)]
pub(crate) fn first_tag(tags: impl Iterator<Item = (usize, u16)> + Clone) -> usize {
    first_short(tags.clone()).unwrap_or_else(|| first_long(tags))
}

/// The same among tags of one byte, or nothing at the first of two.
#[inline(always)]
fn first_short(tags: impl Iterator<Item = (usize, u16)>) -> Option<usize> {
    let mut seen = 0u128;
    for (place, tag) in tags {
        let bit = 1u128.checked_shl(u32::from(tag))?;
        if seen & bit != 0 {
            return Some(place);
        }
        seen |= bit;
    }
    Some(NOWHERE)
}

#[inline(never)]
fn first_long(mut tags: impl Iterator<Item = (usize, u16)>) -> usize {
    let mut seen = Small::new();
    let found = tags.find(|&(_, tag)| seen.again(usize::from(tag)));
    found.map_or(NOWHERE, |(place, _)| place)
}

/// The place of the first id that stood before.
#[cold]
#[inline(never)]
pub(crate) fn first_id(ids: impl Iterator<Item = (usize, u64)> + Clone) -> usize {
    // A sheet holds fewer than 8,192 targets, half the larger table.
    first_in::<1_024>(ids.clone()).or_else(|| first_in::<16_384>(ids)).unwrap_or(NOWHERE)
}

/// The same with room for half of `SLOTS` ids of more than two bytes, or
/// nothing if there are more.
#[inline(never)]
fn first_in<const SLOTS: usize>(ids: impl Iterator<Item = (usize, u64)>) -> Option<usize> {
    let mut seen = Small::new();
    let mut slots = [0u64; SLOTS];
    let mut room = SLOTS / 2;
    for (place, id) in ids {
        if id <= TAG_LIMIT {
            if seen.again(id as usize) {
                return Some(place);
            }
            continue;
        }
        let spread = id.wrapping_mul(0x9E37_79B9_7F4A_7C15);
        let mut slot = (spread >> (64 - SLOTS.trailing_zeros())) as usize % SLOTS;
        while slots[slot] != 0 && slots[slot] != id {
            slot = (slot + 1) % SLOTS;
        }
        if slots[slot] == id {
            return Some(place);
        }
        room = room.checked_sub(1)?;
        slots[slot] = id;
    }
    Some(NOWHERE)
}
