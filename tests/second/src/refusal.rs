//! Refusals: a number and a place, and the one number the C viewer gets.

/// Why a call said no, and where.
#[derive(Clone, Copy, Debug, PartialEq, Eq)]
pub struct Refusal {
    /// 1 to 20, as in document 01's table and request 1.
    pub number: u8,
    /// Counted from the input's start; for 16 the number needed.
    pub place: usize,
}

/// The count of bytes or rows written, or a refusal.
pub type Answer = Result<usize, Refusal>;

/// An answer as one number: 256 times the place or count, plus the number.
pub fn answer_number(answer: Answer) -> u64 {
    match answer {
        Ok(count) => 256 * count as u64,
        Err(refusal) => 256 * refusal.place as u64 + u64::from(refusal.number),
    }
}

pub(crate) const OVER_LIMIT: u8 = 1;
pub(crate) const NOT_KEY: u8 = 2;
pub(crate) const CUT: u8 = 3;
pub(crate) const BAD_TAG: u8 = 4;
pub(crate) const BAD_LENGTH: u8 = 5;
pub(crate) const PAST_END: u8 = 6;
pub(crate) const EMPTY: u8 = 7;
pub(crate) const BAD_ID: u8 = 8;
pub(crate) const TAG_REPEATED: u8 = 9;
pub(crate) const ID_REPEATED: u8 = 10;
pub(crate) const LENGTH_NOT_ALLOWED: u8 = 11;
pub(crate) const PIXEL_ZERO: u8 = 12;
pub(crate) const MAY_NOT_STAND: u8 = 13;
pub(crate) const MISSING: u8 = 14;
pub(crate) const CHECKSUM_DIFFERS: u8 = 15;
pub(crate) const TOO_SHORT: u8 = 16;
pub(crate) const BAD_RECORD: u8 = 17;
pub(crate) const ABSENT: u8 = 18;
pub(crate) const NOT_EDITABLE: u8 = 19;
pub(crate) const LONE: u8 = 20;

pub(crate) fn refuse<T>(number: u8, place: usize) -> Result<T, Refusal> {
    Err(Refusal { number, place })
}

/// The last question of each call: is there room for what is needed?
pub(crate) fn room(needed: usize, lent: usize) -> Result<(), Refusal> {
    if needed > lent {
        return refuse(TOO_SHORT, needed);
    }
    Ok(())
}
