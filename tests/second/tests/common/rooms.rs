//! Demand 1 of one call: the same answer in every room, and no lent byte or
//! row changed that should not be.

use second::{Answer, Refusal, Row};
use std::fmt::Debug;

/// What lent room is filled with before a call.
pub trait Pattern: Copy + PartialEq + Debug {
    fn pattern(at: usize) -> Self;
}

impl Pattern for u8 {
    fn pattern(at: usize) -> u8 {
        (at * 31 + 7) as u8
    }
}

impl Pattern for Row {
    fn pattern(at: usize) -> Row {
        let at = at as u32;
        Row { target: !at, tag: at ^ 0xA5A5, offset: !at / 3, length: 77_777 + at }
    }
}

fn lent<T: Pattern>(count: usize) -> Vec<T> {
    (0..count).map(T::pattern).collect()
}

fn assert_untouched<T: Pattern>(lent: &[T], from: usize) {
    for (at, &found) in lent.iter().enumerate().skip(from) {
        assert_eq!(found, T::pattern(at), "changed at {at}");
    }
}

/// Calls with no room, one too few, exact room and some to spare: what was
/// written, or the refusal, 16 aside.
pub fn in_every_room<T: Pattern>(
    mut call: impl FnMut(&mut [T]) -> Answer,
) -> Result<Vec<T>, Refusal> {
    let needed = match call(&mut []) {
        Ok(count) => {
            assert_eq!(count, 0, "something written into nothing");
            0
        }
        Err(Refusal { number: 16, place }) => {
            assert!(place > 0, "16 though nothing is needed");
            place
        }
        Err(refusal) => {
            let mut room = lent::<T>(50);
            assert_eq!(call(&mut room), Err(refusal), "the room changed the refusal");
            assert_untouched(&room, 0);
            return Err(refusal);
        }
    };
    if needed > 0 {
        let mut room = lent::<T>(needed - 1);
        let short = Refusal { number: 16, place: needed };
        assert_eq!(call(&mut room), Err(short), "one too few");
        assert_untouched(&room, 0);
    }
    let mut exact = lent::<T>(needed);
    assert_eq!(call(&mut exact), Ok(needed), "exact room");
    let mut room = lent::<T>(needed + 9);
    assert_eq!(call(&mut room), Ok(needed), "room to spare");
    assert_untouched(&room, needed);
    assert_eq!(room[..needed], exact[..], "the room changed the result");
    Ok(exact)
}
