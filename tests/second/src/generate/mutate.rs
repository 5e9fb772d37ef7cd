//! Damage done to bytes without looking: bit flips, cuts, insertions,
//! splices.

use super::random::Random;
use super::tree::{push_length, sum};
use crate::packet::{Form, KEY};

/// Bytes at which the coding changes.
const TELLING: [u8; 20] = [
    0x00, 0x01, 0x02, 0x03, 0x05, 0x06, 0x0A, 0x11, 0x13, 0x64, 0x65, 0x66, 0x7F, 0x80, 0x81, 0x82,
    0x84, 0x85, 0xFE, 0xFF,
];

/// Changes bytes in some way, once or a few times.
pub fn mutate(random: &mut Random, bytes: &mut Vec<u8>, other: &[u8]) {
    let times = random.pick(&[1, 1, 1, 2, 4]);
    for _ in 0..times {
        once(random, bytes, other);
    }
}

fn once(random: &mut Random, bytes: &mut Vec<u8>, other: &[u8]) {
    let at = random.below(bytes.len());
    let until = random.between(at, bytes.len().min(at + 12));
    match random.below(9) {
        0 | 1 if !bytes.is_empty() => bytes[at] ^= 1 << random.below(8),
        2 | 3 if !bytes.is_empty() => bytes[at] = random.pick(&TELLING),
        4 => bytes.truncate(at),
        5 => {
            let count = random.between(1, 5);
            let inserted = telling(random, count);
            bytes.splice(at..at, inserted);
        }
        6 => {
            bytes.drain(at..until);
        }
        7 => {
            let copied = bytes[at..until].to_vec();
            let to = random.below(bytes.len() + 1);
            bytes.splice(to..to, copied);
        }
        _ => {
            let from = random.below(other.len());
            bytes.truncate(at);
            bytes.extend(&other[from..]);
        }
    }
}

/// Bytes chosen so that they often mean something.
pub fn telling(random: &mut Random, count: usize) -> Vec<u8> {
    let mut byte = || match random.below(4) {
        0 => random.byte(),
        1 => random.byte() % 8,
        _ => random.pick(&TELLING),
    };
    (0..count).map(|_| byte()).collect()
}

/// Gives a standalone packet an exact outer length and, where the bytes of
/// set tag 1 stand at the end, a right sum, so that later questions are
/// reached.
pub fn repair(form: Form, bytes: &[u8]) -> Vec<u8> {
    if form == Form::Embedded || !bytes.starts_with(&KEY) || bytes.len() < 17 {
        return bytes.to_vec();
    }
    let width = match bytes[16] {
        long @ 0x81..=0x84 => usize::from(long & 0x7F),
        _ => 0,
    };
    let set = bytes.get(17 + width..).unwrap_or(&[]);
    let mut out = KEY.to_vec();
    push_length(&mut out, set.len(), width as u8);
    out.extend(set);
    let end = out.len().saturating_sub(2);
    if set.len() >= 4 && out[end - 2..end] == [1, 2] {
        let sum = sum(&out[..end]);
        out[end..].copy_from_slice(&sum.to_be_bytes());
    }
    out
}
