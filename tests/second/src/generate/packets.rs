//! Packets to read, normalise and locate.

use super::damage::{damage, NUMBERS};
use super::mutate::{mutate, repair, telling};
use super::random::{self, Random};
use super::tree::Tree;
use super::valid::{self, Style};
use super::{limits, PacketCase};
use crate::packet::{Form, KEY};

/// Which kind of packet an index stands for.
pub fn packet(seed: u64, index: u64) -> PacketCase {
    let random = &mut Random::new(seed, 1, index);
    let form = valid::form(random);
    match index % 16 {
        0..=4 => case(&accepted(random, form)),
        5..=8 => refused(random, form, random::turn(&NUMBERS, index / 16 + index)),
        9..=11 => mutated(random, form),
        12 => case(&limits::tree(random, form)),
        13 => twice_refused(random, form),
        14 => short(random, form),
        _ => PacketCase { form, bytes: bytes_by_chance(random) },
    }
}

/// A tree that is accepted, out of normal form as often as not.
pub fn accepted(random: &mut Random, form: Form) -> Tree {
    let style = Style::any(random);
    valid::tree(random, form, style)
}

fn case(tree: &Tree) -> PacketCase {
    PacketCase { form: tree.form, bytes: tree.bytes() }
}

/// A packet with a fault put in on purpose.
pub fn refused(random: &mut Random, form: Form, number: u8) -> PacketCase {
    let form = if matches!(number, 2 | 14 | 15) { Form::Standalone } else { form };
    let mut tree = accepted(random, form);
    damage(random, &mut tree, number);
    case(&tree)
}

/// Two faults, of which the first must be answered.
fn twice_refused(random: &mut Random, form: Form) -> PacketCase {
    let mut tree = accepted(random, form);
    for _ in 0..2 {
        let number = random.pick(&NUMBERS[2..]);
        damage(random, &mut tree, number);
    }
    case(&tree)
}

/// A packet changed without looking, then sometimes made whole again.
pub fn mutated(random: &mut Random, form: Form) -> PacketCase {
    let mut bytes = accepted(random, form).bytes();
    let other = accepted(random, form).bytes();
    mutate(random, &mut bytes, &other);
    if random.below(4) < 3 {
        bytes = repair(form, &bytes);
    }
    PacketCase { form, bytes }
}

/// A few bytes that often mean something, whole in standalone.
fn short(random: &mut Random, form: Form) -> PacketCase {
    let count = random.below(14);
    let mut set = telling(random, count);
    if form == Form::Embedded {
        return PacketCase { form, bytes: set };
    }
    if random.once_in(2) {
        set.splice(0..0, [2, 8, 0, 0, 0, 0, 0, 0, 0, 0]);
    }
    if random.once_in(2) {
        set.extend([1, 2, 0, 0]);
    }
    let bytes = [KEY.to_vec(), vec![0], set].concat();
    PacketCase { form, bytes: repair(form, &bytes) }
}

fn bytes_by_chance(random: &mut Random) -> Vec<u8> {
    let count = random.pick(&[0, 1, 2, 3, 8, 40]);
    let bytes = telling(random, count);
    match random.below(3) {
        0 => [KEY.to_vec(), bytes].concat(),
        _ => bytes,
    }
}
