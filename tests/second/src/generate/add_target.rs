//! Targets to add: good records and damaged ones, to packets of all shapes.

use super::add_target_damage::{damage, faults, NUMBERS};
use super::edits::bad_packet;
use super::mutate::{mutate, telling};
use super::random::{self, Random};
use super::sheets::{item, target};
use super::targets::{count, fresh_id, lend, needed, records, scene, Records};
use super::tree::Tree;
use super::valid::{self, NORMAL};
use super::{target_edges, AddTargetCase};
use crate::packet::Form;
use crate::PACKET_LIMIT;

/// Which kind of addition an index stands for.
pub fn add_target(seed: u64, index: u64) -> AddTargetCase {
    let random = &mut Random::new(seed, 6, index);
    let form = valid::form(random);
    let turn = index / 16;
    let mut case = match index % 16 {
        0..=4 => good(random, form, turn + index % 16).case(),
        5 => target_edges::pack(random, form),
        6 => target_edges::series(random, form),
        7 => target_edges::outer(random),
        8 => target_edges::limit(random, form),
        9..=11 => damaged(random, form, turn * 3 + index % 16).case(),
        12 => result(random, form, turn).case(),
        13 => several(random, form, turn).case(),
        14 => mutated(random, form, turn),
        _ => packet_refused(random, form, turn),
    };
    let needed = needed(case.answer(&mut []));
    case.room = lend(random, needed);
    case
}

/// An addition while it is made.
pub struct Draft {
    pub tree: Tree,
    pub records: Records,
}

impl Draft {
    pub fn case(&self) -> AddTargetCase {
        let (form, packet, records) = (self.tree.form, self.tree.bytes(), self.records.concat());
        AddTargetCase { form, packet, records, room: PACKET_LIMIT }
    }
}

impl AddTargetCase {
    /// The answer in this much room.
    pub(super) fn answer(&self, out: &mut [u8]) -> crate::Answer {
        crate::add_target(self.form, &self.packet, &self.records, out)
    }
}

/// A target that may be added, if there is space.
fn good(random: &mut Random, form: Form, turn: u64) -> Draft {
    let count = count(random, turn);
    let tree = scene(random, form, count, turn / 8);
    let id = fresh_id(random, &tree);
    let most = random.pick(&[0, 3, 8, 8]);
    let records = records(&valid::pack(random, form, id, most, NORMAL));
    Draft { tree, records }
}

/// One record that breaks a rule, by the number that leads to.
fn damaged(random: &mut Random, form: Form, turn: u64) -> Draft {
    let number = random::turn(&NUMBERS, turn);
    let form = if number == 13 { Form::Standalone } else { form };
    let turn = random.number();
    let mut draft = good(random, form, turn);
    damage(random, &mut draft.records, number);
    draft
}

/// Good records that the packet or their end refuses: each set of 10, 20 and
/// 14, and 1 alone or with them.
fn result(random: &mut Random, form: Form, turn: u64) -> Draft {
    let form = if random.once_in(4) { form } else { Form::Standalone };
    let mut draft = good(random, form, turn / 8 % 7 + 1);
    faults(random, &mut draft, turn);
    if turn / 8 % 4 == 3 {
        let length = random.pick(&[PACKET_LIMIT, 65_535]);
        let times = random.pick(&[1, 1, 2]);
        draft.records.extend((0..times).map(|at| item(b"TI", 16_300 + at, &vec![0; length])));
    }
    draft
}

/// Damage together with what comes after all records, or with more damage.
fn several(random: &mut Random, form: Form, turn: u64) -> Draft {
    let mut draft = good(random, form, turn / 8 % 7 + 1);
    faults(random, &mut draft, turn);
    for _ in 0..random.between(1, 2) {
        let number = random.pick(&NUMBERS);
        damage(random, &mut draft.records, number);
    }
    draft
}

/// Records changed without looking, or bytes by chance.
fn mutated(random: &mut Random, form: Form, turn: u64) -> AddTargetCase {
    let mut case = good(random, form, turn).case();
    if random.once_in(4) {
        let count = random.below(14);
        case.records = [target(5), telling(random, count)].concat();
        let from = random.pick(&[0, 0, 10]);
        case.records.drain(..from);
        return case;
    }
    let other = good(random, form, 1).records.concat();
    mutate(random, &mut case.records, &other);
    case
}

/// An addition to a packet that is itself refused, its records good or not.
fn packet_refused(random: &mut Random, form: Form, turn: u64) -> AddTargetCase {
    let packet = bad_packet(random, form, turn);
    let items = valid::pack(random, packet.form, 1 << 40, 4, NORMAL);
    let mut records = records(&items);
    if random.once_in(2) {
        let number = random.pick(&NUMBERS);
        damage(random, &mut records, number);
    }
    let (form, packet, records) = (packet.form, packet.bytes, records.concat());
    AddTargetCase { form, packet, records, room: PACKET_LIMIT }
}
