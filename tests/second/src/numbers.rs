//! The calls as the C viewer makes them: choices are numbers, and one number
//! comes back.

use crate::{add_target, answer_number, drop_target, edit, edit_two, normalise, read, write};
use crate::{Change, Form, Level};

/// Reads a packet to a sheet.
pub fn read_number(form: u64, packet: &[u8], sheet: &mut [u8]) -> u64 {
    answer_number(read(Form::from_number(form), packet, sheet))
}

/// Writes a sheet to a packet.
pub fn write_number(sheet: &[u8], packet: &mut [u8]) -> u64 {
    answer_number(write(sheet, packet))
}

/// Normalises a packet.
pub fn normalise_number(form: u64, packet: &[u8], out: &mut [u8]) -> u64 {
    answer_number(normalise(Form::from_number(form), packet, out))
}

/// Edits one item: level 0 is the set, where the id is not looked at, and
/// removal 0 is a put; where it is not, the value is not looked at.
#[allow(clippy::too_many_arguments)]
pub fn edit_number(
    form: u64,
    packet: &[u8],
    level: u64,
    id: u64,
    tag: u64,
    removal: u64,
    value: &[u8],
    out: &mut [u8],
) -> u64 {
    let (form, level, change) = (Form::from_number(form), named(level, id), change(removal, value));
    answer_number(edit(form, packet, level, tag, change, out))
}

/// Edits two items of one target, its numbers read as for one; where level 0
/// names the set, the second change is refused in its turn.
#[allow(clippy::too_many_arguments)]
pub fn edit_two_number(
    form: u64,
    packet: &[u8],
    level: u64,
    id: u64,
    tag: u64,
    removal: u64,
    value: &[u8],
    tag2: u64,
    removal2: u64,
    value2: &[u8],
    out: &mut [u8],
) -> u64 {
    let (form, level) = (Form::from_number(form), named(level, id));
    let (first, second) = (change(removal, value), change(removal2, value2));
    answer_number(edit_two(form, packet, level, tag, first, tag2, second, out))
}

/// Adds a target, given as its records.
pub fn add_target_number(form: u64, packet: &[u8], records: &[u8], out: &mut [u8]) -> u64 {
    answer_number(add_target(Form::from_number(form), packet, records, out))
}

/// Drops the target of this id.
pub fn drop_target_number(form: u64, packet: &[u8], target: u64, out: &mut [u8]) -> u64 {
    answer_number(drop_target(Form::from_number(form), packet, target, out))
}

fn named(level: u64, id: u64) -> Level {
    match level {
        0 => Level::Set,
        _ => Level::Target(id),
    }
}

fn change(removal: u64, value: &[u8]) -> Change<'_> {
    match removal {
        0 => Change::Put(value),
        _ => Change::Remove,
    }
}
