//! Edit one item of a packet, or two of one target, keeping all that stands
//! elsewhere.

use crate::check_packet::check;
use crate::coding::{shortest, TAG_LIMIT};
use crate::find::{Find, Level};
use crate::out::Out;
use crate::packet::Form;
use crate::refusal::*;
use crate::splice::{NewItem, Splice};
use crate::table::{pack_rule, set_rule, Kind, Rule, LOCATED, UNPAIRED};
use crate::PACKET_LIMIT;

/// What an edit does to its item.
#[derive(Clone, Copy, Debug, PartialEq, Eq)]
pub enum Change<'a> {
    Put(&'a [u8]),
    Remove,
}

/// Edits one item: the count of bytes written.
pub fn edit(
    form: Form,
    packet: &[u8],
    level: Level,
    tag: u64,
    change: Change,
    out: &mut [u8],
) -> Answer {
    edit_all(form, packet, level, [(tag, change)], out)
}

/// Edits two items of one target, in the order given and judged as one: the
/// count of bytes written.
#[allow(clippy::too_many_arguments)]
pub fn edit_two(
    form: Form,
    packet: &[u8],
    level: Level,
    tag: u64,
    change: Change,
    tag2: u64,
    change2: Change,
    out: &mut [u8],
) -> Answer {
    edit_all(form, packet, level, [(tag, change), (tag2, change2)], out)
}

/// The packet's own answer, each change in turn, then 20, 14, 1, 16.
fn edit_all<const N: usize>(
    form: Form,
    packet: &[u8],
    level: Level,
    changes: [(u64, Change); N],
    out: &mut [u8],
) -> Answer {
    let mut found = Find::new(level, changes.map(|(tag, _)| tag));
    let start = check(form, packet, &mut found)?;
    let items = plan(form, level, changes, &found).or_else(|number| refuse(number, 0))?;
    let splice = Splice::new(form, packet, start, items, &found);
    if splice.total > PACKET_LIMIT {
        return refuse(OVER_LIMIT, 0);
    }
    room(splice.total, out.len())?;
    splice.write(Out::new(&mut out[..splice.total]));
    Ok(splice.total)
}

/// The items as they will be written, none for a removal: each change in
/// turn, then what the end of the level asks of the result of all.
fn plan<'a, const N: usize>(
    form: Form,
    level: Level,
    changes: [(u64, Change<'a>); N],
    found: &Find<N>,
) -> Result<[NewItem<'a>; N], u8> {
    let standalone = form == Form::Standalone;
    let mut items = [None; N];
    for turn in 0..N {
        let (tag, change) = changes[turn];
        // A second change names another item of a target.
        let again = turn > 0 && (level == Level::Set || tag == changes[0].0);
        if again || !editable(level, tag) {
            return Err(NOT_EDITABLE);
        }
        // So no change before has touched the item that was found.
        items[turn] = plan_one(standalone, level, tag as u16, change, found, turn)?;
    }
    check_result(standalone, level, &items, found)?;
    Ok(items)
}

/// Whether an edit may name the tag, for 19.
fn editable(level: Level, tag: u64) -> bool {
    (1..=TAG_LIMIT).contains(&tag) && !(level == Level::Set && matches!(tag, 1 | 101))
}

/// One change after its 19: 18, then for a put 7, 13, 11, 12.
#[inline(always)]
fn plan_one<'a, const N: usize>(
    standalone: bool,
    level: Level,
    tag: u16,
    change: Change<'a>,
    found: &Find<N>,
    turn: usize,
) -> Result<NewItem<'a>, u8> {
    let set = level == Level::Set;
    if !set && found.pack.is_none() {
        return Err(ABSENT);
    }
    match change {
        Change::Put(value) => {
            let rule = if set { set_rule(tag) } else { pack_rule(tag) };
            Ok(Some((tag, value_to_put(rule, standalone, value)?)))
        }
        Change::Remove if found.items[turn].is_none() => Err(ABSENT),
        Change::Remove => Ok(None),
    }
}

/// The value as it will stand: 7, 13, 11, 12.
fn value_to_put<'a>(rule: &Rule, standalone: bool, value: &'a [u8]) -> Result<&'a [u8], u8> {
    if value.is_empty() {
        return Err(EMPTY);
    }
    if standalone && rule.offset {
        return Err(MAY_NOT_STAND);
    }
    if !rule.allows(value.len()) {
        return Err(LENGTH_NOT_ALLOWED);
    }
    if !rule.is_number() {
        return Ok(value);
    }
    let value = shortest(value);
    if rule.kind == Kind::Pixel && value == [0] {
        return Err(PIXEL_ZERO);
    }
    Ok(value)
}

/// 20, then 14. The packet was accepted, so a pack had both of 19 and 20 or
/// neither: one is left alone if just one of them came or went.
fn check_result<const N: usize>(
    standalone: bool,
    level: Level,
    items: &[NewItem; N],
    found: &Find<N>,
) -> Result<(), u8> {
    let (mut moved, mut untimed) = (0, false);
    for (new, old) in items.iter().zip(&found.items) {
        let tag = match (old, new) {
            (Some(old), None) => old.tag,
            (None, Some((tag, _))) => *tag,
            _ => continue,
        };
        match level {
            Level::Set => untimed |= tag == 2 && new.is_none(),
            Level::Target(_) => moved ^= pack_rule(tag).held,
        }
    }
    if moved & UNPAIRED != 0 {
        return Err(LONE);
    }
    // Every standalone pack had tag 17, so there it can only have gone.
    if standalone && (untimed || moved & LOCATED != 0) {
        return Err(MISSING);
    }
    Ok(())
}
