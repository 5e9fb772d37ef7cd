//! The checking pass over a packet: a set holds a series, a series holds
//! packs, a pack holds items, and the first fault is answered.

use crate::coding;
use crate::packet::{quick_item, read_item, read_pack, Form, Item, Pack, Visit, KEY};
use crate::refusal::*;
use crate::repeat::{first_id, first_tag, Rising};
use crate::table::{pack_rule, quick_table, set_rule, Held, Kind, QuickTable, LOCATED, UNPAIRED};
use crate::walk::{Ids, Tags};
use crate::PACKET_LIMIT;

/// Checks a packet and gives where its set begins. A visitor hears of items
/// before a later fault is found, so it may only take notes.
pub(crate) fn check(form: Form, packet: &[u8], visit: &mut impl Visit) -> Result<usize, Refusal> {
    let start = open(form, packet)?;
    let standalone = form == Form::Standalone;
    let mut level = Level::<true>::new(packet, start, standalone);
    let mut checksum = None;
    let mut at = start;
    while at < packet.len() {
        if let Some(item) = level.quick_item(at) {
            visit.set_item(&item);
            at = item.end;
            continue;
        }
        let item = level.item(at).or_else(|number| refuse(number, at))?;
        match item.kind {
            Kind::Series => {
                visit.series(&item);
                check_series(&packet[..item.end], item.start, standalone, visit)?;
                visit.series_end(&item);
            }
            Kind::Checksum => {
                visit.checksum(&item);
                checksum = Some(item);
            }
            _ => visit.set_item(&item),
        }
        at = item.end;
    }
    if standalone {
        check_sum(packet, checksum)?;
    }
    Ok(start)
}

/// 1, 2 and the outer length: where the set begins.
fn open(form: Form, packet: &[u8]) -> Result<usize, Refusal> {
    if packet.len() > PACKET_LIMIT {
        return refuse(OVER_LIMIT, 0);
    }
    if form == Form::Embedded {
        return Ok(0);
    }
    if !packet.starts_with(&KEY) {
        return refuse(NOT_KEY, 0);
    }
    match coding::length(packet, KEY.len()) {
        Ok((length, start)) if length == packet.len() - start => Ok(start),
        Ok(_) => refuse(PAST_END, 0),
        Err(number) => refuse(number, 0),
    }
}

/// The end of a standalone packet: 14, then 15.
fn check_sum(packet: &[u8], item: Option<Item>) -> Result<(), Refusal> {
    let Some(item) = item else {
        return refuse(MISSING, packet.len());
    };
    let sum = coding::checksum(&packet[..item.start]);
    if packet[item.start..item.end] != sum.to_be_bytes() {
        return refuse(CHECKSUM_DIFFERS, item.place);
    }
    Ok(())
}

/// The packs of a series, which ends where `bytes` do.
fn check_series(
    bytes: &[u8],
    start: usize,
    standalone: bool,
    visit: &mut impl Visit,
) -> Result<(), Refusal> {
    let mut ids = Rising::new();
    let mut at = start;
    while at < bytes.len() {
        let pack = read_pack(bytes, at).or_else(|number| refuse(number, at))?;
        let first = || first_id(Ids { bytes, at: start });
        if ids.repeats(pack.id + 1, at, first) {
            return refuse(ID_REPEATED, at);
        }
        visit.pack(&pack);
        check_pack(&bytes[..pack.end], &pack, standalone, visit)?;
        visit.pack_end(&pack);
        at = pack.end;
    }
    Ok(())
}

/// The items of a pack, which ends where `bytes` do, then its end.
#[inline]
fn check_pack(
    bytes: &[u8],
    pack: &Pack,
    standalone: bool,
    visit: &mut impl Visit,
) -> Result<(), Refusal> {
    let mut level = Level::<false>::new(bytes, pack.items, standalone);
    let mut held = 0;
    let mut at = pack.items;
    while at < bytes.len() {
        if let Some(item) = level.quick_item(at) {
            held ^= item.held;
            visit.pack_item(&item);
            at = item.end;
            continue;
        }
        let item = level.item(at).or_else(|number| refuse(number, at))?;
        held ^= item.held;
        visit.pack_item(&item);
        at = item.end;
    }
    check_end(held, standalone).or_else(|number| refuse(number, pack.place))
}

/// The end of a pack: 20, then 14.
#[inline(always)]
pub(crate) fn check_end(held: Held, standalone: bool) -> Result<(), u8> {
    // One question for both, as nearly every pack is whole.
    let asked = if standalone { UNPAIRED | LOCATED } else { UNPAIRED };
    if (held ^ LOCATED) & asked == 0 {
        return Ok(());
    }
    Err(if held & UNPAIRED != 0 { LONE } else { MISSING })
}

/// A set or a pack while its items are checked.
struct Level<'a, const SET: bool> {
    /// The packet up to the level's end.
    bytes: &'a [u8],
    start: usize,
    standalone: bool,
    tags: Rising,
    quick: &'static QuickTable,
}

impl<'a, const SET: bool> Level<'a, SET> {
    #[inline]
    fn new(bytes: &'a [u8], start: usize, standalone: bool) -> Self {
        let (tags, quick) = (Rising::new(), quick_table(SET, standalone));
        Level { bytes, start, standalone, tags, quick }
    }

    /// An item that rises above those before and asks nothing else of the
    /// rules, or nothing.
    #[inline(always)]
    fn quick_item(&mut self, at: usize) -> Option<Item> {
        let first = SET && at == self.start;
        let item = quick_item::<SET>(self.bytes, at, self.quick)?;
        (!first && self.tags.rises(u64::from(item.tag))).then_some(item)
    }

    /// The one rule for both levels: 3, 4, 3, 5, 6, 7, 9, 13, 14, 11, 12.
    #[inline(always)]
    fn item(&mut self, at: usize) -> Result<Item, u8> {
        let (bytes, start) = (self.bytes, self.start);
        let item = read_item::<SET>(bytes, at)?;
        if item.end == item.start {
            return Err(EMPTY);
        }
        let first = || first_tag(Tags::<SET> { bytes, at: start });
        if self.tags.repeats(u64::from(item.tag), at, first) {
            return Err(TAG_REPEATED);
        }
        let rule = if SET { set_rule(item.tag) } else { pack_rule(item.tag) };
        if SET && item.kind == Kind::Checksum && !(self.standalone && item.end == bytes.len()) {
            return Err(MAY_NOT_STAND);
        }
        if !SET && rule.offset && self.standalone {
            return Err(MAY_NOT_STAND);
        }
        if SET && self.standalone && at == start && item.tag != 2 {
            return Err(MISSING);
        }
        if !rule.allows(item.end - item.start) {
            return Err(LENGTH_NOT_ALLOWED);
        }
        if !SET && item.kind == Kind::Pixel && bytes[item.short] == 0 {
            return Err(PIXEL_ZERO);
        }
        Ok(item)
    }
}
