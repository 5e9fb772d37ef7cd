//! The checking pass over a sheet, record by record.

use crate::coding::id_width;
use crate::normal::Sizes;
use crate::packet::Form;
use crate::refusal::*;
use crate::repeat::{first_id, first_tag, Rising};
use crate::sheet::{mark, quick_tagged, tagged, target_id, Marks, Tagged};
use crate::sheet::{IT, OPENING, TARGET, TG, TI, TS};
use crate::table::{pack_rule, quick_table, set_rule, Held, Kind, Rule, LOCATED, UNPAIRED};
use crate::{PACKET_LIMIT, SHEET_LIMIT};

/// Checks a sheet: its form and the sizes of its packet, without 16.
pub(crate) fn check(sheet: &[u8]) -> Result<(Form, Sizes), Refusal> {
    if sheet.len() > SHEET_LIMIT {
        return refuse(OVER_LIMIT, 0);
    }
    let form = match *sheet {
        [b'P', b'K', 0, ..] => Form::Embedded,
        [b'P', b'K', 1, ..] => Form::Standalone,
        _ => return refuse(BAD_RECORD, 0),
    };
    let mut check = Check::new(sheet, form);
    let mut at = OPENING;
    while at < sheet.len() {
        at = match mark(sheet, at) {
            Some(TG) => check.target(at)?,
            Some(IT) => check.set_item(at).or_else(|number| refuse(number, at))?,
            Some(TS) => check.series(at).or_else(|number| refuse(number, at))?,
            _ => return refuse(BAD_RECORD, at),
        };
    }
    check.finish(form)
}

/// Where the series is, seen from the record to come.
#[derive(Clone, Copy, PartialEq, Eq)]
enum Series {
    Before,
    Open,
    Closed,
}

struct Check<'a> {
    sheet: &'a [u8],
    standalone: bool,
    sizes: Sizes,
    series: Series,
    tags: Rising,
    ids: Rising,
}

impl<'a> Check<'a> {
    fn new(sheet: &'a [u8], form: Form) -> Check<'a> {
        Check {
            sheet,
            standalone: form == Form::Standalone,
            sizes: Sizes::default(),
            series: Series::Before,
            tags: Rising::new(),
            ids: Rising::new(),
        }
    }

    /// An `IT`: 17, 7, 9, 14, 11, 17. It closes a series.
    fn set_item(&mut self, at: usize) -> Result<usize, u8> {
        let item = tagged(self.sheet, at).ok_or(BAD_RECORD)?;
        if item.tag == 1 || item.tag == 101 {
            return Err(BAD_RECORD);
        }
        self.close_series();
        let value = &self.sheet[item.start..item.end];
        if value.is_empty() {
            return Err(EMPTY);
        }
        let first = || first_tag(set_tags(self.sheet));
        if self.tags.repeats(u64::from(item.tag), at, first) {
            return Err(TAG_REPEATED);
        }
        if self.standalone && at == OPENING && item.tag != 2 {
            return Err(MISSING);
        }
        check_value(set_rule(item.tag), value)?;
        self.sizes.set += Sizes::item(item.tag, value.len());
        Ok(item.end)
    }

    /// A `TS`: 17, 9, 14.
    fn series(&mut self, at: usize) -> Result<usize, u8> {
        let next = at + TS.len();
        if mark(self.sheet, next) != Some(TG) {
            return Err(BAD_RECORD);
        }
        if self.series != Series::Before {
            return Err(TAG_REPEATED);
        }
        if self.standalone && at == OPENING {
            return Err(MISSING);
        }
        self.series = Series::Open;
        Ok(next)
    }

    /// A `TG`: 17, 10, then its items, then its 20 and 14.
    #[inline]
    fn target(&mut self, at: usize) -> Result<usize, Refusal> {
        let id = match target_id(self.sheet, at) {
            Some(id) if self.series == Series::Open => id,
            _ => return refuse(BAD_RECORD, at),
        };
        let first = || first_id(ids(self.sheet));
        if self.ids.repeats(id + 1, at, first) {
            return refuse(ID_REPEATED, at);
        }
        let items = check_target(self.sheet, at + TARGET, self.standalone)?;
        if items.held & UNPAIRED != 0 {
            return refuse(LONE, at);
        }
        if self.standalone && items.held & LOCATED == 0 {
            return refuse(MISSING, at);
        }
        self.sizes.pack = id_width(id) + items.size;
        self.sizes.close_pack();
        Ok(items.end)
    }

    fn close_series(&mut self) {
        if self.series == Series::Open {
            self.series = Series::Closed;
            self.sizes.close_series();
        }
    }

    /// The sheet's end: 14, then the 1 of the packet it would be.
    fn finish(mut self, form: Form) -> Result<(Form, Sizes), Refusal> {
        self.close_series();
        if self.standalone {
            if self.sheet.len() == OPENING {
                return refuse(MISSING, OPENING);
            }
            self.sizes.set += Sizes::item(1, 2);
        }
        if self.sizes.packet(form) > PACKET_LIMIT {
            return refuse(OVER_LIMIT, 0);
        }
        Ok((form, self.sizes))
    }
}

/// What the items of a target come to.
pub(crate) struct TargetItems {
    pub end: usize,
    /// Their bytes in a packet.
    pub size: usize,
    /// What the target's end asks of them.
    pub held: Held,
}

/// The `TI` records of a target, up to the first other record.
#[inline(always)]
pub(crate) fn check_target(
    sheet: &[u8],
    start: usize,
    standalone: bool,
) -> Result<TargetItems, Refusal> {
    let mut tags = Rising::new();
    let (mut at, mut size, mut held) = (start, 0, 0);
    loop {
        if let Some((item, more)) = quick_item(sheet, at, standalone, &mut tags) {
            held ^= more;
            size += 2 + item.end - item.start;
            at = item.end;
            continue;
        }
        if mark(sheet, at) != Some(TI) {
            return Ok(TargetItems { end: at, size, held });
        }
        let item = target_item(sheet, start, at, standalone, &mut tags)
            .or_else(|number| refuse(number, at))?;
        held ^= pack_rule(item.tag).held;
        size += Sizes::item(item.tag, item.end - item.start);
        at = item.end;
    }
}

/// A `TI` with no fault whose tag rises above those before, or nothing.
#[inline(always)]
fn quick_item(
    sheet: &[u8],
    at: usize,
    standalone: bool,
    tags: &mut Rising,
) -> Option<(Tagged, Held)> {
    let item = quick_tagged(sheet, at)?;
    let quick = quick_table(false, standalone).get(usize::from(item.tag))?;
    let length = item.end - item.start;
    if length >= 32 || quick.lengths >> length & 1 == 0 {
        return None;
    }
    if quick.number && sheet[item.start] == 0 {
        return None;
    }
    tags.rises(u64::from(item.tag)).then_some((item, quick.held))
}

/// A `TI`: 17, 7, 9, 13, 11, 12, 17.
fn target_item(
    sheet: &[u8],
    start: usize,
    at: usize,
    standalone: bool,
    tags: &mut Rising,
) -> Result<Tagged, u8> {
    let item = tagged(sheet, at).ok_or(BAD_RECORD)?;
    let value = &sheet[item.start..item.end];
    if value.is_empty() {
        return Err(EMPTY);
    }
    let first = || first_tag(target_tags(sheet, start));
    if tags.repeats(u64::from(item.tag), at, first) {
        return Err(TAG_REPEATED);
    }
    let rule = pack_rule(item.tag);
    if rule.offset && standalone {
        return Err(MAY_NOT_STAND);
    }
    check_value(rule, value)?;
    Ok(item)
}

/// 11, 12, and last the 17 of a number not shortest.
#[inline(always)]
fn check_value(rule: &Rule, value: &[u8]) -> Result<(), u8> {
    if !rule.allows(value.len()) {
        return Err(LENGTH_NOT_ALLOWED);
    }
    if !rule.is_number() || value[0] != 0 {
        return Ok(());
    }
    if rule.kind == Kind::Pixel && value.iter().all(|&byte| byte == 0) {
        return Err(PIXEL_ZERO);
    }
    if value.len() > 1 {
        return Err(BAD_RECORD);
    }
    Ok(())
}

/// The set's tags, for looking back.
fn set_tags(sheet: &[u8]) -> impl Iterator<Item = (usize, u16)> + Clone + '_ {
    let items = Marks::new(sheet, OPENING).filter(|&(_, mark)| mark == IT);
    items.filter_map(|(place, _)| Some((place, tagged(sheet, place)?.tag)))
}

/// One target's tags, for looking back.
fn target_tags(sheet: &[u8], start: usize) -> impl Iterator<Item = (usize, u16)> + Clone + '_ {
    let items = Marks::new(sheet, start).take_while(|&(_, mark)| mark == TI);
    items.filter_map(|(place, _)| Some((place, tagged(sheet, place)?.tag)))
}

/// The ids of the series, for looking back.
fn ids(sheet: &[u8]) -> impl Iterator<Item = (usize, u64)> + Clone + '_ {
    let targets = Marks::new(sheet, OPENING).filter(|&(_, mark)| mark == TG);
    targets.filter_map(|(place, _)| Some((place, target_id(sheet, place)?)))
}
