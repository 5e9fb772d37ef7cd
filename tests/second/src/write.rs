//! Write a sheet to a packet.

use crate::check_sheet::check;
use crate::out::Out;
use crate::packet::Form;
use crate::refusal::{room, Answer};
use crate::sheet::{mark, quick_tagged, tagged, target_id, IT, OPENING, TARGET, TG, TI, TS};

/// Writes a sheet's packet: the count of bytes written.
pub fn write(sheet: &[u8], packet: &mut [u8]) -> Answer {
    let (form, sizes) = check(sheet)?;
    let needed = sizes.packet(form);
    room(needed, packet.len())?;
    let mut out = Out::new(&mut packet[..needed]);
    sizes.open(form, &mut out);
    records(sheet, sizes.series, &mut out);
    if form == Form::Standalone {
        out.checksum();
    }
    Ok(needed)
}

/// Writes the records of a checked sheet.
fn records(sheet: &[u8], series: usize, out: &mut Out) {
    let mut at = OPENING;
    loop {
        at = match mark(sheet, at) {
            Some(IT) => match tagged(sheet, at) {
                Some(item) => {
                    out.item(item.tag, &sheet[item.start..], item.end - item.start);
                    item.end
                }
                None => return,
            },
            Some(TS) => {
                out.tag(101);
                out.length(series);
                at + TS.len()
            }
            Some(TG) => target(sheet, at, out),
            _ => return,
        };
    }
}

/// Writes a target straight into the rest of the output: where the next
/// record begins.
#[inline(always)]
fn target(sheet: &[u8], at: usize, out: &mut Out) -> usize {
    let pack = out.open_pack();
    out.id(target_id(sheet, at).unwrap_or(0));
    let end = items(sheet, at + TARGET, out);
    out.close_pack(pack);
    end
}

/// Writes the items of a target: where its last record ends.
#[inline(always)]
pub(crate) fn items(sheet: &[u8], start: usize, out: &mut Out) -> usize {
    let mut at = start;
    loop {
        if let Some(item) = quick_tagged(sheet, at) {
            out.short_item(item.tag as u8, &sheet[item.start..], item.end - item.start);
            at = item.end;
            continue;
        }
        match tagged(sheet, at) {
            Some(item) if mark(sheet, at) == Some(TI) => {
                out.item(item.tag, &sheet[item.start..], item.end - item.start);
                at = item.end;
            }
            _ => return at,
        }
    }
}
