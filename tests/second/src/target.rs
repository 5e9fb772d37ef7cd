//! Add a target at the series' end, or drop one with all its items, keeping
//! all that stands elsewhere.

use crate::check_packet::{check, check_end};
use crate::check_sheet::check_target;
use crate::out::Out;
use crate::packet::Form;
use crate::refusal::*;
use crate::regroup::{Added, Regroup, Targets};
use crate::sheet::{mark, target_id, TARGET, TG};
use crate::{coding, PACKET_LIMIT};

/// Adds a target, given as a `TG` record with its `TI` records: the count of
/// bytes written.
pub fn add_target(form: Form, packet: &[u8], records: &[u8], out: &mut [u8]) -> Answer {
    // Where there is no id, this is one that no packet has.
    let mut found = Targets::new(given_id(records).unwrap_or(u64::MAX));
    let start = check(form, packet, &mut found)?;
    let stands = found.pack.is_some();
    let added = check_added(form, records, stands).or_else(|number| refuse(number, 0))?;
    let regroup = Regroup::new(form, packet, start, &found, Some(added));
    if regroup.total > PACKET_LIMIT {
        return refuse(OVER_LIMIT, 0);
    }
    write(&regroup, out)
}

/// Drops the target of this id with all its items: the count of bytes
/// written. Its pack takes more bytes than tag 6 can grow by, so the result
/// is never over the limit.
pub fn drop_target(form: Form, packet: &[u8], target: u64, out: &mut [u8]) -> Answer {
    let mut found = Targets::new(target);
    let start = check(form, packet, &mut found)?;
    if found.pack.is_none() {
        return refuse(ABSENT, 0);
    }
    write(&Regroup::new(form, packet, start, &found, None), out)
}

fn write(regroup: &Regroup, out: &mut [u8]) -> Answer {
    room(regroup.total, out.len())?;
    regroup.write(Out::new(&mut out[..regroup.total]));
    Ok(regroup.total)
}

/// The id of the `TG` record that the records begin with.
fn given_id(records: &[u8]) -> Option<u64> {
    target_id(records, 0).filter(|_| mark(records, 0) == Some(TG))
}

/// The records one by one: 17 and the item numbers; then 10, 20, 14.
fn check_added(form: Form, records: &[u8], stands: bool) -> Result<Added<'_>, u8> {
    let standalone = form == Form::Standalone;
    let id = given_id(records).ok_or(BAD_RECORD)?;
    let items = check_target(records, TARGET, standalone).map_err(|refusal| refusal.number)?;
    if items.end < records.len() {
        return Err(BAD_RECORD);
    }
    if stands {
        return Err(ID_REPEATED);
    }
    check_end(items.held, standalone)?;
    let length = coding::id_width(id) + items.size;
    Ok(Added { id, items: &records[TARGET..], length })
}
