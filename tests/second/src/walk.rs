//! The second pass: over a packet already checked, without questions.
//! Where the bytes cannot be read on, it just ends.

use crate::packet::{quick_item, read_item, read_pack, Visit};
use crate::table::{quick_table, Kind};

/// The tags of a set or a pack, which ends where `bytes` do, and their
/// places; for looking back.
#[derive(Clone)]
pub(crate) struct Tags<'a, const SET: bool> {
    pub bytes: &'a [u8],
    pub at: usize,
}

impl<const SET: bool> Iterator for Tags<'_, SET> {
    type Item = (usize, u16);

    #[inline(always)]
    fn next(&mut self) -> Option<(usize, u16)> {
        let item = read_item::<SET>(self.bytes, self.at).ok()?;
        self.at = item.end;
        Some((item.place, item.tag))
    }
}

/// The ids of a series, which ends where `bytes` do, and their places; for
/// looking back.
#[derive(Clone)]
pub(crate) struct Ids<'a> {
    pub bytes: &'a [u8],
    pub at: usize,
}

impl Iterator for Ids<'_> {
    type Item = (usize, u64);

    #[inline(always)]
    fn next(&mut self) -> Option<(usize, u64)> {
        let pack = read_pack(self.bytes, self.at).ok()?;
        self.at = pack.end;
        Some((pack.place, pack.id))
    }
}

/// Tells a visitor of a checked packet, whose set begins at `start`.
pub(crate) fn walk(packet: &[u8], start: usize, visit: &mut impl Visit) {
    let mut at = start;
    while let Ok(item) = read_item::<true>(packet, at) {
        match item.kind {
            Kind::Series => {
                visit.series(&item);
                walk_series(&packet[..item.end], item.start, visit);
                visit.series_end(&item);
            }
            Kind::Checksum => visit.checksum(&item),
            _ => visit.set_item(&item),
        }
        at = item.end;
    }
}

#[inline(always)]
fn walk_series(bytes: &[u8], start: usize, visit: &mut impl Visit) {
    let mut at = start;
    while let Ok(pack) = read_pack(bytes, at) {
        visit.pack(&pack);
        walk_pack(&bytes[..pack.end], pack.items, visit);
        visit.pack_end(&pack);
        at = pack.end;
    }
}

#[inline(always)]
fn walk_pack(bytes: &[u8], start: usize, visit: &mut impl Visit) {
    let quick = quick_table(false, false);
    let mut at = start;
    while at < bytes.len() {
        if let Some(item) = quick_item::<false>(bytes, at, quick) {
            visit.pack_item(&item);
            at = item.end;
            continue;
        }
        let Ok(item) = read_item::<false>(bytes, at) else {
            return;
        };
        visit.pack_item(&item);
        at = item.end;
    }
}
