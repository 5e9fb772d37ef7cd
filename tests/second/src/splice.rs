//! The bytes of an edited packet: what is kept, the new items, the lengths
//! around them.

use crate::coding::length_width;
use crate::find::Find;
use crate::normal::Sizes;
use crate::out::Out;
use crate::packet::{Form, Item, Pack, KEY};

/// An item as it will be written; none on a removal.
pub(crate) type NewItem<'a> = Option<(u16, &'a [u8])>;

/// The bytes that one change replaces, and by what.
#[derive(Clone, Copy)]
struct Patch<'a> {
    from: usize,
    until: usize,
    item: NewItem<'a>,
}

impl<'a> Patch<'a> {
    /// Over the item that was found, else at the level's end.
    fn new(old: Option<Item>, level_end: usize, item: NewItem<'a>) -> Patch<'a> {
        let (from, until) = old.map_or((level_end, level_end), |old| (old.place, old.end));
        Patch { from, until, item }
    }

    fn gone(&self) -> usize {
        self.until - self.from
    }

    fn put(&self) -> usize {
        self.item.map_or(0, |(tag, value)| Sizes::item(tag, value.len()))
    }
}

/// An edited packet, ready to be written.
pub(crate) struct Splice<'a, const N: usize> {
    packet: &'a [u8],
    /// Where the set begins and where its kept bytes end (at the checksum).
    start: usize,
    end: usize,
    /// From left to right.
    patches: [Patch<'a>; N],
    /// The series and pack around the items with their new lengths.
    around: Option<Around>,
    /// The outer length, in standalone.
    outer: Option<usize>,
    pub total: usize,
}

struct Around {
    series: Item,
    pack: Pack,
    series_length: usize,
    pack_length: usize,
}

impl Around {
    /// The lengths once `gone` bytes of the pack have made room for `put`.
    fn new(series: Item, pack: Pack, gone: usize, put: usize) -> Around {
        let pack_length = pack.end - pack.start - gone + put;
        let kept = series.end - series.start - (pack.end - pack.place);
        let series_length = kept + length_width(pack_length) + pack_length;
        Around { series, pack, series_length, pack_length }
    }
}

impl<'a, const N: usize> Splice<'a, N> {
    pub fn new(
        form: Form,
        packet: &'a [u8],
        start: usize,
        items: [NewItem<'a>; N],
        found: &Find<N>,
    ) -> Splice<'a, N> {
        let end = found.checksum.map_or(packet.len(), |item| item.place);
        let level_end = found.pack.map_or(end, |pack| pack.end);
        let mut turn = 0..N;
        let mut patches = items.map(|item| {
            Patch::new(turn.next().and_then(|turn| found.items[turn]), level_end, item)
        });
        // Two new items both stand at the level's end, in the order given.
        if patches.windows(2).any(|two| two[1].from < two[0].from) {
            patches.reverse();
        }
        let gone = patches.iter().map(Patch::gone).sum();
        let put = patches.iter().map(Patch::put).sum();
        let around = found.series.zip(found.pack);
        let around = around.map(|(series, pack)| Around::new(series, pack, gone, put));
        let (gone, put) = match &around {
            None => (gone, put),
            Some(Around { series, series_length, .. }) => {
                (series.end - series.place, Sizes::item(series.tag, *series_length))
            }
        };
        let set = packet.len() - start - gone + put;
        let outer = (form == Form::Standalone).then_some(set);
        let total = outer.map_or(0, |set| KEY.len() + length_width(set)) + set;
        Splice { packet, start, end, patches, around, outer, total }
    }

    pub fn write(&self, mut out: Out) {
        let mut from = self.start;
        if let Some(set) = self.outer {
            out.copy(&KEY);
            out.length(set);
        }
        if let Some(around) = &self.around {
            out.copy(&self.packet[from..around.series.place]);
            out.tag(around.series.tag);
            out.length(around.series_length);
            out.copy(&self.packet[around.series.start..around.pack.place]);
            out.length(around.pack_length);
            from = around.pack.start;
        }
        for patch in &self.patches {
            out.copy(&self.packet[from..patch.from]);
            if let Some((tag, value)) = patch.item {
                out.item(tag, value, value.len());
            }
            from = patch.until;
        }
        out.copy(&self.packet[from..self.end]);
        if self.outer.is_some() {
            out.checksum();
        }
    }
}
