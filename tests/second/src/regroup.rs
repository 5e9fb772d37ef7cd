//! The bytes of a packet with a target added or dropped: what is kept, the
//! new pack, tag 6, and the lengths around.

use crate::coding::{length_width, shortest};
use crate::normal::Sizes;
use crate::out::Out;
use crate::packet::{Form, Item, Pack, Visit, KEY};
use crate::write;

/// The set's count of targets.
const REPORTED: u16 = 6;
const SERIES: u16 = 101;

/// What a checking pass found of the targets.
pub(crate) struct Targets {
    named: u64,
    /// The target named, if it stands.
    pub pack: Option<Pack>,
    count: usize,
    series: Option<Item>,
    reported: Option<Item>,
    checksum: Option<Item>,
}

impl Targets {
    pub fn new(named: u64) -> Targets {
        Targets { named, pack: None, count: 0, series: None, reported: None, checksum: None }
    }
}

impl Visit for Targets {
    #[inline]
    fn set_item(&mut self, item: &Item) {
        if item.tag == REPORTED {
            self.reported = Some(*item);
        }
    }

    #[inline]
    fn checksum(&mut self, item: &Item) {
        self.checksum = Some(*item);
    }

    #[inline]
    fn series(&mut self, item: &Item) {
        self.series = Some(*item);
    }

    #[inline]
    fn pack(&mut self, pack: &Pack) {
        self.count += 1;
        if pack.id == self.named {
            self.pack = Some(*pack);
        }
    }
}

/// A target to add, its records checked.
pub(crate) struct Added<'a> {
    pub id: u64,
    /// Its `TI` records.
    pub items: &'a [u8],
    /// Bytes of its pack after the length.
    pub length: usize,
}

/// A part of the packet that is replaced.
#[derive(Clone, Copy)]
struct Part {
    from: usize,
    until: usize,
}

impl Part {
    fn length(&self) -> usize {
        self.until - self.from
    }
}

/// A packet with its targets changed, ready to be written.
pub(crate) struct Regroup<'a> {
    packet: &'a [u8],
    /// Where the set begins and where its kept bytes end (at the checksum).
    start: usize,
    end: usize,
    /// The item of tag 101, or nothing at the set's end.
    series: Part,
    /// The packs kept, before the dropped one and after it.
    kept: [&'a [u8]; 2],
    added: Option<Added<'a>>,
    /// The length of the new series; 0 if it goes.
    length: usize,
    /// The item of tag 6.
    reported: Option<Part>,
    /// How many packs there are to be.
    count: [u8; 4],
    /// The outer length, in standalone.
    outer: Option<usize>,
    pub total: usize,
}

impl<'a> Regroup<'a> {
    /// The target that was found goes, the added one comes.
    pub fn new(
        form: Form,
        packet: &'a [u8],
        start: usize,
        found: &Targets,
        added: Option<Added<'a>>,
    ) -> Regroup<'a> {
        let end = found.checksum.map_or(packet.len(), |item| item.place);
        let (series, first) = match &found.series {
            Some(item) => (Part { from: item.place, until: item.end }, item.start),
            None => (Part { from: end, until: end }, end),
        };
        let gone = found.pack.map_or(series.until..series.until, |pack| pack.place..pack.end);
        let kept = [&packet[first..gone.start], &packet[gone.end..series.until]];
        let count = found.count + usize::from(added.is_some()) - usize::from(found.pack.is_some());
        let count = (count as u32).to_be_bytes();
        let reported = found.reported.map(|item| Part { from: item.place, until: item.end });
        let (length, outer, total) = (0, None, 0);
        let regroup = Regroup {
            packet,
            start,
            end,
            series,
            kept,
            added,
            length,
            reported,
            count,
            outer,
            total,
        };
        regroup.measured(form)
    }

    /// The same with the lengths around the packs.
    fn measured(mut self, form: Form) -> Regroup<'a> {
        let new = self.added.as_ref().map_or(0, |new| length_width(new.length) + new.length);
        self.length = self.kept[0].len() + self.kept[1].len() + new;
        let mut set = self.packet.len() - self.start - self.series.length();
        if self.length > 0 {
            set += Sizes::item(SERIES, self.length);
        }
        if let Some(part) = self.reported {
            set = set - part.length() + Sizes::item(REPORTED, shortest(&self.count).len());
        }
        self.total = set;
        if form == Form::Standalone {
            self.outer = Some(set);
            self.total += KEY.len() + length_width(set);
        }
        self
    }

    pub fn write(&self, mut out: Out) {
        if let Some(set) = self.outer {
            out.copy(&KEY);
            out.length(set);
        }
        let mut from = self.start;
        match self.reported {
            None => from = self.write_series(from, &mut out),
            Some(part) if part.from < self.series.from => {
                from = self.write_count(from, part, &mut out);
                from = self.write_series(from, &mut out);
            }
            Some(part) => {
                from = self.write_series(from, &mut out);
                from = self.write_count(from, part, &mut out);
            }
        }
        out.copy(&self.packet[from..self.end]);
        if self.outer.is_some() {
            out.checksum();
        }
    }

    /// Writes up to the series and what it becomes: where it ended.
    fn write_series(&self, from: usize, out: &mut Out) -> usize {
        out.copy(&self.packet[from..self.series.from]);
        if self.length > 0 {
            out.tag(SERIES);
            out.length(self.length);
        }
        self.kept.iter().for_each(|packs| out.copy(packs));
        if let Some(added) = &self.added {
            out.length(added.length);
            out.id(added.id);
            write::items(added.items, 0, out);
        }
        self.series.until
    }

    /// Writes up to tag 6 and what it becomes: where it ended.
    fn write_count(&self, from: usize, part: Part, out: &mut Out) -> usize {
        out.copy(&self.packet[from..part.from]);
        let count = shortest(&self.count);
        out.item(REPORTED, count, count.len());
        part.until
    }
}
