//! Normalise: a packet's sheet written afresh, without the sheet.

use crate::check_packet::check;
use crate::coding::{length_width, tag_width};
use crate::out::Out;
use crate::packet::{Form, Item, Pack, Visit, KEY};
use crate::refusal::{room, Answer};
use crate::walk::walk;

/// Writes the normal form of a packet: the count of bytes written.
pub fn normalise(form: Form, packet: &[u8], out: &mut [u8]) -> Answer {
    let mut sizes = Sizes::default();
    let start = check(form, packet, &mut sizes)?;
    let needed = sizes.packet(form);
    room(needed, out.len())?;
    let out = &mut out[..needed];
    if needed == packet.len() {
        // No piece grows, so none shrank either: it is its own normal form.
        out.copy_from_slice(packet);
        return Ok(needed);
    }
    let mut out = Out::new(out);
    sizes.open(form, &mut out);
    let (series, from) = (sizes.series, start);
    let mut runs = Runs { packet, out, series, from, pack: 0 };
    walk(packet, start, &mut runs);
    runs.flush(packet.len());
    Ok(needed)
}

/// The sizes of a normal form's parts.
#[derive(Default)]
pub(crate) struct Sizes {
    pub set: usize,
    pub series: usize,
    pub pack: usize,
}

impl Sizes {
    #[inline]
    pub fn item(tag: u16, length: usize) -> usize {
        tag_width(tag) + length_width(length) + length
    }

    /// A pack with its length, added to the series.
    #[inline]
    pub fn close_pack(&mut self) {
        self.series += length_width(self.pack) + self.pack;
    }

    /// The series with its tag and length, added to the set.
    #[inline]
    pub fn close_series(&mut self) {
        self.set += Sizes::item(101, self.series);
    }

    /// The whole packet.
    pub fn packet(&self, form: Form) -> usize {
        match form {
            Form::Embedded => self.set,
            Form::Standalone => KEY.len() + length_width(self.set) + self.set,
        }
    }

    /// Writes what opens the packet.
    pub fn open(&self, form: Form, out: &mut Out) {
        if form == Form::Standalone {
            out.copy(&KEY);
            out.length(self.set);
        }
    }
}

impl Visit for Sizes {
    #[inline]
    fn set_item(&mut self, item: &Item) {
        self.set += Sizes::item(item.tag, item.end - item.short);
    }

    #[inline]
    fn checksum(&mut self, item: &Item) {
        self.set += item.end - item.place;
    }

    #[inline]
    fn pack(&mut self, pack: &Pack) {
        self.pack = pack.items - pack.start;
    }

    #[inline]
    fn pack_item(&mut self, item: &Item) {
        self.pack += Sizes::item(item.tag, item.end - item.short);
    }

    #[inline]
    fn pack_end(&mut self, _: &Pack) {
        self.close_pack();
    }

    #[inline]
    fn series_end(&mut self, _: &Item) {
        self.close_series();
    }
}

/// Copies the runs of bytes that are normal as they stand.
struct Runs<'a> {
    packet: &'a [u8],
    out: Out<'a>,
    series: usize,
    /// Where the run not yet copied begins.
    from: usize,
    /// Where the open pack's length is written.
    pack: usize,
}

impl Runs<'_> {
    #[inline(always)]
    fn flush(&mut self, end: usize) {
        let run = &self.packet[self.from..];
        self.out.copy_front(run, end - self.from);
        self.from = end;
    }

    #[inline(always)]
    fn item(&mut self, item: &Item) {
        let length = item.end - item.short;
        if item.end - item.place == Sizes::item(item.tag, length) {
            return;
        }
        self.flush(item.place);
        self.out.item(item.tag, &self.packet[item.short..], length);
        self.from = item.end;
    }
}

impl Visit for Runs<'_> {
    #[inline]
    fn set_item(&mut self, item: &Item) {
        self.item(item);
    }

    #[inline]
    fn checksum(&mut self, item: &Item) {
        self.flush(item.place);
        self.out.checksum();
        self.from = item.end;
    }

    #[inline]
    fn series(&mut self, item: &Item) {
        self.flush(item.place);
        self.out.tag(item.tag);
        self.out.length(self.series);
        self.from = item.start;
    }

    #[inline]
    fn pack(&mut self, pack: &Pack) {
        self.pack = self.out.open_pack();
        self.from = pack.start;
    }

    #[inline]
    fn pack_item(&mut self, item: &Item) {
        self.item(item);
    }

    #[inline]
    fn pack_end(&mut self, pack: &Pack) {
        self.flush(pack.end);
        self.out.close_pack(self.pack);
    }
}
