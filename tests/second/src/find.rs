//! Finding named items of one level, and what stands around them, while a
//! packet is checked.

use crate::packet::{Item, Pack, Visit};

/// Where an item is named: in the set, or in the target of this id.
#[derive(Clone, Copy, Debug, PartialEq, Eq)]
pub enum Level {
    Set,
    Target(u64),
}

/// What a checking pass found of the items named.
pub(crate) struct Find<const N: usize> {
    level: Level,
    tags: [u64; N],
    /// The pack that is passed is the target named.
    inside: bool,
    pub items: [Option<Item>; N],
    pub pack: Option<Pack>,
    pub series: Option<Item>,
    pub checksum: Option<Item>,
}

impl<const N: usize> Find<N> {
    pub fn new(level: Level, tags: [u64; N]) -> Find<N> {
        let (items, pack, series, checksum) = ([None; N], None, None, None);
        Find { level, tags, inside: false, items, pack, series, checksum }
    }

    #[inline(always)]
    fn note(&mut self, item: &Item) {
        for (tag, found) in self.tags.iter().zip(&mut self.items) {
            if *tag == u64::from(item.tag) {
                *found = Some(*item);
            }
        }
    }
}

impl<const N: usize> Visit for Find<N> {
    #[inline]
    fn set_item(&mut self, item: &Item) {
        if self.level == Level::Set {
            self.note(item);
        }
    }

    #[inline]
    fn checksum(&mut self, item: &Item) {
        self.checksum = Some(*item);
        self.set_item(item);
    }

    #[inline]
    fn series(&mut self, item: &Item) {
        self.series = Some(*item);
    }

    #[inline]
    fn pack(&mut self, pack: &Pack) {
        self.inside = self.level == Level::Target(pack.id);
        if self.inside {
            self.pack = Some(*pack);
        }
    }

    #[inline]
    fn pack_item(&mut self, item: &Item) {
        if self.inside {
            self.note(item);
        }
    }
}
