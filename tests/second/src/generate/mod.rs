//! A seeded generator of cases: the same seed and index give the same case
//! on every machine. A case is plain data for any program that compares
//! implementations.
//!
//! [`packet`], [`sheet`], [`edit`], [`show`], [`edit_two`], [`add_target`]
//! and [`drop_target`] make one case of a kind; what an index stands for goes
//! round in sixteens (valid ones, each refusal on purpose, mutations, limits),
//! so a run of a few thousand from index 0 has everything. [`case`] takes the
//! kinds in turn. [`named()`] gives the benchmark packets and
//! [`typical_target`] the records to add to one of them.

mod add_target;
mod add_target_damage;
mod breach;
pub mod damage;
mod drop_target;
mod edit_two;
mod edit_two_edges;
mod edit_two_refused;
mod edits;
pub mod limits;
pub mod mutate;
pub mod named;
mod packets;
pub mod random;
mod sheet_damage;
mod sheets;
mod shows;
mod target_edges;
mod targets;
pub mod tree;
pub mod valid;

pub use add_target::add_target;
pub use drop_target::drop_target;
pub use edit_two::edit_two;
pub use edits::edit;
pub use named::{named, typical_target, Named};
pub use packets::packet;
pub use sheets::sheet;
pub use shows::show;

use crate::{Change, Form, Level};

/// A packet to read, normalise and locate.
#[derive(Clone, Debug, PartialEq, Eq)]
pub struct PacketCase {
    pub form: Form,
    pub bytes: Vec<u8>,
}

/// A sheet to write.
#[derive(Clone, Debug, PartialEq, Eq)]
pub struct SheetCase {
    pub bytes: Vec<u8>,
}

/// An edit: `value` is what to put, nothing for a removal.
#[derive(Clone, Debug, PartialEq, Eq)]
pub struct EditCase {
    pub form: Form,
    pub packet: Vec<u8>,
    pub level: Level,
    pub tag: u64,
    pub value: Option<Vec<u8>>,
}

impl EditCase {
    pub fn change(&self) -> Change<'_> {
        self.value.as_deref().map_or(Change::Remove, Change::Put)
    }
}

/// An edit of two changes: each value is what to put, nothing for a removal.
#[derive(Clone, Debug, PartialEq, Eq)]
pub struct EditTwoCase {
    pub form: Form,
    pub packet: Vec<u8>,
    pub level: Level,
    pub tag: u64,
    pub value: Option<Vec<u8>>,
    pub tag2: u64,
    pub value2: Option<Vec<u8>>,
    /// Bytes of output to lend: more than enough, or about what is needed, or
    /// too few.
    pub room: usize,
}

impl EditTwoCase {
    pub fn change(&self) -> Change<'_> {
        self.value.as_deref().map_or(Change::Remove, Change::Put)
    }

    pub fn change2(&self) -> Change<'_> {
        self.value2.as_deref().map_or(Change::Remove, Change::Put)
    }
}

/// A target to add, given as its records.
#[derive(Clone, Debug, PartialEq, Eq)]
pub struct AddTargetCase {
    pub form: Form,
    pub packet: Vec<u8>,
    pub records: Vec<u8>,
    /// Bytes of output to lend, as for an edit of two changes.
    pub room: usize,
}

/// A target to drop.
#[derive(Clone, Debug, PartialEq, Eq)]
pub struct DropTargetCase {
    pub form: Form,
    pub packet: Vec<u8>,
    pub target: u64,
    /// Bytes of output to lend, as for an edit of two changes.
    pub room: usize,
}

/// An item to show from two packets.
#[derive(Clone, Debug, PartialEq, Eq)]
pub struct ShowCase {
    pub form: Form,
    pub reviewer: Vec<u8>,
    pub detector: Vec<u8>,
    pub level: Level,
    pub tag: u64,
}

/// A case of any kind.
#[derive(Clone, Debug, PartialEq, Eq)]
pub enum Case {
    Packet(PacketCase),
    Sheet(SheetCase),
    Edit(EditCase),
    Show(ShowCase),
    EditTwo(EditTwoCase),
    AddTarget(AddTargetCase),
    DropTarget(DropTargetCase),
}

/// The case of a seed and index: packets, sheets, edits, shows, edits of two
/// changes, targets to add and targets to drop in turn.
pub fn case(seed: u64, index: u64) -> Case {
    match index % 7 {
        0 => Case::Packet(packet(seed, index / 7)),
        1 => Case::Sheet(sheet(seed, index / 7)),
        2 => Case::Edit(edit(seed, index / 7)),
        3 => Case::Show(show(seed, index / 7)),
        4 => Case::EditTwo(edit_two(seed, index / 7)),
        5 => Case::AddTarget(add_target(seed, index / 7)),
        _ => Case::DropTarget(drop_target(seed, index / 7)),
    }
}
