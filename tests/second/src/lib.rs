//! The second reader: an implementation of document 01's packets and sheets,
//! written from that document and the readings of it, and not from the proved
//! code, to be compared with that on many inputs and to be the speed that it
//! is measured against.
//!
//! Every call works on lent buffers. A refusal changes none of them; success
//! changes nothing beyond what it counts.

#![forbid(unsafe_code)]

mod check_packet;
mod check_sheet;
pub mod coding;
mod edit;
mod find;
pub mod generate;
mod normal;
mod numbers;
mod out;
pub mod packet;
mod read;
mod refusal;
mod regroup;
mod repeat;
mod rows;
pub mod sheet;
mod show;
mod splice;
pub mod table;
mod target;
mod walk;
mod write;

pub use edit::{edit, edit_two, Change};
pub use find::Level;
pub use normal::normalise;
pub use numbers::{add_target_number, drop_target_number, edit_number, edit_two_number};
pub use numbers::{normalise_number, read_number, write_number};
pub use packet::Form;
pub use read::read;
pub use refusal::{answer_number, Answer, Refusal};
pub use rows::{locate, Row};
pub use show::{show, Shown, Side};
pub use target::{add_target, drop_target};
pub use write::write;

/// The most bytes a packet may have.
pub const PACKET_LIMIT: usize = 8_192;
/// The most bytes a sheet may have.
pub const SHEET_LIMIT: usize = 65_536;
/// The most bytes the sheet of an accepted packet can have.
pub const PACKET_SHEET_LIMIT: usize = 40_963;
/// The rows that suffice for every accepted packet.
pub const ROWS_LIMIT: usize = 4_096;
