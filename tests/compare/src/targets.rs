//! Targets to add and to drop beside the seeded ones: to each of some packets
//! the typical one, and from it each that it has; and records longer than a
//! sheet may be.

use crate::deep::between;
use second::generate::{typical_target, AddTargetCase, DropTargetCase, PacketCase};
use second::sheet::{IT, TG, TI, TS};
use second::{coding, locate, Form, Row, PACKET_LIMIT, ROWS_LIMIT, SHEET_LIMIT};

/// The targets of a packet beyond which some are passed over.
const MANY: usize = 300;

/// The typical target added to each.
pub fn additions(packets: &[PacketCase]) -> Vec<AddTargetCase> {
    packets.iter().map(|packet| adding(packet, typical_target(packet.form, &packet.bytes))).collect()
}

/// Each target dropped, or of very many some, and one that is not there.
pub fn drops(packets: &[PacketCase]) -> Vec<DropTargetCase> {
    let mut all = Vec::new();
    for packet in packets {
        let ids = ids(packet.form, &packet.bytes);
        let absent = ids.iter().max().map_or(1, |id| id + 1);
        let some = ids.iter().step_by(1 + ids.len() / MANY).chain(ids.last()).copied();
        all.extend(some.chain([absent]).map(|target| dropping(packet, target)));
    }
    all
}

pub fn adding(packet: &PacketCase, records: Vec<u8>) -> AddTargetCase {
    AddTargetCase { form: packet.form, packet: packet.bytes.clone(), records, room: PACKET_LIMIT }
}

pub fn dropping(packet: &PacketCase, target: u64) -> DropTargetCase {
    DropTargetCase { form: packet.form, packet: packet.bytes.clone(), target, room: PACKET_LIMIT }
}

/// The ids of a packet's targets, none where it is refused.
pub fn ids(form: Form, packet: &[u8]) -> Vec<u64> {
    let mut rows = vec![Row::default(); ROWS_LIMIT];
    let count = locate(form, packet, &mut rows).unwrap_or(0);
    let packs = rows[..count].iter().filter(|row| row.target > 0 && row.tag == 0);
    packs.filter_map(|row| Some(coding::id(packet, row.offset as usize).ok()?.0)).collect()
}

/// A `TG` record.
pub fn target(id: u64) -> Vec<u8> {
    [&TG[..], &id.to_be_bytes()].concat()
}

/// A `TI` record.
pub fn item(tag: u16, value: &[u8]) -> Vec<u8> {
    let length = (value.len() as u16).to_be_bytes();
    [&TI[..], &tag.to_be_bytes(), &length, value].concat()
}

/// What begins a target that is to be accepted.
pub fn head(form: Form, id: u64) -> Vec<u8> {
    match form {
        Form::Embedded => target(id),
        Form::Standalone => [target(id), item(17, &[1; 10])].concat(),
    }
}

/// What records may end in: nothing more, and each fault that one alone has,
/// the last two for the target's end to find. `stands` is a tag that stood.
pub fn ends(stands: u16) -> Vec<Vec<u8>> {
    vec![
        Vec::new(),
        item(stands, &[1]),
        item(8, &[]),
        item(19, &[0, 0]),
        item(4, &[1, 1]),
        item(9, &[0, 1]),
        item(10, &[1; 3]),
        item(0, &[1]),
        item(8, &[1, 2])[..7].to_vec(),
        TI[..1].to_vec(),
        TS.to_vec(),
        [&IT[..], &item(8, &[1])[2..]].concat(),
        target(2),
        item(19, &[5]),
        item(20, &[5]),
    ]
}

/// Records of 65,536 bytes, one fewer and one more, of nearly twice as many,
/// in long values and in every tag that no table lists, with each end; and
/// with an id that stands, and with no location.
pub fn long(packets: &[PacketCase]) -> Vec<AddTargetCase> {
    let mut all = Vec::new();
    for packet in packets {
        let head = head(packet.form, 1 << 40);
        for body in bodies(head.len()) {
            all.extend(ends(24).iter().map(|end| adding(packet, [&head, &body, &end[..]].concat())));
        }
        let [body, ..] = bodies(target(0).len());
        let stands = ids(packet.form, &packet.bytes).first().copied();
        all.extend([target(1 << 40), target(stands.unwrap_or(1 << 63))].map(|head| adding(packet, [head, body.clone()].concat())));
    }
    all
}

fn bodies(before: usize) -> [Vec<u8>; 8] {
    let long = |tag, length| item(tag, &vec![7; length]);
    // a `TI` record has six bytes before its value
    let exact = SHEET_LIMIT - before - 6;
    let every: Vec<u16> = (24..=coding::TAG_LIMIT as u16).collect();
    let falling: Vec<u16> = every.iter().rev().copied().collect();
    let bare = |tags: &[u16]| tags.iter().flat_map(|&tag| item(tag, &[0])).collect();
    [
        long(24, usize::from(u16::MAX)),
        long(24, exact - 1),
        long(24, exact),
        long(24, exact + 1),
        [long(25, usize::from(u16::MAX)), long(24, usize::from(u16::MAX))].concat(),
        bare(&every),
        bare(&falling),
        bare(&between(&every)),
    ]
}
