//! Cases that take the calls deep: tags and ids that neither rise nor fall, so
//! that a repeated one is looked for behind, in the set, in a pack and in both
//! at once, in packets and in sheets; accepted, refused at their end, and
//! edited in every way, with targets of such items added and dropped.

use crate::targets::{adding, dropping, ends, head, ids, item};
use second::generate::mutate::repair;
use second::generate::tree::{Node, Tree, Width};
use second::generate::{AddTargetCase, DropTargetCase, EditCase, EditTwoCase, PacketCase};
use second::{read, Form, Level, PACKET_LIMIT, SHEET_LIMIT};

/// How many items or packs a level has: past 512 bytes, from where on a look
/// back is made by passes.
const MANY: u16 = 300;
/// Tags that no table lists.
const TAGS: u16 = 9_000;

/// The first, the last, the first and the last of the rest, and so on: each
/// after the second is between the least and the greatest before it.
pub fn between<T: Copy>(list: &[T]) -> Vec<T> {
    let mut rest = list.iter().copied();
    let mut taken = Vec::new();
    while let Some(first) = rest.next() {
        taken.push(first);
        taken.extend(rest.next_back());
    }
    taken
}

pub fn packets() -> Vec<PacketCase> {
    let all = trees().into_iter().map(|tree| PacketCase { form: tree.form, bytes: tree.bytes() });
    all.flat_map(|case| [cut(&case), case]).collect()
}

/// The last byte gone, of an embedded packet alone: of a standalone one the
/// outer length would be wrong, and nothing behind it is looked at.
fn cut(case: &PacketCase) -> PacketCase {
    let bytes = match case.form {
        Form::Embedded => case.bytes[..case.bytes.len() - 1].to_vec(),
        Form::Standalone => case.bytes.clone(),
    };
    PacketCase { form: case.form, bytes: repair(case.form, &bytes) }
}

/// Puts that a glance tells and that it does not, of items that stand and that
/// do not, and removals, in the set and in a target, of what is accepted.
pub fn edits() -> Vec<EditCase> {
    let long = vec![7; 200];
    let stands = u64::from(TAGS + 7);
    let changes: [(u64, Option<&[u8]>); 10] = [
        (9, Some(&[1, 0])),
        (9, Some(&[0, 0, 1])),
        (19, Some(&[0, 5])),
        (19, Some(&[0, 0])),
        (stands, Some(&[1])),
        (stands, Some(&long)),
        (stands + 4_000, Some(&long)),
        (stands, None),
        (stands + 4_000, None),
        (0, None),
    ];
    let levels = [Level::Set, Level::Target(1), Level::Target(1 << 40)];
    let mut all = Vec::new();
    for (form, packet, _) in accepted() {
        for level in levels {
            for (tag, value) in changes {
                let value = value.map(<[u8]>::to_vec);
                all.push(EditCase { form, packet: packet.clone(), level, tag, value });
            }
        }
    }
    all
}

/// Two changes to a target of what is accepted: those above, each with each,
/// and a centroid.
pub fn edits_two() -> Vec<EditTwoCase> {
    let long: &[u8] = &[7; 200];
    let stands = u64::from(TAGS + 7);
    let changes: [(u64, Option<&[u8]>); 8] = [
        (19, Some(&[0, 5])),
        (20, Some(&[5])),
        (9, Some(&[0, 0, 1])),
        (stands, Some(long)),
        (stands + 1, None),
        (stands + 4_000, Some(long)),
        (stands + 4_000, None),
        (0, None),
    ];
    let mut all = Vec::new();
    for (form, packet, _) in accepted() {
        for level in [Level::Set, Level::Target(1)] {
            for (tag, value) in changes {
                for (tag2, value2) in changes {
                    let [value, value2] = [value, value2].map(|value| value.map(<[u8]>::to_vec));
                    let packet = packet.clone();
                    all.push(EditTwoCase { form, packet, level, tag, value, tag2, value2, room: PACKET_LIMIT });
                }
            }
        }
    }
    all
}

/// Targets added: whose tags neither rise nor fall or only fall, with each
/// end, under ids that are new and that stand, to what is accepted; and one of
/// each to every other packet.
pub fn additions() -> Vec<AddTargetCase> {
    let tags: Vec<u16> = (TAGS..TAGS + MANY).collect();
    let falling: Vec<u16> = tags.iter().rev().copied().collect();
    let records = |tags: &[u16]| -> Vec<u8> { tags.iter().flat_map(|&tag| item(tag, &[1])).collect() };
    let bodies = [records(&between(&tags)), records(&falling)];
    let ends = ends(TAGS);
    let mut all = Vec::new();
    for packet in accepted().into_iter().map(|(form, bytes, _)| PacketCase { form, bytes }) {
        let stands = middle(&packet);
        for id in [Some(1 << 40), stands].into_iter().flatten() {
            for end in &ends {
                all.extend(bodies.iter().map(|body| adding(&packet, [&head(packet.form, id), body, &end[..]].concat())));
            }
        }
    }
    for packet in packets().into_iter().chain(reported()) {
        all.extend(bodies.iter().map(|body| adding(&packet, [&head(packet.form, 1 << 40)[..], body].concat())));
    }
    all
}

/// Targets dropped from every packet: the first, the one in the middle, the
/// last, and one that is not there.
pub fn drops() -> Vec<DropTargetCase> {
    let mut all = Vec::new();
    for packet in packets().into_iter().chain(reported()) {
        let ids = ids(packet.form, &packet.bytes);
        let some = [ids.first().copied(), middle(&packet), ids.last().copied(), Some(1 << 40)];
        all.extend(some.into_iter().flatten().map(|target| dropping(&packet, target)));
    }
    all
}

fn middle(packet: &PacketCase) -> Option<u64> {
    let ids = ids(packet.form, &packet.bytes);
    ids.get(ids.len() / 2).copied()
}

/// The packets with set tag 6 before the series, and at the set's end, right
/// and not.
fn reported() -> Vec<PacketCase> {
    let mut all = Vec::new();
    for tree in trees() {
        let series = tree.set.iter().position(|node| node.tag() == 101).unwrap_or(0);
        for (at, value) in [(series, vec![1]), (tree.set.len(), vec![0, 0, 2])] {
            let mut tree = tree.clone();
            tree.set.insert(at, Node::Item { tag: 6, width: 1, value });
            all.push(PacketCase { form: tree.form, bytes: tree.bytes() });
        }
    }
    all
}

/// The packets that are accepted, with their sheets.
fn accepted() -> Vec<(Form, Vec<u8>, Vec<u8>)> {
    let mut room = vec![0; SHEET_LIMIT];
    let packets = trees().into_iter().map(|tree| (tree.form, tree.bytes()));
    packets.filter_map(|(form, packet)| read(form, &packet, &mut room).ok().map(|size| (form, packet, room[..size].to_vec()))).collect()
}

/// The sheets of what is accepted, whole, cut, and with the first item of the
/// last level once more; and as many records as a target may have in a sheet.
pub fn sheets() -> Vec<Vec<u8>> {
    let mut all = Vec::new();
    for (_, _, sheet) in accepted() {
        let first = sheet.windows(2).rposition(|mark| mark == b"TG").map_or(3, |place| place + 10);
        let again = &sheet[first..sheet.len().min(first + 7)];
        all.extend([sheet[..sheet.len() - 1].to_vec(), [&sheet, again].concat()]);
        all.push(sheet);
    }
    let items = |tags: &[u16]| -> Vec<u8> { tags.iter().flat_map(|tag| [b"TI", &tag.to_be_bytes()[..], &[0, 1, 1]].concat()).collect() };
    all.push([b"PK\0TSTG\0\0\0\0\0\0\0\x01", &items(&between(&(30..106).collect::<Vec<_>>()))[..]].concat());
    all
}

/// The levels that hold many, in each form, under shortest lengths and longer
/// ones, and with each fault that is found at the end of what was walked.
fn trees() -> Vec<Tree> {
    let mut all = Vec::new();
    for form in [Form::Embedded, Form::Standalone] {
        for width in [0, 1] {
            let items = |last: Vec<Node>| strewn(form, width, last);
            let pack = |last| vec![Node::Pack { width, id: 1, items: items(last) }];
            let ends = [
                Vec::new(),
                vec![Node::item(TAGS, &[1])],
                vec![Node::item(19, &[0])],
                vec![Node::item(4, &[1, 1])],
                vec![Node::Raw(vec![0x80])],
            ];
            for end in ends {
                all.push(tree(form, width, pack(end.clone()), Vec::new()));
                all.push(tree(form, width, pack(end.clone()), strewn(form, width, Vec::new())));
                all.push(tree(form, width, pack(Vec::new()), strewn(form, width, end)));
            }
            let wide: Vec<u64> = (0..u64::from(MANY)).map(|n| 70_000 + 3 * n).collect();
            let alike: Vec<u64> = (0..u64::from(MANY)).map(|n| n << 14).collect();
            let low: Vec<u64> = (0..u64::from(MANY)).collect();
            for ids in [wide, alike, low] {
                let mut ids = between(&ids);
                all.push(tree(form, width, bare(form, width, &ids), Vec::new()));
                ids.push(ids[0]);
                all.push(tree(form, width, bare(form, width, &ids), Vec::new()));
            }
            all.push(tree(form, width, vec![Node::Pack { width, id: 1, items: Vec::new() }], Vec::new()));
        }
    }
    all
}

/// The series first, where the form allows, so that no quick way goes over it
/// from the set; then what else the set holds.
fn tree(form: Form, width: Width, packs: Vec<Node>, rest: Vec<Node>) -> Tree {
    let mut tree = Tree::new(form);
    let series = Node::Series { width, packs };
    tree.set = match form {
        Form::Embedded => vec![series],
        Form::Standalone => vec![Node::item(2, &[0; 8]), Node::Item { tag: 5, width: 1, value: vec![2] }, series],
    };
    tree.set.extend(rest);
    tree
}

/// Items whose tags neither rise nor fall, a location first, and these last.
fn strewn(form: Form, width: Width, last: Vec<Node>) -> Vec<Node> {
    let tags = between(&(TAGS..TAGS + MANY).collect::<Vec<_>>());
    let mut items = if form == Form::Standalone { vec![Node::item(17, &[1; 10])] } else { Vec::new() };
    items.extend(tags.into_iter().map(|tag| Node::Item { tag, width, value: vec![1] }));
    items.extend(last);
    items
}

fn bare(form: Form, width: Width, ids: &[u64]) -> Vec<Node> {
    let items = if form == Form::Standalone { vec![Node::item(17, &[1; 10])] } else { Vec::new() };
    ids.iter().map(|&id| Node::Pack { width, id, items: items.clone() }).collect()
}
