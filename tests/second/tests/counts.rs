//! Every refusal number comes up in what the generator makes, call by call.

mod common;

use common::edits::{expected, By, Edit};
use common::model::parse;
use second::generate;
use second::generate::tree::Node;
use second::generate::Case;
use second::{add_target, drop_target, edit, locate, normalise, read, show, write};
use second::{coding, Answer, Form, Level, Row, PACKET_LIMIT, PACKET_SHEET_LIMIT, ROWS_LIMIT};
use std::collections::BTreeMap;

const SEED: u64 = 1;
const CASES: u64 = 16_000;

/// How often each number was answered, 0 for success.
struct Counts([u64; 21]);

impl Counts {
    fn new() -> Counts {
        Counts([0; 21])
    }

    fn add(&mut self, answer: Answer) {
        self.0[answer.map_or_else(|refusal| usize::from(refusal.number), |_| 0)] += 1;
    }

    /// Each of these came up some times, and no other ever.
    fn assert_all(&self, call: &str, numbers: &[usize]) {
        println!("{call}: {:?}", self.0);
        for number in 0..21 {
            let count = self.0[number];
            let expected = numbers.contains(&number);
            assert_eq!(count >= 10, expected, "{call}: {number} came up {count} times");
            assert!(expected || count == 0, "{call}: {number} came up {count} times");
        }
    }
}

/// Room that is short one time in five.
fn room(index: u64, full: usize) -> usize {
    match index % 5 {
        0 => index as usize % 40,
        _ => full,
    }
}

const PACKET_NUMBERS: [usize; 18] = [0, 1, 2, 3, 4, 5, 6, 7, 8, 9, 10, 11, 12, 13, 14, 15, 16, 20];

#[test]
fn read_normalise_and_locate() {
    let mut sheet = vec![0; PACKET_SHEET_LIMIT];
    let mut out = vec![0; PACKET_LIMIT];
    let mut rows = vec![Row::default(); ROWS_LIMIT];
    let mut counts = [Counts::new(), Counts::new(), Counts::new()];
    for index in 0..CASES {
        let case = generate::packet(SEED, index);
        let (form, bytes) = (case.form, case.bytes.as_slice());
        counts[0].add(read(form, bytes, &mut sheet[..room(index, PACKET_SHEET_LIMIT)]));
        counts[1].add(normalise(form, bytes, &mut out[..room(index, PACKET_LIMIT)]));
        counts[2].add(locate(form, bytes, &mut rows[..room(index, ROWS_LIMIT)]));
    }
    counts[0].assert_all("read", &PACKET_NUMBERS);
    counts[1].assert_all("normalise", &PACKET_NUMBERS);
    counts[2].assert_all("locate", &PACKET_NUMBERS);
}

#[test]
fn write_has_its_own() {
    let mut out = vec![0; PACKET_LIMIT];
    let mut counts = Counts::new();
    for index in 0..CASES {
        let case = generate::sheet(SEED, index);
        counts.add(write(&case.bytes, &mut out[..room(index, PACKET_LIMIT)]));
    }
    counts.assert_all("write", &[0, 1, 7, 9, 10, 11, 12, 13, 14, 16, 17, 20]);
}

#[test]
fn edit_has_all_but_17() {
    let mut out = vec![0; PACKET_LIMIT];
    let mut counts = Counts::new();
    for index in 0..CASES {
        let case = generate::edit(SEED, index);
        let room = &mut out[..room(index, PACKET_LIMIT)];
        let change = case.change();
        counts.add(edit(case.form, &case.packet, case.level, case.tag, change, room));
    }
    let mut numbers = PACKET_NUMBERS.to_vec();
    numbers.extend([18, 19]);
    counts.assert_all("edit", &numbers);
}

#[test]
fn edit_two_has_all_but_17() {
    let mut out = vec![0; PACKET_LIMIT + 1];
    let mut counts = Counts::new();
    for index in 0..CASES {
        let case = generate::edit_two(SEED, index);
        let room = case.room;
        counts.add(Edit::from(case).answer(&mut out[..room]));
    }
    let mut numbers = PACKET_NUMBERS.to_vec();
    numbers.extend([18, 19]);
    counts.assert_all("edit_two", &numbers);
}

#[test]
fn targets_have_their_own() {
    let mut out = vec![0; PACKET_LIMIT + 1];
    let mut counts = [Counts::new(), Counts::new()];
    for index in 0..CASES {
        let case = generate::add_target(SEED, index);
        counts[0].add(add_target(case.form, &case.packet, &case.records, &mut out[..case.room]));
        let case = generate::drop_target(SEED, index);
        counts[1].add(drop_target(case.form, &case.packet, case.target, &mut out[..case.room]));
    }
    counts[0].assert_all("add_target", &[&PACKET_NUMBERS[..], &[17]].concat());
    counts[1].assert_all("drop_target", &[&PACKET_NUMBERS[..], &[18]].concat());
}

/// In an edit of two changes each refuses by all of its own numbers, and the
/// result of both by its own.
#[test]
fn each_change_refuses_in_its_turn() {
    let mut counts = BTreeMap::new();
    for index in 0..CASES {
        let edit = Edit::from(generate::edit_two(SEED, index));
        if let Err((by, refusal)) = expected(&edit) {
            assert_eq!(edit.call(), Err(refusal), "case {index}");
            *counts.entry((by, refusal.number)).or_insert(0) += 1;
        }
    }
    println!("{counts:?}");
    let turns = [7, 11, 12, 13, 18, 19];
    for (by, numbers) in [
        (By::Packet, &[20][..]),
        (By::Change(0), &turns),
        (By::Change(1), &turns),
        (By::Result, &[1, 14, 20]),
    ] {
        for &number in numbers {
            let count = counts.get(&(by, number)).copied().unwrap_or(0);
            assert!(count >= 10, "{by:?}: {number} came up {count} times");
        }
    }
    // 14 and 20 wait for both changes: no turn answers them.
    assert!(!counts
        .keys()
        .any(|&(by, number)| by != By::Packet && by != By::Result && matches!(number, 14 | 20)));
}

/// Where a change's item stands among the target's, nowhere if it is new.
fn standing(edit: &Edit, tag: u64) -> Option<usize> {
    let Level::Target(id) = edit.level else {
        return None;
    };
    let mut tree = parse(edit.form, &edit.packet);
    let tags: Vec<u16> = tree.target(id)?.iter().map(Node::tag).collect();
    tags.iter().position(|&other| u64::from(other) == tag)
}

/// Two new items, two that stand, one before the other and beside it, put or
/// removed: every way that two changes can meet is accepted some times.
#[test]
fn two_changes_meet_in_every_way() {
    let mut counts = BTreeMap::new();
    for index in 0..CASES {
        let edit = Edit::from(generate::edit_two(SEED, index));
        if edit.call().is_err() {
            continue;
        }
        let [first, second] = [0, 1].map(|turn| standing(&edit, edit.changes[turn].0));
        let order = match (first, second) {
            (None, None) => "both new",
            (None, Some(_)) => "first new",
            (Some(_), None) => "second new",
            (Some(first), Some(second)) if first + 1 == second => "first just before",
            (Some(first), Some(second)) if second + 1 == first => "second just before",
            (Some(first), Some(second)) if first < second => "first before",
            _ => "second before",
        };
        let put = |turn: usize| edit.changes[turn].1.is_some();
        *counts.entry((order, put(0), put(1))).or_insert(0) += 1;
    }
    println!("{counts:#?}");
    // New items are put: one way, two and two; the other four orders have four.
    assert_eq!(counts.len(), 1 + 2 + 2 + 4 * 4);
    assert!(counts.values().all(|&count| count >= 10));
}

#[test]
fn show_finds_on_either_side_and_nowhere() {
    let mut counts = [0; 3];
    for index in 0..CASES {
        let case = generate::show(SEED, index);
        let shown = show(case.form, &case.reviewer, &case.detector, case.level, case.tag);
        let found = match shown.side {
            _ if shown.length == 0 => 0,
            second::Side::Reviewer => 1,
            second::Side::Detector => 2,
        };
        counts[found] += 1;
    }
    println!("show: {counts:?}");
    assert!(counts.iter().all(|&count| count >= CASES / 20), "{counts:?}");
}

/// The cases are the same on every machine. Where the generator is changed
/// on purpose, so is this number.
#[test]
fn the_same_seed_gives_the_same_cases() {
    let digest = digest(|index| generate::case(7, index));
    assert_eq!(digest, 0x89C4_A5FF_71FC_4CFD, "{digest:#018X}");
}

/// The first five kinds alone, as they were before there were others.
#[test]
fn the_first_kinds_have_the_same_cases() {
    let digest = digest(|index| match index % 5 {
        0 => Case::Packet(generate::packet(7, index / 5)),
        1 => Case::Sheet(generate::sheet(7, index / 5)),
        2 => Case::Edit(generate::edit(7, index / 5)),
        3 => Case::Show(generate::show(7, index / 5)),
        _ => Case::EditTwo(generate::edit_two(7, index / 5)),
    });
    assert_eq!(digest, 0x6C4A_62C6_660F_0652, "{digest:#018X}");
}

fn digest(case: impl Fn(u64) -> Case) -> u64 {
    let mut digest = 0xCBF2_9CE4_8422_2325u64;
    for index in 0..1_000 {
        for byte in format!("{:?}", case(index)).bytes() {
            digest = (digest ^ u64::from(byte)).wrapping_mul(0x0100_0000_01B3);
        }
    }
    digest
}

/// What the first lone 19 or 20 of a packet is like: its tag, whether its
/// pack has tag 17 and whether it is the last pack of the series.
fn lone_like(packet: &[u8], set: usize, place: usize) -> (u16, bool, bool) {
    let head = |at| {
        let (tag, at) = coding::tag(packet, at).expect("a tag");
        let (length, start) = coding::length(packet, at).expect("a length");
        (tag, start, start + length)
    };
    let items = |mut at, end| {
        let mut tags = Vec::new();
        while at < end {
            let (tag, _, next) = head(at);
            tags.push((tag, next));
            at = next;
        }
        tags
    };
    let (length, start) = coding::length(packet, place).expect("a pack's length");
    let end = start + length;
    let (_, first) = coding::id(packet, start).expect("an id");
    let tags: Vec<u16> = items(first, end).into_iter().map(|(tag, _)| tag).collect();
    let series_end = items(set, place).last().map_or(0, |&(_, next)| next);
    let lone = tags.iter().find(|tag| [19, 20].contains(tag)).expect("a lone tag");
    (*lone, tags.contains(&17), end == series_end)
}

#[test]
fn lone_ones_stand_everywhere() {
    let mut counts = BTreeMap::new();
    let mut sheet = vec![0; PACKET_SHEET_LIMIT];
    for index in 0..CASES {
        let case = generate::packet(SEED, index);
        let answer = read(case.form, &case.bytes, &mut sheet);
        let Some(refusal) = answer.err().filter(|refusal| refusal.number == 20) else {
            continue;
        };
        let set = match case.form {
            Form::Embedded => 0,
            Form::Standalone => coding::length(&case.bytes, 16).expect("a length").1,
        };
        let like = lone_like(&case.bytes, set, refusal.place);
        *counts.entry((case.form == Form::Standalone, like)).or_insert(0) += 1;
    }
    println!("{counts:?}");
    assert_eq!(counts.len(), 16);
    assert!(counts.values().all(|&count| count >= 10), "{counts:?}");
}
