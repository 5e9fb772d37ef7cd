//! Demand 3: an edit makes its one or two changes and no other.

mod common;

use common::edits::{expected, Edit};
use common::sheets;
use second::generate;
use second::{normalise, read, write, PACKET_LIMIT, PACKET_SHEET_LIMIT};

fn run() -> (u64, u64) {
    common::run(23, 24_000)
}

/// Edits of one change and of two.
fn edits(seed: u64, index: u64) -> [Edit; 2] {
    [generate::edit(seed, index).into(), generate::edit_two(seed, index).into()]
}

/// Each edit gives what the rules say; all bytes are compared, so that those
/// outside the items, the lengths around them and the checksum are kept.
#[test]
fn edits_follow_the_rules() {
    let (seed, cases) = run();
    let (mut accepted, mut loose) = ([0; 2], [0; 2]);
    for index in 0..cases {
        for (kind, edit) in edits(seed, index).into_iter().enumerate() {
            let result = edit.call();
            let expected = expected(&edit).map_err(|(_, refusal)| refusal);
            assert_eq!(result, expected, "case {index}");
            if result.is_ok() {
                let mut normal = vec![0; PACKET_LIMIT];
                let count = normalise(edit.form, &edit.packet, &mut normal).expect("as edited");
                accepted[kind] += 1;
                loose[kind] += u64::from(count < edit.packet.len());
            }
        }
    }
    for (accepted, loose) in accepted.into_iter().zip(loose) {
        assert!(accepted > cases / 3, "only {accepted} accepted");
        assert!(loose > accepted / 2, "only {loose} of {accepted} out of normal form");
    }
}

/// The result is accepted and its sheet is the old one with those changes.
#[test]
fn edits_change_their_records_alone() {
    let (seed, cases) = run();
    for index in 0..cases {
        for edit in edits(seed + 1, index) {
            let Ok(result) = edit.call() else {
                continue;
            };
            let mut sheet = vec![0; PACKET_SHEET_LIMIT];
            let count = read(edit.form, &result, &mut sheet).expect("the result is accepted");
            assert_eq!(sheet[..count], sheets::sheet(&edit.records()), "case {index}");
        }
    }
}

/// From normal form an edit is the edited sheet written afresh.
#[test]
fn edits_of_normal_forms_are_writes() {
    let (seed, cases) = run();
    let mut counts = [0; 2];
    for index in 0..cases {
        for (kind, mut edit) in edits(seed + 2, index).into_iter().enumerate() {
            let mut normal = vec![0; PACKET_LIMIT];
            let Ok(length) = normalise(edit.form, &edit.packet, &mut normal) else {
                continue;
            };
            edit.packet = normal[..length].to_vec();
            let Ok(result) = edit.call() else {
                continue;
            };
            let mut written = vec![0; PACKET_LIMIT];
            let sheet = sheets::sheet(&edit.records());
            let length = write(&sheet, &mut written).expect("it can be written");
            assert_eq!(written[..length], result, "case {index}");
            counts[kind] += 1;
        }
    }
    assert!(counts.iter().all(|&count| count > cases / 3), "only {counts:?} accepted");
}

/// Two changes one after the other, both accepted, give the same bytes as
/// both at once.
#[test]
fn two_changes_are_one_after_the_other() {
    let (seed, cases) = run();
    let (mut stepwise, mut at_once) = (0, 0);
    for index in 0..cases {
        let edit: Edit = generate::edit_two(seed + 3, index).into();
        let together = edit.call();
        at_once += u64::from(together.is_ok());
        let Ok(packet) = edit.only(0).call() else {
            continue;
        };
        let then = Edit { packet, ..edit.only(1) };
        let named_twice = edit.changes[0].0 == edit.changes[1].0;
        let of_set = edit.level == second::Level::Set;
        if let (Ok(result), false) = (then.call(), named_twice || of_set) {
            assert_eq!(together, Ok(result), "case {index}");
            stepwise += 1;
        }
    }
    assert!(stepwise > cases / 4, "only {stepwise} of {at_once} step by step");
    assert!(at_once > stepwise, "no two changes that only go together");
}
