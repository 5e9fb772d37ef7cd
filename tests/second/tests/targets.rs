//! Adding and dropping targets on generated cases: against the plain model,
//! and what must hold between a packet, its result and their sheets.

mod common;

use common::model::parse;
use common::rooms::in_every_room;
use common::sheets;
use common::targets::{Move, What};
use second::generate;
use second::{add_target_number, answer_number, drop_target_number, normalise, read, write};
use second::{Form, Refusal, PACKET_LIMIT, PACKET_SHEET_LIMIT};

fn run() -> (u64, u64) {
    common::run(41, 12_000)
}

/// An addition and a drop.
fn moves(seed: u64, index: u64) -> [Move; 2] {
    [generate::add_target(seed, index).into(), generate::drop_target(seed, index).into()]
}

fn sheet_of(form: Form, packet: &[u8]) -> Vec<u8> {
    let mut sheet = vec![0; PACKET_SHEET_LIMIT];
    let count = read(form, packet, &mut sheet).expect("an accepted packet");
    sheet.truncate(count);
    sheet
}

/// Each call gives what the rules say, byte for byte, in every room; a
/// refusal changes nothing, and success nothing beyond its bytes.
#[test]
fn targets_follow_the_rules() {
    let (seed, cases) = run();
    let (mut accepted, mut loose) = ([0; 2], [0; 2]);
    for index in 0..cases {
        for (kind, case) in moves(seed, index).into_iter().enumerate() {
            let result = in_every_room(|out| case.answer(out));
            let expected = case.expected().map_err(|(_, refusal)| refusal);
            assert_eq!(result, expected, "case {index}: {case:?}");
            if result.is_ok() {
                let mut normal = vec![0; PACKET_LIMIT];
                let count = normalise(case.form, &case.packet, &mut normal).expect("as accepted");
                accepted[kind] += 1;
                loose[kind] += u64::from(count < case.packet.len());
            }
        }
    }
    for (accepted, loose) in accepted.into_iter().zip(loose) {
        assert!(accepted > cases / 3, "only {accepted} accepted");
        assert!(loose > accepted / 3, "only {loose} of {accepted} out of normal form");
    }
}

/// The calls as the viewer makes them say the same.
#[test]
fn numbers_say_the_same() {
    let (seed, cases) = run();
    for index in 0..cases / 4 {
        for case in moves(seed + 6, index) {
            let (mut out, mut other) = (vec![3; PACKET_LIMIT], vec![3; PACKET_LIMIT]);
            let form = if case.form == Form::Embedded { 0 } else { 1 + index };
            let number = match &case.what {
                What::Add(records) => add_target_number(form, &case.packet, records, &mut other),
                What::Drop(id) => drop_target_number(form, &case.packet, *id, &mut other),
            };
            assert_eq!(number, answer_number(case.answer(&mut out)), "case {index}");
            assert_eq!(out, other, "case {index}");
        }
    }
}

/// Every room that is too short is answered with the size.
#[test]
fn rooms_below_the_size() {
    let (seed, cases) = run();
    for index in 0..cases / 40 {
        for case in moves(seed + 1, index) {
            let Some(result) = case.call().ok().filter(|result| result.len() < 600) else {
                continue;
            };
            let short = Refusal { number: 16, place: result.len() };
            for room in 0..result.len() {
                let mut out = vec![0xA7; room];
                assert_eq!(case.answer(&mut out), Err(short), "case {index}");
                assert!(out.iter().all(|&byte| byte == 0xA7), "case {index}");
            }
        }
    }
}

/// The result is accepted and its sheet is the old one with that change.
#[test]
fn sheets_change_by_that_target_alone() {
    let (seed, cases) = run();
    for index in 0..cases {
        for case in moves(seed + 2, index) {
            if let Ok(result) = case.call() {
                let sheet = sheet_of(case.form, &result);
                assert_eq!(sheet, sheets::sheet(&case.records()), "case {index}");
            }
        }
    }
}

/// From normal form the result is the changed sheet written afresh.
#[test]
fn from_normal_forms_they_are_writes() {
    let (seed, cases) = run();
    let mut counts = [0; 2];
    for index in 0..cases {
        for (kind, mut case) in moves(seed + 3, index).into_iter().enumerate() {
            let mut normal = vec![0; PACKET_LIMIT];
            let Ok(length) = normalise(case.form, &case.packet, &mut normal) else {
                continue;
            };
            case.packet = normal[..length].to_vec();
            let Ok(result) = case.call() else {
                continue;
            };
            let mut written = vec![0; PACKET_LIMIT];
            let sheet = sheets::sheet(&case.records());
            let length = write(&sheet, &mut written).expect("it can be written");
            assert_eq!(written[..length], result, "case {index}");
            counts[kind] += 1;
        }
    }
    assert!(counts.iter().all(|&count| count > cases / 3), "only {counts:?} accepted");
}

/// The sheet's records but for set tag 6, and that alone.
fn without_count(form: Form, packet: &[u8]) -> (Vec<u8>, Option<Vec<u8>>) {
    let mut records = sheets::of_tree(&parse(form, packet));
    let at = records.iter().position(|record| &record.mark == b"IT" && record.number == 6);
    let count = at.map(|at| std::mem::take(&mut records[at].value));
    (sheets::sheet(&records), count)
}

/// A target added and dropped again leaves the old sheet but for tag 6, which
/// is the number of packs then.
#[test]
fn added_and_dropped_again() {
    let (seed, cases) = run();
    let mut done = 0;
    for index in 0..cases {
        let case = Move::from(generate::add_target(seed + 4, index));
        let (Ok(packet), What::Add(records)) = (case.call(), &case.what) else {
            continue;
        };
        let id = u64::from_be_bytes(records[2..10].try_into().unwrap());
        let back = Move { form: case.form, packet, what: What::Drop(id) };
        let back = back.call().expect("the target stands there");
        let (old, reported) = without_count(case.form, &case.packet);
        let (new, count) = without_count(case.form, &back);
        assert_eq!(old, new, "case {index}");
        let packs = parse(case.form, &back).ids().len() as u32;
        let packs = common::model::shorten(&packs.to_be_bytes());
        assert_eq!(count, reported.map(|_| packs), "case {index}");
        done += 1;
    }
    assert!(done > cases / 3, "only {done} accepted");
}

/// The last of two or more targets dropped and added again: the old sheet but
/// for tag 6.
#[test]
fn dropped_and_added_again() {
    let (seed, cases) = run();
    let mut done = 0;
    for index in 0..cases {
        let mut case = Move::from(generate::drop_target(seed + 5, index));
        let ids = match case.call() {
            Ok(_) => parse(case.form, &case.packet).ids(),
            Err(_) => continue,
        };
        if ids.len() < 2 {
            continue;
        }
        let last = ids[ids.len() - 1];
        case.what = What::Drop(last);
        let packet = case.call().expect("the target stands there");
        let records = sheets::of_tree(&parse(case.form, &case.packet));
        let at = records.iter().position(|r| &r.mark == b"TG" && r.number == last).unwrap();
        let more = records[at + 1..].iter().take_while(|r| &r.mark == b"TI").count();
        let records = sheets::sheet(&records[at..at + 1 + more]);
        let back = Move { form: case.form, packet, what: What::Add(records) };
        if let Ok(back) = back.call() {
            let (old, new) = (&case.packet, &back);
            assert_eq!(without_count(case.form, old).0, without_count(case.form, new).0);
            done += 1;
        }
    }
    assert!(done > cases / 4, "only {done} accepted");
}
