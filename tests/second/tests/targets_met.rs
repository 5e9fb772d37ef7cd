//! What the generated targets to add and to drop meet: refusals in their
//! order, set tag 6 and the series in every shape, and the edges.

mod common;

use common::model::{parse, shorten};
use common::targets::{given, By, Move, What};
use second::generate;
use second::generate::tree::{Node, Tree};
use second::{locate, Form, Refusal, Row, PACKET_LIMIT, ROWS_LIMIT};
use std::collections::BTreeMap;

const SEED: u64 = 31;
const CASES: u64 = 16_000;

type Counts = BTreeMap<String, u64>;

fn note(counts: &mut Counts, what: impl Into<String>) {
    *counts.entry(what.into()).or_default() += 1;
}

/// Each of these came up at least so many times.
fn assert_met(counts: &Counts, least: u64, what: impl IntoIterator<Item = String>) {
    println!("{counts:#?}");
    for what in what {
        let count = counts.get(&what).copied().unwrap_or(0);
        assert!(count >= least, "{what}: met {count} times");
    }
}

fn adds() -> impl Iterator<Item = Move> {
    (0..CASES).map(|index| generate::add_target(SEED, index).into())
}

fn drops() -> impl Iterator<Item = Move> {
    (0..CASES).map(|index| generate::drop_target(SEED, index).into())
}

/// The records refuse by all of their numbers, the result by its own, and
/// nobody by any other.
#[test]
fn each_refuses_by_its_own_numbers() {
    let mut counts = BTreeMap::new();
    for (kind, cases) in [adds().collect::<Vec<_>>(), drops().collect()].iter().enumerate() {
        for case in cases {
            if let Err((by, refusal)) = case.expected() {
                assert_eq!(case.call(), Err(refusal), "{case:?}");
                *counts.entry((kind, by, refusal.number)).or_insert(0) += 1;
            }
        }
    }
    println!("{counts:?}");
    let own = [
        (0, By::Records, &[7, 9, 11, 12, 13, 17][..]),
        (0, By::Result, &[1, 10, 14, 20]),
        (1, By::Result, &[18]),
    ];
    for (kind, by, numbers) in own {
        for &number in numbers {
            let count = counts.get(&(kind, by, number)).copied().unwrap_or(0);
            assert!(count >= 20, "{kind} {by:?}: {number} came up {count} times");
        }
        let mut met = counts.keys().filter(|key| key.0 == kind && key.1 == by);
        assert!(met.all(|key| numbers.contains(&key.2)));
    }
}

/// The id that records begin with.
fn id_of(records: &[u8]) -> Option<u64> {
    let id = records.strip_prefix(b"TG")?.first_chunk()?;
    Some(u64::from_be_bytes(*id))
}

/// Faults come together, so that their order shows: each set of 10, 20, 14
/// and 1, and each number of the records with an id that stands.
#[test]
fn faults_come_together() {
    let mut counts = Counts::new();
    for case in adds() {
        let What::Add(records) = &case.what else { continue };
        if matches!(case.expected(), Err((By::Packet, _))) {
            continue;
        }
        let ids = parse(case.form, &case.packet).ids();
        let stands = id_of(records).is_some_and(|id| ids.contains(&id));
        let (_, items) = match given(case.form, records) {
            Ok(given) => given,
            Err(number) => {
                note(&mut counts, format!("{number} and stands: {stands}"));
                continue;
            }
        };
        let has = |tag| items.iter().any(|(other, _)| *other == tag);
        let missing = case.form == Form::Standalone && !has(17);
        let over = records.len() > PACKET_LIMIT;
        let faults = [(10, stands), (20, has(19) != has(20)), (14, missing), (1, over)];
        let faults: Vec<i32> = faults.iter().filter(|fault| fault.1).map(|fault| fault.0).collect();
        note(&mut counts, format!("{faults:?}"));
    }
    let sets = (0..16).map(|bits| {
        let faults = [10, 20, 14, 1].into_iter().enumerate();
        let faults: Vec<i32> = faults.filter(|(at, _)| bits >> at & 1 == 1).map(|f| f.1).collect();
        format!("{faults:?}")
    });
    let records = [7, 9, 11, 12, 13, 17].map(|number| format!("{number} and stands: true"));
    assert_met(&counts, 3, sets.chain(records));
}

/// How set tag 6 stands, and where the series does.
fn shape(tree: &Tree) -> (String, String) {
    let series = tree.set.iter().position(|node| node.tag() == 101);
    let at = tree.set.iter().position(|node| node.tag() == 6);
    let last = series.map(|at| if at + 1 == tree.set.len() { "end" } else { "middle" });
    let series = series.map_or("none", |series| match at {
        Some(at) if at < series => "after 6",
        Some(_) => "before 6",
        None => "alone",
    });
    let count = shorten(&(tree.ids().len() as u32).to_be_bytes());
    let reported = match at.map(|at| &tree.set[at]) {
        Some(Node::Item { width: 1.., .. }) => "long",
        Some(Node::Item { value, .. }) if shorten(value) != *value => "padded",
        Some(Node::Item { value, .. }) if *value == count => "right",
        Some(_) => "wrong",
        None => "absent",
    };
    let many = match tree.ids().len() {
        count @ (0 | 1) => count.to_string(),
        2..=9 => "few".into(),
        _ => "many".into(),
    };
    (format!("{reported} {series}"), format!("{many} at {}", last.unwrap_or("none")))
}

/// Every shape is met by accepted cases.
#[test]
fn every_shape_is_met() {
    for add in [true, false] {
        let mut counts = Counts::new();
        let cases: Vec<Move> = if add { adds().collect() } else { drops().collect() };
        for case in cases.iter().filter(|case| case.call().is_ok()) {
            let tree = parse(case.form, &case.packet);
            let (reported, series) = shape(&tree);
            note(&mut counts, format!("{:?} {reported}", case.form));
            note(&mut counts, format!("{:?} {series}", case.form));
            if let What::Drop(id) = case.what {
                let ids = tree.ids();
                let first = ids[0] == id;
                let last = ids[ids.len() - 1] == id;
                note(&mut counts, format!("first {first} last {last}"));
            }
        }
        let mut met = Vec::new();
        for form in [Form::Embedded, Form::Standalone] {
            let places =
                if add { &["none", "after 6", "before 6"][..] } else { &["after 6", "before 6"] };
            for reported in ["right", "wrong", "padded", "long"] {
                met.extend(places.iter().map(|place| format!("{form:?} {reported} {place}")));
            }
            met.push(format!("{form:?} absent alone"));
            for many in ["1", "few", "many"] {
                met.extend(["end", "middle"].map(|at| format!("{form:?} {many} at {at}")));
            }
            met.extend(add.then(|| format!("{form:?} 0 at none")));
        }
        if !add {
            let both = [(true, true), (true, false), (false, true), (false, false)];
            met.extend(both.map(|(first, last)| format!("first {first} last {last}")));
        }
        assert_met(&counts, 3, met);
    }
}

/// The lengths of the set in standalone, of the series, of the last pack and
/// of tag 6; 0 where there is none.
fn lengths(form: Form, packet: &[u8]) -> [usize; 4] {
    let mut rows = vec![Row::default(); ROWS_LIMIT];
    let count = locate(form, packet, &mut rows).expect("an accepted packet");
    let rows = &rows[..count];
    let length = |row: Option<&Row>| row.map_or(0, |row| row.length as usize);
    let outer = match form {
        Form::Embedded => 0,
        // Its items begin after the key and the length itself.
        Form::Standalone => packet.len() - (rows[0].offset as usize - 2),
    };
    let item = |tag| length(rows.iter().find(|row| row.target == 0 && row.tag == tag));
    let pack = length(rows.iter().rfind(|row| row.target > 0 && row.tag == 0));
    [outer, item(101), pack, item(6)]
}

const AROUND: [&str; 4] = ["outer", "series", "pack", "count"];

fn width(length: usize) -> usize {
    match length {
        0..=127 => 1,
        128..=255 => 2,
        _ => 3,
    }
}

/// Notes the result's lengths at the edges, and the widths that changed.
fn note_lengths(counts: &mut Counts, case: &Move) {
    let Ok(result) = case.call() else {
        if let (Ok(bytes), true) = (case.unmeasured(), case.call() == Err(OVER)) {
            note(counts, format!("{:?} of {}", case.form, bytes.len()));
        }
        return;
    };
    note(counts, format!("{:?} of {}", case.form, result.len()));
    note(counts, format!("{:?} from {}", case.form, case.packet.len()));
    let (old, new) = (lengths(case.form, &case.packet), lengths(case.form, &result));
    for (name, (old, new)) in AROUND.iter().zip(old.into_iter().zip(new)) {
        note(counts, format!("{name} of {new}"));
        note(counts, format!("{name} {} to {}", width(old), width(new)));
    }
    note(counts, format!("count {} to {} bytes", old[3], new[3]));
}

const OVER: Refusal = Refusal { number: 1, place: 0 };

#[test]
fn additions_reach_the_edges() {
    let mut counts = Counts::new();
    adds().for_each(|case| note_lengths(&mut counts, &case));
    let mut met = vec!["count 1 to 2 bytes".to_string(), "count 2 to 1 bytes".into()];
    for name in &AROUND[..3] {
        met.extend([127, 128, 255, 256].map(|length| format!("{name} of {length}")));
    }
    for name in &AROUND[..2] {
        met.extend(["1 to 2", "2 to 3"].map(|widths| format!("{name} {widths}")));
    }
    for form in [Form::Embedded, Form::Standalone] {
        met.extend([8_191, 8_192, 8_193].map(|count| format!("{form:?} of {count}")));
    }
    counts.retain(|what, _| met.contains(what));
    assert_met(&counts, 3, met);
}

#[test]
fn drops_reach_the_edges() {
    let mut counts = Counts::new();
    drops().for_each(|case| note_lengths(&mut counts, &case));
    let mut met = vec!["count 1 to 2 bytes".to_string(), "count 2 to 1 bytes".into()];
    for name in &AROUND[..2] {
        met.extend([127, 128, 255, 256].map(|length| format!("{name} of {length}")));
        met.extend(["2 to 1", "3 to 2"].map(|widths| format!("{name} {widths}")));
    }
    for form in [Form::Embedded, Form::Standalone] {
        met.extend([8_191, 8_192].map(|count| format!("{form:?} from {count}")));
    }
    counts.retain(|what, _| met.contains(what));
    assert_met(&counts, 3, met);
}

/// The rooms lie on either side of what is needed.
#[test]
fn rooms_about_the_size() {
    let mut counts = Counts::new();
    let mut out = vec![0; PACKET_LIMIT + 1];
    for index in 0..CASES {
        let (add, drop) = (generate::add_target(SEED, index), generate::drop_target(SEED, index));
        for (kind, room, case) in
            [("add", add.room, Move::from(add)), ("drop", drop.room, Move::from(drop))]
        {
            match case.answer(&mut out[..room]) {
                Ok(count) if room - count < 2 => {
                    note(&mut counts, format!("{kind}: {} to spare", room - count))
                }
                Err(Refusal { number: 16, place }) if place == room + 1 => {
                    note(&mut counts, format!("{kind}: 1 short"))
                }
                _ => {}
            }
        }
    }
    for kind in ["add", "drop"] {
        let met = ["0 to spare", "1 to spare", "1 short"].map(|what| format!("{kind}: {what}"));
        assert_met(&counts, 20, met);
    }
}
