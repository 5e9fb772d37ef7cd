//! Prints a table for the checker: seeded cases with the second reader's
//! answers, which the definitions must compute.
//!
//! `definitions SEED COUNT`: COUNT cases of each kind, from index 0.

use second::generate::{add_target, drop_target, edit, edit_two, packet, sheet, show};
use second::{Answer, Change, Form, Level, Row, Shown, Side};

/// The checker computes with numbers, not bytes: long cases cost seconds.
const LONGEST: usize = 400;

fn main() {
    let mut numbers = std::env::args().skip(1).map(|word| word.parse().expect("a number"));
    let (seed, count) = (numbers.next().unwrap_or(1), numbers.next().unwrap_or(100));
    print!("{}", HEAD);
    packets(seed, count);
    sheets(seed, count);
    edits(seed, count);
    edits_two(seed, count);
    additions(seed, count);
    drops(seed, count);
    shows(seed, count);
}

const HEAD: &str = "\
-- Seeded cases with the second reader's answers.
use mathlib.Core.Path.{◌≡◌, refl}
use Prim.Native.Nat.{ℕ}
use mathlib.Core.List.{List, [], ◌∷◌, map}
use Rattle.format.specs.Answer.{Ans, ok, refused}
use Rattle.format.specs.Table.{Form, embedded, standalone}
use Rattle.format.specs.Calls.{read, write, normalise}
use Rattle.format.specs.Rows.{Row, row, locate}
use Rattle.format.specs.Edit.{Holder, the_set, target, put, remove, Changes, edit}
use Rattle.format.specs.Targets.{add_target, drop_target}
use Rattle.format.specs.Show.{Shown, shown, reviewer, detector, show}
use Rattle.format.proofs.Tables.Open.{opened}
";

/// The answer of a call that fills a buffer, with all the room it may want.
fn bytes_of(call: impl Fn(&mut [u8]) -> Answer) -> String {
    let mut room = vec![0; 65_536];
    answer(call(&mut room), |count| list(&room[..count]))
}

fn answer(answer: Answer, value: impl Fn(usize) -> String) -> String {
    match answer {
        Ok(count) => format!("ok ({})", value(count)),
        Err(refusal) => format!("refused {} {}", refusal.number, refusal.place),
    }
}

fn list(bytes: &[u8]) -> String {
    let mut text: String = bytes.iter().map(|byte| format!("{byte} ∷ ")).collect();
    text.push_str("[]");
    text
}

fn form_of(form: Form) -> &'static str {
    match form {
        Form::Embedded => "embedded",
        Form::Standalone => "standalone",
    }
}

fn holder(level: Level) -> String {
    match level {
        Level::Set => "the_set".to_string(),
        Level::Target(id) => format!("target {id}"),
    }
}

/// A table: what is asked, what is to be answered, and that it is.
fn table(name: &str, kinds: (&str, &str), ask: &str, rows: &[(String, String)]) {
    let (asked, answered) = kinds;
    println!("\n{name} : List (({asked}) × ({answered}))\n{name} =");
    for (question, answer) in rows {
        println!("    (({question}), ({answer})) ∷");
    }
    println!("    []\n");
    println!("{name}_so : map (λ c. {ask}) {name} ≡ map (λ c. c.1) {name}");
    println!("unfolding {name} opened\n{name}_so = refl");
}

fn packets(seed: u64, count: u64) {
    let cases = (0..count).map(|index| packet(seed, index)).filter(|case| case.bytes.len() <= LONGEST);
    let rows: Vec<_> = cases
        .map(|case| {
            let mut rows = vec![Row::default(); 4_096];
            let read = bytes_of(|room| second::read(case.form, &case.bytes, room));
            let normal = bytes_of(|room| second::normalise(case.form, &case.bytes, room));
            let found = second::locate(case.form, &case.bytes, &mut rows);
            let rows = answer(found, |count| all_rows(&rows[..count]));
            (format!("{}, {}", form_of(case.form), list(&case.bytes)), format!("{read}, {normal}, {rows}"))
        })
        .collect();
    let kinds = ("Form × List ℕ", "Ans (List ℕ) × Ans (List ℕ) × Ans (List Row)");
    let asks = ["read", "normalise", "locate"].map(|call| format!("{call} c.0.0 c.0.1"));
    table("packets", kinds, &format!("({})", asks.join(", ")), &rows);
}

fn all_rows(rows: &[Row]) -> String {
    let one = |row: &Row| format!("row {} {} {} {} ∷ ", row.target, row.tag, row.offset, row.length);
    let mut text: String = rows.iter().map(one).collect();
    text.push_str("[]");
    text
}

fn sheets(seed: u64, count: u64) {
    let cases = (0..count).map(|index| sheet(seed, index)).filter(|case| case.bytes.len() <= LONGEST);
    let rows: Vec<_> =
        cases.map(|case| (list(&case.bytes), bytes_of(|room| second::write(&case.bytes, room)))).collect();
    table("sheets", ("List ℕ", "Ans (List ℕ)"), "write c.0", &rows);
}

fn edits(seed: u64, count: u64) {
    let cases = (0..count).map(|index| edit(seed, index));
    let rows = cases.filter(|case| case.packet.len() + len(&case.value) <= LONGEST).map(|case| {
        let question = edit_asked(case.form, case.level, &[(case.tag, case.change())], &case.packet);
        (question, bytes_of(|room| second::edit(case.form, &case.packet, case.level, case.tag, case.change(), room)))
    });
    edit_table("edits", rows);
}

fn edits_two(seed: u64, count: u64) {
    let cases = (0..count).map(|index| edit_two(seed, index));
    let rows = cases.filter(|case| case.packet.len() + len(&case.value) + len(&case.value2) <= LONGEST).map(|case| {
        let changes = [(case.tag, case.change()), (case.tag2, case.change2())];
        let [(tag, change), (tag2, change2)] = changes;
        let question = edit_asked(case.form, case.level, &changes, &case.packet);
        (question, bytes_of(|room| second::edit_two(case.form, &case.packet, case.level, tag, change, tag2, change2, room)))
    });
    edit_table("twos", rows);
}

fn len(value: &Option<Vec<u8>>) -> usize {
    value.as_ref().map_or(0, Vec::len)
}

fn edit_asked(form: Form, level: Level, changes: &[(u64, Change)], packet: &[u8]) -> String {
    let one = |(tag, change): &(u64, Change)| match change {
        Change::Put(value) => format!("({tag}, put ({})) ∷ ", list(value)),
        Change::Remove => format!("({tag}, remove) ∷ "),
    };
    let changes: String = changes.iter().map(one).collect();
    format!("{}, {}, {changes}[], {}", form_of(form), holder(level), list(packet))
}

fn edit_table(name: &str, rows: impl Iterator<Item = (String, String)>) {
    let asks = "edit c.0.0 c.0.1 c.0.2 c.0.3";
    table(name, ("Form × Holder × Changes × List ℕ", "Ans (List ℕ)"), asks, &rows.collect::<Vec<_>>());
}

fn additions(seed: u64, count: u64) {
    let cases = (0..count).map(|index| add_target(seed, index)).filter(|case| case.packet.len() + case.records.len() <= LONGEST);
    let rows: Vec<_> = cases
        .map(|case| {
            let question = format!("{}, {}, {}", form_of(case.form), list(&case.packet), list(&case.records));
            (question, bytes_of(|room| second::add_target(case.form, &case.packet, &case.records, room)))
        })
        .collect();
    let asks = "add_target c.0.0 c.0.1 c.0.2";
    table("additions", ("Form × List ℕ × List ℕ", "Ans (List ℕ)"), asks, &rows);
}

fn drops(seed: u64, count: u64) {
    let cases = (0..count).map(|index| drop_target(seed, index)).filter(|case| case.packet.len() <= LONGEST);
    let rows: Vec<_> = cases
        .map(|case| {
            let question = format!("{}, {}, {}", form_of(case.form), list(&case.packet), case.target);
            (question, bytes_of(|room| second::drop_target(case.form, &case.packet, case.target, room)))
        })
        .collect();
    let asks = "drop_target c.0.0 c.0.1 c.0.2";
    table("drops", ("Form × List ℕ × ℕ", "Ans (List ℕ)"), asks, &rows);
}

fn shows(seed: u64, count: u64) {
    let short = |case: &second::generate::ShowCase| case.reviewer.len() + case.detector.len() <= LONGEST;
    let rows: Vec<_> = (0..count)
        .map(|index| show(seed, index))
        .filter(short)
        .map(|case| {
            let question = format!(
                "{}, {}, {}, {}, {}",
                form_of(case.form),
                list(&case.reviewer),
                list(&case.detector),
                holder(case.level),
                case.tag
            );
            let Shown { side, offset, length } =
                second::show(case.form, &case.reviewer, &case.detector, case.level, case.tag);
            let side = match side {
                Side::Reviewer => "reviewer",
                Side::Detector => "detector",
            };
            (question, format!("shown {side} {offset} {length}"))
        })
        .collect();
    let asks = "show c.0.0 c.0.1 c.0.2 c.0.3 c.0.4";
    table("shows", ("Form × List ℕ × List ℕ × Holder × ℕ", "Shown"), asks, &rows);
}
