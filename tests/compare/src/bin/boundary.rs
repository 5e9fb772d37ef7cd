//! Writes a stream of cases for `boundary.c` and `stack.c`, with the second
//! reader's answers: `boundary SEED COUNT`, COUNT seeded packets after
//! document 01's examples, the named ones and those that take the calls deep,
//! each read and, every other one, normalised, half as many seeded sheets, each
//! written, and half as many seeded edits of one change, of two, targets added
//! and targets dropped; and for every sixteenth a packet and a sheet of targets
//! laid out alike, one byte of them changed; with two rooms each. The examples
//! and the named packets also have the typical target added, and each of theirs
//! dropped, and some have targets added that are longer than a sheet may be.
//!
//! The stream, numbers low byte first: count of inputs (8); for each its call,
//! form, level, target, tag and removal, and the second change's tag and removal
//! (8 each), the length (4) and bytes of the value to put, or the records of the
//! target to add, of the second value, and of the input, then for each room its
//! size (4), the one number (8), the count of bytes written (4) and those bytes.

use compare::{deep, targets};
use second::generate::mutate::repair;
use second::generate::random::Random;
use second::generate::{add_target, drop_target, edit, edit_two, named, packet, sheet};
use second::generate::{AddTargetCase, DropTargetCase, EditCase, EditTwoCase, PacketCase};
use second::{add_target_number, drop_target_number, edit_number, edit_two_number, normalise_number, read, read_number, write_number};
use second::{Form, Level, PACKET_LIMIT, PACKET_SHEET_LIMIT, SHEET_LIMIT};
use std::io::{self, BufWriter, Write};

/// Any number but 0 is standalone, a target or a removal, whichever of its
/// bytes is not 0.
const OTHER: [u64; 6] = [1, 2, 256, 1 << 32, 1 << 63, u64::MAX];

/// As the calls are numbered in `boundary.c`.
#[derive(Clone, Copy)]
enum Call {
    Read,
    Write,
    Normalise,
    Edit,
    EditTwo,
    Add,
    Drop,
}

/// A call and what it is made on.
struct Question {
    call: Call,
    form: u64,
    /// Level and target of an edit, or the target to drop.
    names: [u64; 2],
    /// Tag, removal and value of its changes, the second of which an edit of
    /// one does not look at; the first value is a new target's records.
    changes: [(u64, u64, Vec<u8>); 2],
    input: Vec<u8>,
}

impl Question {
    fn answer(&self, room: &mut [u8]) -> u64 {
        match self.call {
            Call::Read => read_number(self.form, &self.input, room),
            Call::Write => write_number(&self.input, room),
            Call::Normalise => normalise_number(self.form, &self.input, room),
            Call::Edit => {
                let ([level, target], [(tag, removal, value), _]) = (self.names, &self.changes);
                edit_number(self.form, &self.input, level, target, *tag, *removal, value, room)
            }
            Call::EditTwo => {
                let ([level, target], [(tag, removal, value), (tag2, removal2, value2)]) = (self.names, &self.changes);
                let (form, input) = (self.form, &self.input);
                edit_two_number(form, input, level, target, *tag, *removal, value, *tag2, *removal2, value2, room)
            }
            Call::Add => add_target_number(self.form, &self.input, &self.changes[0].2, room),
            Call::Drop => drop_target_number(self.form, &self.input, self.names[1], room),
        }
    }

    /// The sizes that always suffice.
    fn most(&self) -> [usize; 2] {
        match self.call {
            Call::Read => [PACKET_SHEET_LIMIT, SHEET_LIMIT],
            _ => [PACKET_LIMIT, PACKET_LIMIT + 1],
        }
    }
}

fn main() -> io::Result<()> {
    let mut numbers = std::env::args().skip(1).map(|word| word.parse().expect("a number"));
    let (seed, count) = (numbers.next().unwrap_or(1), numbers.next().unwrap_or(1_000));
    let mut first: Vec<PacketCase> = compare::examples();
    first.extend(named().into_iter().map(|named| PacketCase { form: named.form, bytes: named.packet }));
    let alike = alike(&first);
    let named = (first.len() + deep::packets().len()) as u64;
    let fixed = fixed(&first);
    let out = &mut BufWriter::new(io::stdout().lock());
    out.write_all(&(fixed.len() as u64 + 2 * count + 4 * (count / 2) + 2 * count.div_ceil(16)).to_le_bytes())?;
    for (index, question) in &fixed {
        write_case(out, *index, question)?;
    }
    for index in 0..count {
        write_seeded(out, seed, index, (named + index) as usize)?;
    }
    for index in 0..count.div_ceil(16) {
        let random = &mut Random::new(seed, 9, index);
        let (case, sheet) = &alike[random.below(alike.len())];
        let changed = PacketCase { form: case.form, bytes: repair(case.form, &one_changed(random, &case.bytes)) };
        write_case(out, index as usize, &of_packet(Call::Read, index as usize, &changed))?;
        write_case(out, index as usize, &of_sheet(one_changed(random, sheet)))?;
    }
    out.flush()
}

/// What is asked whatever the seed, each with its place among those of its kind.
fn fixed(first: &[PacketCase]) -> Vec<(usize, Question)> {
    let mut all = Vec::new();
    for (index, case) in first.iter().chain(&deep::packets()).enumerate() {
        all.extend([Call::Read, Call::Normalise].map(|call| (index, of_packet(call, index, case))));
    }
    let edits = compare::edits().into_iter().chain(deep::edits()).enumerate();
    all.extend(edits.map(|(index, case)| (index, of_edit(index, case))));
    all.extend(deep::edits_two().into_iter().enumerate().map(|(index, case)| (index, of_edit_two(index, case))));
    all.extend(deep::sheets().into_iter().enumerate().map(|(index, sheet)| (index, of_sheet(sheet))));
    let long = targets::long(&[compare::examples().swap_remove(0), PacketCase { form: Form::Standalone, bytes: compare::example_h() }]);
    let additions = targets::additions(first).into_iter().chain(long).chain(deep::additions()).enumerate();
    all.extend(additions.map(|(index, case)| (index, of_addition(index, case))));
    let drops = targets::drops(first).into_iter().chain(deep::drops()).enumerate();
    all.extend(drops.map(|(index, case)| (index, of_drop(index, case))));
    all
}

/// The seeded questions of an index, whose packet has this place among all.
fn write_seeded(out: &mut impl Write, seed: u64, index: u64, place: usize) -> io::Result<()> {
    let (case, half) = (packet(seed, index), index / 2);
    write_case(out, place, &of_packet(Call::Read, place, &case))?;
    if index % 2 == 0 {
        return write_case(out, place / 2, &of_packet(Call::Normalise, place, &case));
    }
    let questions = [
        of_sheet(sheet(seed, half).bytes),
        of_edit(place, edit(seed, half)),
        of_edit_two(place, edit_two(seed, half)),
        of_addition(place, add_target(seed, half)),
        of_drop(place, drop_target(seed, half)),
    ];
    questions.iter().try_for_each(|question| write_case(out, place / 2, question))
}

/// The packets of some targets each, most of them laid out as the one before, and their sheets.
fn alike(named: &[PacketCase]) -> Vec<(PacketCase, Vec<u8>)> {
    let some = named.iter().filter(|case| (200..500).contains(&case.bytes.len()));
    let mut room = vec![0; SHEET_LIMIT];
    some.map(|case| {
        let size = read(case.form, &case.bytes, &mut room).expect("an accepted packet");
        (case.clone(), room[..size].to_vec())
    })
    .collect()
}

/// One byte becomes 0, or another by a bit.
fn one_changed(random: &mut Random, bytes: &[u8]) -> Vec<u8> {
    let mut changed = bytes.to_vec();
    let at = random.below(changed.len());
    changed[at] = if random.once_in(2) { 0 } else { changed[at] ^ 1 << random.below(8) };
    changed
}

fn of_packet(call: Call, index: usize, case: &PacketCase) -> Question {
    Question { call, form: form(index, case.form), names: [0; 2], changes: Default::default(), input: case.bytes.clone() }
}

fn of_sheet(input: Vec<u8>) -> Question {
    Question { call: Call::Write, form: 0, names: [0; 2], changes: Default::default(), input }
}

fn of_edit(index: usize, case: EditCase) -> Question {
    let changes = [change(index, case.tag, case.value), (0, 0, Vec::new())];
    let (form, names) = (form(index, case.form), holder(index, case.level));
    Question { call: Call::Edit, form, names, changes, input: case.packet }
}

fn of_edit_two(index: usize, case: EditTwoCase) -> Question {
    let changes = [change(index, case.tag, case.value), change(index + 1, case.tag2, case.value2)];
    let (form, names) = (form(index, case.form), holder(index, case.level));
    Question { call: Call::EditTwo, form, names, changes, input: case.packet }
}

fn of_addition(index: usize, case: AddTargetCase) -> Question {
    let changes = [(0, 0, case.records), (0, 0, Vec::new())];
    Question { call: Call::Add, form: form(index, case.form), names: [0; 2], changes, input: case.packet }
}

fn of_drop(index: usize, case: DropTargetCase) -> Question {
    let names = [0, case.target];
    Question { call: Call::Drop, form: form(index, case.form), names, changes: Default::default(), input: case.packet }
}

fn other(index: usize, turn: usize) -> u64 {
    OTHER[(index + turn) % OTHER.len()]
}

/// Where the set is named the target is not looked at.
fn holder(index: usize, level: Level) -> [u64; 2] {
    match level {
        Level::Set => [0, other(index, 1)],
        Level::Target(id) => [other(index, 1), id],
    }
}

/// Nor is the value where the item is removed.
fn change(index: usize, tag: u64, value: Option<Vec<u8>>) -> (u64, u64, Vec<u8>) {
    match value {
        Some(value) => (tag, 0, value),
        None => (tag, other(index, 2), vec![0; index % 3]),
    }
}

fn form(index: usize, form: Form) -> u64 {
    match form {
        Form::Embedded => 0,
        Form::Standalone => OTHER[index % OTHER.len()],
    }
}

fn write_case(out: &mut impl Write, index: usize, question: &Question) -> io::Result<()> {
    out.write_all(&(question.call as u64).to_le_bytes())?;
    out.write_all(&question.form.to_le_bytes())?;
    let [(tag, removal, value), (tag2, removal2, value2)] = &question.changes;
    for number in question.names.iter().chain([tag, removal, tag2, removal2]) {
        out.write_all(&number.to_le_bytes())?;
    }
    write_bytes(out, value)?;
    write_bytes(out, value2)?;
    write_bytes(out, &question.input)?;
    let mut room = vec![0; SHEET_LIMIT];
    for size in rooms(index, question) {
        let answer = question.answer(&mut room[..size]);
        let written = if answer % 256 == 0 { answer / 256 } else { 0 };
        out.write_all(&(size as u32).to_le_bytes())?;
        out.write_all(&answer.to_le_bytes())?;
        write_bytes(out, &room[..written as usize])?;
    }
    Ok(())
}

fn write_bytes(out: &mut impl Write, bytes: &[u8]) -> io::Result<()> {
    out.write_all(&(bytes.len() as u32).to_le_bytes())?;
    out.write_all(bytes)
}

/// Exact, and by turns one too few, none, or to spare. A refused input has no
/// exact room: some bytes are lent all the same, for it to leave alone.
fn rooms(index: usize, question: &Question) -> [usize; 2] {
    let answer = question.answer(&mut [0; SHEET_LIMIT]);
    let exact = if answer % 256 == 0 { answer as usize / 256 } else { 3 + question.input.len() % 500 };
    // of targets, whose kinds go round in sixteens, each has its turn at either
    let turns = if matches!(question.call, Call::Add | Call::Drop) { 61 } else { 64 };
    let spare = match index % turns {
        12 => question.most()[0],
        28 => question.most()[1],
        _ => exact + 1 + index * 7_919 % 40,
    };
    [exact, [exact.saturating_sub(1), 0, spare][index % 3]]
}
