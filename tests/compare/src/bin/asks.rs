//! Writes questions for the program vmtiask, as docs/QUESTIONS.md has them,
//! with what it is to answer by the second reader: `asks FOLDER SEED COUNT
//! MOST`, COUNT seeded ones of each kind after the chosen ones, in the files
//! `questions` and `answers`, and in `sizes` a line for each answer, its kind
//! and how many bytes it has. A table that would bring the answers over MOST
//! bytes is not asked for. Then `asks FOLDER` compares the file `printed` with
//! the answers, one by one.

use second::generate::limits::of_size;
use second::generate::random::Random;
use second::generate::{named, packet, show, PacketCase, ShowCase};
use second::{locate, Form, Level, Refusal, Row, Shown, Side, PACKET_LIMIT, ROWS_LIMIT};
use std::process::exit;

/// The most bytes of a packet that the program has room for.
const PACKET_ROOM: usize = 16_384;

/// Any byte but 0 is standalone, or the target.
const OTHER: [u8; 5] = [1, 2, 16, 128, 255];

fn main() {
    let mut words = std::env::args().skip(1);
    let folder = words.next().expect("a folder");
    if words.len() == 0 {
        exit(i32::from(!is_as_printed(&folder)));
    }
    let mut numbers = words.map(|word| word.parse().expect("a number"));
    let (seed, count) = (numbers.next().unwrap_or(1), numbers.next().unwrap_or(20_000));
    let mut asked = Asked { most: numbers.next().unwrap_or(u64::MAX) as usize, ..Asked::default() };
    for (index, case) in chosen_packets().iter().enumerate() {
        rooms(case, index).into_iter().for_each(|room| asked.locate(case, room, index));
    }
    for index in 0..count {
        let (mut case, index) = (packet(seed, index), index as usize);
        case.bytes.truncate(PACKET_ROOM);
        let rooms = rooms(&case, index);
        asked.locate(&case, rooms[index / 16 % rooms.len()], index);
    }
    let shown = chosen_shows().into_iter().chain((0..count).map(|index| show(seed, index)));
    for (index, mut case) in shown.enumerate() {
        case.reviewer.truncate(PACKET_ROOM);
        case.detector.truncate(PACKET_ROOM);
        asked.show(&case, index);
    }
    asked.number(ENDED);
    let file = |name: &str, bytes: &[u8]| std::fs::write(format!("{folder}/{name}"), bytes).expect("a file");
    file("questions", &asked.questions);
    file("answers", &asked.answers);
    file("sizes", asked.sizes.as_bytes());
}

/// What the program says at the end of its input.
const ENDED: u64 = 1;

/// The stream so far, and its answers.
#[derive(Default)]
struct Asked {
    most: usize,
    questions: Vec<u8>,
    answers: Vec<u8>,
    sizes: String,
}

/// What heads a frame beside the packets.
struct Head {
    kind: u8,
    form: u8,
    level: u8,
    target: u64,
    tag: u64,
    room: usize,
}

impl Asked {
    fn locate(&mut self, case: &PacketCase, room: usize, index: usize) {
        if self.most < self.answers.len() + 32 * room {
            return;
        }
        let (level, target, tag) = (OTHER[index / 5 % 5], index as u64, 19);
        let head = Head { kind: b'L', form: form(case.form, index), level, target, tag, room };
        let other = &case.bytes[..case.bytes.len().min(index % 3)];
        self.frame(&head, &case.bytes, other);
        let from = self.answers.len();
        self.located(case, room);
        self.size("locate", from);
    }

    fn frame(&mut self, head: &Head, reviewer: &[u8], detector: &[u8]) {
        let all = &mut self.questions;
        all.extend([head.kind, head.form, head.level]);
        all.extend(head.target.to_be_bytes());
        all.extend(head.tag.to_be_bytes());
        all.extend((head.room as u16).to_be_bytes());
        all.extend((reviewer.len() as u32).to_be_bytes());
        all.extend((detector.len() as u32).to_be_bytes());
        all.extend([reviewer, detector, &[head.kind]].concat());
    }

    fn number(&mut self, number: u64) {
        self.answers.extend(number.to_be_bytes());
    }

    fn size(&mut self, kind: &str, from: usize) {
        self.sizes += &format!("{kind} {}\n", self.answers.len() - from);
    }

    fn located(&mut self, case: &PacketCase, room: usize) {
        let mut table = vec![Row { target: 7, tag: 7, offset: 7, length: 7 }; room];
        let (number, place) = match locate(case.form, &case.bytes, &mut table) {
            Ok(count) => (0, count),
            Err(Refusal { number, place }) => (number, place),
        };
        self.number(u64::from(number));
        self.number(place as u64);
        for row in &table {
            for number in [row.target, row.tag, row.offset, row.length] {
                self.number(u64::from(number));
            }
        }
    }

    fn show(&mut self, case: &ShowCase, index: usize) {
        let (level, target) = match case.level {
            Level::Set => (0, index as u64),
            Level::Target(id) => (OTHER[index / 3 % 5], id),
        };
        let head = Head { kind: b'S', form: form(case.form, index), level, target, tag: case.tag, room: index % 4_097 };
        self.frame(&head, &case.reviewer, &case.detector);
        let shown = second::show(case.form, &case.reviewer, &case.detector, case.level, case.tag);
        let from = self.answers.len();
        self.shown(&shown, shown.part(&case.reviewer, &case.detector));
        self.size("show", from);
    }

    fn shown(&mut self, shown: &Shown, part: &[u8]) {
        let side = match shown.side {
            Side::Reviewer => 0,
            Side::Detector => 1,
        };
        for number in [side, shown.offset as u64, shown.length as u64] {
            self.number(number);
        }
        self.answers.extend(part);
    }
}

/// Whether what was printed is what was to be answered; says how many of each
/// kind were asked and how many differed, with the first of these.
fn is_as_printed(folder: &str) -> bool {
    let file = |name: &str| std::fs::read(format!("{folder}/{name}")).expect("a file");
    let (answers, printed, sizes) = (file("answers"), file("printed"), file("sizes"));
    let sizes = String::from_utf8(sizes).expect("lines");
    let (mut at, mut asked, mut differed) = (0, [0; 2], [0; 2]);
    for (index, line) in sizes.lines().enumerate() {
        let (kind, size) = line.split_once(' ').expect("a kind and a size");
        let to = at + size.parse::<usize>().expect("a size");
        let which = usize::from(kind == "show");
        let ours = &printed[at.min(printed.len())..to.min(printed.len())];
        asked[which] += 1;
        if ours != &answers[at..to] {
            differed[which] += 1;
            if differed[0] + differed[1] <= 5 {
                println!("question {}, {kind}: expected\n  {}\nprinted\n  {}", index + 1, spelled(&answers[at..to]), spelled(ours));
            }
        }
        at = to;
    }
    for (which, kind) in ["locate", "show"].iter().enumerate() {
        println!("{kind}: {} asked, {} differed", asked[which], differed[which]);
    }
    answers == printed
}

/// The first numbers of an answer, and what is left over as bytes.
fn spelled(answer: &[u8]) -> String {
    let words = answer.chunks(8).take(24).map(|word| match word.try_into() {
        Ok(word) => u64::from_be_bytes(word).to_string(),
        Err(_) => format!("{word:02x?}"),
    });
    words.collect::<Vec<_>>().join(" ")
}

/// No room, one row too few, exactly enough, some more, and at times the most.
fn rooms(case: &PacketCase, index: usize) -> Vec<usize> {
    let count = locate(case.form, &case.bytes, &mut vec![Row::default(); ROWS_LIMIT]).unwrap_or(0);
    let mut rooms = vec![0, count.saturating_sub(1), count, (count + 1 + index % 40).min(ROWS_LIMIT)];
    if index % 16 == 0 {
        rooms.push(ROWS_LIMIT);
    }
    rooms.dedup();
    rooms
}

fn form(form: Form, index: usize) -> u8 {
    match form {
        Form::Embedded => 0,
        Form::Standalone => OTHER[index % 5],
    }
}

/// The examples, and a target of the greatest id with tag 19.
fn examples() -> Vec<PacketCase> {
    let pack = [&[0x65, 13, 12][..], &[0xFF; 8], &[0x7F, 19, 1, 5]].concat();
    let last = PacketCase { form: Form::Embedded, bytes: pack };
    compare::examples().into_iter().chain([last]).collect()
}

/// The examples in both forms, the named ones, and sizes around the limits.
fn chosen_packets() -> Vec<PacketCase> {
    let mut list = examples();
    let embedded = list.iter().filter(|case| case.form == Form::Embedded).cloned();
    let swapped = embedded.map(|case| PacketCase { form: Form::Standalone, ..case });
    list = list.iter().cloned().chain(swapped).collect();
    list.extend(named().into_iter().map(|one| PacketCase { form: one.form, bytes: one.packet }));
    list.extend(sizes(Form::Embedded).chain(sizes(Form::Standalone)));
    list
}

/// Nothing, as many bytes as are allowed, one more, and the most that the
/// program takes.
fn sizes(form: Form) -> impl Iterator<Item = PacketCase> {
    let long = [PACKET_LIMIT, PACKET_LIMIT + 1, PACKET_ROOM].into_iter();
    let long = long.map(move |total| of_size(&mut Random::new(1, 5, total as u64), form, total).bytes());
    std::iter::once(Vec::new()).chain(long).map(move |bytes| PacketCase { form, bytes })
}

/// Each example and each size beside A or H and the other way round, under
/// every name.
fn chosen_shows() -> Vec<ShowCase> {
    let mut packets = examples();
    let a = packets[0].bytes.clone();
    packets.extend(sizes(Form::Embedded).chain(sizes(Form::Standalone)));
    let mut list = Vec::new();
    for PacketCase { form, bytes } in packets {
        let other = if form == Form::Embedded { a.clone() } else { compare::example_h() };
        for (level, tag) in names() {
            let case = |reviewer: &[u8], detector: &[u8]| {
                let (reviewer, detector) = (reviewer.to_vec(), detector.to_vec());
                ShowCase { form, reviewer, detector, level, tag }
            };
            list.extend([case(&bytes, &other), case(&other, &bytes)]);
        }
    }
    list
}

/// Set and targets, by tags of every kind.
fn names() -> Vec<(Level, u64)> {
    let tags = [0, 1, 2, 5, 13, 19, 20, 101, 16_383, 16_384, u64::MAX];
    let ids = [0, 1, 2, 7, 1 << 32, (1 << 63) - 1, 1 << 63, u64::MAX];
    let levels = std::iter::once(Level::Set).chain(ids.map(Level::Target));
    levels.flat_map(|level| tags.map(|tag| (level, tag))).collect()
}
