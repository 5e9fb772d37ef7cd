//! Writes inputs for the program vmtirows, with what it is to print by the
//! second reader: `vmtirows FOLDER SEED COUNT`, files `N.packet` and `N.rows`.

use second::generate::packet;
use second::packet::KEY;
use second::{locate, Form, Row, ROWS_LIMIT};
use std::fmt::Write;

fn main() {
    let mut words = std::env::args().skip(1);
    let folder = words.next().expect("a folder");
    let mut numbers = words.map(|word| word.parse().expect("a number"));
    let (seed, count) = (numbers.next().unwrap_or(1), numbers.next().unwrap_or(270));
    let inputs = chosen().into_iter().chain((0..count).map(|index| packet(seed, index).bytes));
    for (index, input) in inputs.enumerate() {
        let name = format!("{folder}/{index:04}");
        std::fs::write(format!("{name}.rows"), print(&input)).expect("a file");
        std::fs::write(format!("{name}.packet"), input).expect("a file");
    }
}

/// The examples, nothing, the key and less of it, and sizes around the limit.
fn chosen() -> Vec<Vec<u8>> {
    let mut list: Vec<Vec<u8>> = compare::examples().into_iter().map(|case| case.bytes).collect();
    list.extend([Vec::new(), KEY.to_vec(), KEY[..15].to_vec()]);
    list.extend([8_191, 8_192, 8_193, 9_000, 100_000].map(one_item));
    // the key opens it, and it is too long
    list.push([KEY.to_vec(), one_item(9_000)].concat());
    list
}

/// One item of set tag 13 in so many bytes, its length in four.
fn one_item(total: usize) -> Vec<u8> {
    let length = (total as u32 - 6).to_be_bytes();
    let mut bytes = [&[13, 0x84], &length[..]].concat();
    bytes.resize(total, 0x5A);
    bytes
}

fn print(input: &[u8]) -> String {
    let (form, word) = match input.starts_with(&KEY) {
        true => (Form::Standalone, "standalone"),
        false => (Form::Embedded, "embedded"),
    };
    let mut rows = vec![Row::default(); ROWS_LIMIT];
    let count = match locate(form, input, &mut rows) {
        Ok(count) => count,
        Err(refusal) => return format!("refused {} {}\n", refusal.number, refusal.place),
    };
    let mut text = format!("accepted {word} {} {count}\n", input.len());
    for row in &rows[..count] {
        writeln!(text, "{} {} {} {}", row.target, row.tag, row.offset, row.length).expect("a line");
    }
    text
}
