//! Times each call on the named packets: nanoseconds for one call, its time
//! to a refusal where the packet has no target 1 or no space for one more.
//!
//! `cargo run --release --example speed`

use second::generate::{named, typical_target};
use second::{add_target, drop_target, edit, edit_two, locate, normalise, read, show, write};
use second::{Change, Form, Level, Row, PACKET_LIMIT, PACKET_SHEET_LIMIT, ROWS_LIMIT};
use std::hint::black_box;
use std::time::{Duration, Instant};

/// The best of some rounds, each long enough to be measured.
fn time(mut call: impl FnMut()) -> f64 {
    let mut best = f64::MAX;
    for _ in 0..7 {
        let (start, mut calls) = (Instant::now(), 0u32);
        while start.elapsed() < Duration::from_millis(12) {
            (0..20).for_each(|_| call());
            calls += 20;
        }
        best = best.min(start.elapsed().as_nanos() as f64 / f64::from(calls));
    }
    best
}

fn main() {
    let mut sheet = vec![0; PACKET_SHEET_LIMIT];
    let mut out = vec![0; PACKET_LIMIT];
    let mut rows = vec![Row::default(); ROWS_LIMIT];
    println!(
        "{:24}{:>6}  read write normalise locate edit show edit_two \
         add_target drop_target",
        "packet", "bytes"
    );
    for named in named() {
        let (form, packet): (Form, &[u8]) = (named.form, &named.packet);
        let length = read(form, packet, &mut sheet).expect("named packets are accepted");
        let written = sheet[..length].to_vec();
        let (level, tag) = (Level::Target(1), 5);
        let records = typical_target(form, packet);
        let times = [
            time(|| _ = black_box(read(form, black_box(packet), &mut sheet))),
            time(|| _ = black_box(write(black_box(&written), &mut out))),
            time(|| _ = black_box(normalise(form, black_box(packet), &mut out))),
            time(|| _ = black_box(locate(form, black_box(packet), &mut rows))),
            time(|| {
                let change = Change::Put(&[7]);
                _ = black_box(edit(form, black_box(packet), level, tag, change, &mut out));
            }),
            time(|| _ = black_box(show(form, black_box(packet), packet, level, tag))),
            time(|| {
                let (packet, one, other) =
                    (black_box(packet), Change::Put(&[7]), Change::Put(&[9]));
                _ = black_box(edit_two(form, packet, level, tag, one, 22, other, &mut out));
            }),
            time(|| _ = black_box(add_target(form, black_box(packet), &records, &mut out))),
            time(|| _ = black_box(drop_target(form, black_box(packet), 1, &mut out))),
        ];
        let times = times.map(|time| format!("{time:.0}")).join(" ");
        println!("{:24}{:>6}  {times}", named.name, packet.len());
    }
}
