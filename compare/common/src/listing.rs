//! The listing that the program writes, edition 1.

use crate::kinds::{KINDS, NAMES};
use crate::{Event, Reading, Record, BEGIN, END, ERROR};
use std::fmt::Write;

/// The listing of a reading, by its merged or its raw events.
pub fn listing(reading: &Reading, events: &[Event]) -> String {
    let mut out = String::from("L\t1\n");
    for event in events {
        let [sort, what, start, end, _] = *event;
        let letter = match sort {
            BEGIN => "B",
            END => "E",
            ERROR => {
                error_line(&mut out, &reading.records[what as usize], start, end);
                continue;
            }
            _ => "T",
        };
        writeln!(out, "{letter}\t{}\t{start}\t{end}", KINDS[what as usize]).unwrap();
    }
    writeln!(out, "R\t{}\t{}\t{}", reading.outcome, reading.rows, reading.fuel).unwrap();
    out
}

fn error_line(out: &mut String, record: &Record, start: u32, end: u32) {
    assert_eq!((record.start, record.end), (start, end), "an error event has its record's span");
    let names: Vec<&str> = record.names.iter().map(|n| NAMES[*n as usize]).collect();
    let names = if names.is_empty() { "-".to_string() } else { names.join(",") };
    let place = record.place.map_or(String::new(), |place| format!("\t{place}"));
    writeln!(out, "X\t{}\t{start}\t{end}\t{names}{place}", record.form).unwrap();
}
