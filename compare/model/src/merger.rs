//! Joins neighbouring ERROR nodes, in one pass.

use common::kinds::kind;
use common::{events_of, Event, Merged, BEGIN, END, ERROR, EVENT, LENT};

pub fn merge(numbers: &[u32], room: usize) -> Merged {
    let refused = |refusal| Merged { refusal, count: 0, room: vec![LENT; room] };
    let events = events_of(numbers);
    if !numbers.len().is_multiple_of(EVENT) || !sound(&events) {
        return refused(9);
    }
    if !closes(&events) {
        return refused(10);
    }
    let joined = joined(&events).concat();
    if joined.len() > room {
        return refused(7);
    }
    let count = (joined.len() / EVENT) as u32;
    let mut left = joined;
    left.resize(room, 0);
    Merged { refusal: 0, count, room: left }
}

fn begins(event: &Event) -> bool {
    event[0] == BEGIN && event[1] == kind::ERROR
}

fn ends(event: &Event) -> bool {
    event[0] == END && event[1] == kind::ERROR
}

/// Every sort is one, no end stands where no node is open, and every depth is the counted one.
fn sound(events: &[Event]) -> bool {
    let after = |open: u32, [sort, _, _, _, depth]: &Event| match *sort {
        BEGIN if *depth == open => Some(open + 1),
        END if open.checked_sub(1) == Some(*depth) => Some(*depth),
        BEGIN..=ERROR if *sort != BEGIN && *sort != END && *depth == open => Some(open),
        _ => None,
    };
    events.iter().try_fold(0, after).is_some()
}

/// Every ERROR end has a begin before it, and every begin an end.
fn closes(events: &[Event]) -> bool {
    let depth = events.iter().try_fold(0usize, |open, e| match e {
        e if begins(e) => Some(open + 1),
        e if ends(e) => open.checked_sub(1),
        _ => Some(open),
    });
    depth == Some(0)
}

fn joined(events: &[Event]) -> Vec<Event> {
    let mut out: Vec<Event> = Vec::new();
    let mut open: Vec<usize> = Vec::new();
    let mut joins = false;
    for (i, event) in events.iter().enumerate() {
        if begins(event) && joins {
            let begin = &mut out[open[open.len() - 1]];
            *begin = [BEGIN, kind::ERROR, begin[2].min(event[2]), begin[3].max(event[3]), begin[4]];
        } else if begins(event) {
            open.push(out.len());
            out.push(*event);
        } else if !ends(event) {
            out.push(*event);
        }
        joins = ends(event) && events.get(i + 1).is_some_and(begins);
        if ends(event) && !joins {
            let [_, kind, start, end, _] = out[open.pop().unwrap()];
            out.push([END, kind, start, end, event[4]]);
        }
    }
    out
}
