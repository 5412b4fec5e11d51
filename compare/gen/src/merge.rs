//! Lists for the merger alone, most of them such as no reader writes.

use crate::rng::Rng;
use common::kinds::kind;
use common::{counted, Event, BEGIN, END, ERROR, EVENT, TOKEN};

type Bare = [u32; EVENT - 1];

/// Nested nodes, many of them ERROR and side by side. With `rising` the spans are a reader's: none starts
/// before its forerunner or ends before it.
pub fn list(rising: bool, rng: &mut Rng) -> Vec<Event> {
    counted(bare(rising, rng))
}

fn bare(rising: bool, rng: &mut Rng) -> Vec<Bare> {
    let mut events = Vec::new();
    let mut place = 0;
    let mut open: Vec<(u32, u32)> = Vec::new();
    for _ in 0..rng.below(30) {
        match rng.below(6) {
            0..=2 if open.len() < 5 => {
                let kind = rng.pick(&[kind::ERROR, kind::ERROR, kind::TERM]);
                open.push((kind, events.len() as u32));
                events.push([BEGIN, kind, place, place]);
            }
            3 => {
                events.push([TOKEN, kind::IDENT, place, place + 1]);
                place += 1;
            }
            4 if rng.percent(20) => events.push([ERROR, rng.below(100) as u32, place, place]),
            _ => close(&mut events, &mut open, place),
        }
    }
    while !open.is_empty() {
        close(&mut events, &mut open, place);
    }
    if !rising {
        events.iter_mut().for_each(|e| (e[2], e[3]) = (rng.below(30) as u32, rng.below(30) as u32));
    }
    events
}

fn close(events: &mut Vec<Bare>, open: &mut Vec<(u32, u32)>, place: u32) {
    if let Some((kind, begin)) = open.pop() {
        events[begin as usize][3] = place;
        events.push([END, kind, events[begin as usize][2], place]);
    }
}

/// Numbers that the merger may have to refuse, and a room of about the right size.
pub fn wild(rng: &mut Rng) -> (Vec<u32>, usize) {
    let mut events = bare(rng.percent(50), rng);
    if rng.percent(15) {
        // An end too many; its depth and those behind it are counted as far as they can be.
        let at = rng.below(events.len() + 1);
        events.insert(at, [END, rng.pick(&[kind::ERROR, kind::TERM]), 0, 0]);
    }
    let mut events = counted(events);
    if rng.percent(15) && !events.is_empty() {
        let at = rng.below(events.len());
        events[at][4] = rng.pick(&[0, 1, events[at][4] + 1, events[at][4].wrapping_sub(1), u32::MAX]);
    }
    let mut numbers = events.concat();
    if rng.percent(20) {
        numbers.truncate(rng.below(numbers.len() + 1));
    }
    if rng.percent(20) && !numbers.is_empty() {
        let at = rng.below(numbers.len() / EVENT + 1) * EVENT;
        numbers.iter_mut().skip(at).take(1).for_each(|s| *s = rng.pick(&[0, 1, 3, 5, u32::MAX]));
    }
    let short = if rng.percent(50) { rng.below(16) } else { 0 };
    let room = (numbers.len() + rng.below(9)).saturating_sub(short);
    (numbers, room)
}
