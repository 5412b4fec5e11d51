//! Sentences with faults, and questions that are to be refused or nearly so.

use crate::any_id;
use crate::rng::Rng;
use common::kinds::id;
use common::{Question, Side, EVENT};
use model::Model;

/// So many faults of the kinds that people and cut files make.
pub fn mutate(mut ids: Vec<u32>, faults: usize, rng: &mut Rng) -> Vec<u32> {
    for _ in 0..faults {
        if ids.is_empty() {
            break;
        }
        let (at, other) = (rng.below(ids.len()), rng.below(ids.len()));
        match rng.below(8) {
            0 => drop(ids.remove(at)),
            1 => ids.insert(at, ids[at]),
            2 => ids.swap(at, other),
            3 => ids[at] = any_id(rng),
            4 => ids[at] = ids[other],
            5 => ids.insert(at, any_id(rng)),
            6 => ids.insert(at, ids[other]),
            _ if rng.percent(30) => ids.truncate(at),
            _ => drop(ids.drain(at..ids.len().min(at + 1 + rng.below(4)))),
        }
    }
    ids
}

/// Rooms that just suffice, or miss it by a little, or any smaller ones.
pub fn rooms(mut question: Question, rng: &mut Rng) -> Question {
    let reply = Model.read(&question);
    let records = common::records_of(&reply.errors, reply.answer[3] as usize);
    let errors = records.iter().map(|r| r.numbers().len()).sum();
    let events = least_event_room(&question, EVENT * reply.answer[2] as usize);
    question.event_room = room(events, EVENT, rng);
    question.error_room = room(errors, 1, rng);
    question
}

/// The finished list may be shorter than what was written and taken back on the way.
fn least_event_room(question: &Question, finished: usize) -> usize {
    let (mut least, mut enough) = (finished, question.event_room);
    while least < enough {
        let middle = least + (enough - least) / 2;
        let tried = Question { event_room: middle, ..question.clone() };
        if Model.read(&tried).refusal == 0 {
            enough = middle;
        } else {
            least = middle + 1;
        }
    }
    least
}

fn room(needed: usize, step: usize, rng: &mut Rng) -> usize {
    match rng.below(8) {
        0..=2 => needed,
        3 => needed + rng.below(4 * step),
        4 => needed.saturating_sub(1),
        5 | 6 => needed.saturating_sub(step * rng.below(12)),
        _ => rng.below(needed + 1),
    }
}

/// One or two faults out of the refusal list, so that their order is seen too.
pub fn refused(mut question: Question, rng: &mut Rng) -> Question {
    question.event_room = question.event_room.min(4_096);
    question.error_room = question.error_room.min(512);
    for _ in 0..1 + rng.below(2) {
        refuse(&mut question, rng);
    }
    question
}

fn refuse(q: &mut Question, rng: &mut Rng) {
    let at = rng.below(q.ids.len() + 1);
    let long = rng.percent(2);
    match rng.below(10) {
        0 if long => q.source.resize(rng.pick(&[1_048_576, 1_048_577]), b' '),
        1 if long => q.ids.resize(rng.pick(&[65_536, 65_537]), id::COMMA),
        2 => drop(q.ids.pop()),
        3 => q.starts.push(q.source.len() as u32),
        4 => drop(q.ends.pop()),
        5 => q.ids.iter_mut().skip(at).take(1).for_each(|i| *i = rng.pick(&[82, 83, u32::MAX])),
        6 => q.starts.iter_mut().skip(at).take(1).for_each(|s| *s = s.wrapping_add(1)),
        7 => q.ends.iter_mut().skip(at).take(1).for_each(|e| *e = e.wrapping_sub(1)),
        8 => q.source.push(b' '),
        _ => q.scratch -= rng.below(q.scratch.min(2) + 1),
    }
}
