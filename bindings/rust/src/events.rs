//! Events, and what is listed from them.

use crate::raw::{self, event};
use crate::{Kind, Refusal};

/// A list of events that the reader or the merger wrote.
#[derive(Clone, Debug, Default, PartialEq, Eq)]
pub struct Events(Vec<u32>);

/// One event.
#[derive(Clone, Copy, Debug, PartialEq, Eq)]
pub struct Event {
    /// What happens.
    pub kind: EventKind,
    /// Where its node, row or error starts in the source, in bytes from 0.
    pub start: u32,
    /// Where it ends.
    pub end: u32,
    /// How many nodes are open around it: 0 for both events of `SOURCE_FILE`.
    pub depth: u32,
}

/// What happens at an event.
#[derive(Clone, Copy, Debug, PartialEq, Eq)]
pub enum EventKind {
    /// A node begins.
    Begin(Kind),
    /// A row.
    Token(Kind),
    /// A node ends.
    End(Kind),
    /// The error record with this index, from 0.
    Error(u32),
}

impl Events {
    pub(crate) fn new(mut numbers: Vec<u32>, count: u32) -> Self {
        numbers.truncate(event::SIZE * count as usize);
        numbers.shrink_to_fit();
        Self(numbers)
    }

    /// How many events.
    pub fn len(&self) -> usize {
        self.0.len() / event::SIZE
    }

    /// Whether there is none.
    pub fn is_empty(&self) -> bool {
        self.0.is_empty()
    }

    /// The events as numbers, for [`raw`].
    pub fn numbers(&self) -> &[u32] {
        &self.0
    }

    /// The events in their order.
    pub fn iter(&self) -> impl Iterator<Item = Event> + '_ {
        self.0.chunks_exact(event::SIZE).map(|numbers| Event {
            kind: kind(numbers),
            start: numbers[event::START],
            end: numbers[event::END],
            depth: numbers[event::DEPTH],
        })
    }
}

fn kind(numbers: &[u32]) -> EventKind {
    let number = numbers[event::KIND];
    match numbers[event::SORT] {
        1 => EventKind::Begin(Kind(number)),
        2 => EventKind::Token(Kind(number)),
        3 => EventKind::End(Kind(number)),
        4 => EventKind::Error(number),
        sort => unreachable!("the library writes no sort {sort}"),
    }
}

/// Joins neighbouring ERROR nodes.
pub fn merge(events: &Events) -> Result<Events, Refusal> {
    let call = |room: &mut [u32], count: &mut u32| raw::merge(&events.0, room, count);
    let (room, count) = crate::grown(events.0.len(), 7, call)?;
    Ok(Events::new(room, count))
}

/// A rule of the file: a node that closed as a rule.
#[derive(Clone, Copy, Debug, PartialEq, Eq)]
pub struct Rule {
    /// Where its name stands in the source.
    pub name_start: u32,
    /// Where its name ends.
    pub name_end: u32,
    /// Where the rule starts.
    pub start: u32,
    /// Where it ends.
    pub end: u32,
    /// How many metadata entries it has.
    pub meta: u32,
    /// How many patterns.
    pub patterns: u32,
    /// How many tags.
    pub tags: u32,
    /// Whether an error lies inside it.
    pub damaged: bool,
}

/// Lists the rules in file order; a name used twice is listed twice.
pub fn rules(events: &Events) -> Result<Vec<Rule>, Refusal> {
    let call = |room: &mut [u32], count: &mut u32| raw::rules(&events.0, room, count);
    let (room, count) = crate::grown(32 * raw::RULE, 14, call)?;
    let rule = |numbers: &[u32]| Rule {
        name_start: numbers[0],
        name_end: numbers[1],
        start: numbers[2],
        end: numbers[3],
        meta: numbers[4],
        patterns: numbers[5],
        tags: numbers[6],
        damaged: numbers[7] != 0,
    };
    Ok(room.chunks_exact(raw::RULE).take(count as usize).map(rule).collect())
}

/// A node of an outline.
#[derive(Clone, Copy, Debug, PartialEq, Eq)]
pub struct Node {
    /// What node it is.
    pub kind: Kind,
    /// Where it starts in the source.
    pub start: u32,
    /// Where it ends.
    pub end: u32,
    /// How far below the node that was asked for: its children have 1.
    pub depth: u32,
}

/// Lists the nodes below the one that the event at index `at` opens, to a depth; index 0 opens `SOURCE_FILE`.
pub fn outline(events: &Events, at: usize, depth: u32) -> Result<Vec<Node>, Refusal> {
    let call = |room: &mut [u32], count: &mut u32| raw::outline(&events.0, at, depth, room, count);
    let (room, count) = crate::grown(64 * raw::NODE, 14, call)?;
    let node = |n: &[u32]| Node { kind: Kind(n[0]), start: n[1], end: n[2], depth: n[3] };
    Ok(room.chunks_exact(raw::NODE).take(count as usize).map(node).collect())
}
