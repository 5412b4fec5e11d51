//! Acceptance: Ford's parsing expressions over the same productions, without events, errors or fuel.

use crate::grammar::{Part, Set, ITEM};
use common::kinds::{is_trivia, kind, ID_OF_KIND};
use std::collections::HashMap;

/// Whether the rows, trivia aside, are a run of none or more items from first to last, where entrypoint is a term or is not.
pub fn accepts(ids: &[u32], entrypoint: bool) -> bool {
    let rows: Vec<u32> = ids.iter().copied().filter(|i| !is_trivia(*i)).collect();
    let mut peg = Peg { rows: &rows, entrypoint, known: HashMap::new() };
    let mut at = 0;
    while at < rows.len() {
        match peg.run(&ITEM, at) {
            Some(next) => at = next,
            None => return false,
        }
    }
    true
}

struct Peg<'a> {
    rows: &'a [u32],
    entrypoint: bool,
    /// What each node gave at each row, or calls within calls would take for ever.
    known: HashMap<(*const Part, usize), Option<usize>>,
}

impl Peg<'_> {
    /// The row after the part, if it matches at this row.
    fn run(&mut self, part: &'static Part, at: usize) -> Option<usize> {
        match part {
            Part::Expect(set, _) => self.is_next(set, at).then_some(at + 1),
            Part::IfNext(set, part) if self.is_next(set, at) => self.run(part, at),
            Part::IfNext(..) | Part::Recover(_) => Some(at),
            Part::Opt(part) => Some(self.run(part, at).unwrap_or(at)),
            Part::Not(part) => self.run(part, at).is_none().then_some(at),
            Part::Many(least, part) => self.many(*least, part, at),
            Part::Then(part) | Part::Call(part) | Part::Cached(_, part) => self.run(part, at),
            Part::Seq(parts) => parts.iter().try_fold(at, |at, p| self.run(p, at)),
            Part::Alt(parts) => parts.iter().find_map(|p| self.run(p, at)),
            Part::Node(_, parts) => {
                let key = (part as *const Part, at);
                if let Some(known) = self.known.get(&key) {
                    return *known;
                }
                let end = parts.iter().try_fold(at, |at, p| self.run(p, at));
                self.known.insert(key, end);
                end
            }
        }
    }

    fn many(&mut self, least: usize, part: &'static Part, at: usize) -> Option<usize> {
        let mut at = (0..least).try_fold(at, |at, _| self.run(part, at))?;
        while let Some(next) = self.run(part, at) {
            at = next;
        }
        Some(at)
    }

    fn is_next(&self, set: Set, at: usize) -> bool {
        let allowed = |k: u32| self.entrypoint || k != kind::ENTRYPOINT_KW;
        self.rows.get(at).is_some_and(|id| set.iter().any(|k| ID_OF_KIND[*k as usize] == *id && allowed(*k)))
    }
}
