//! How steps behave, by document 01. Rooms are only watched: they change nothing of a reading.

use crate::grammar::{Part, Set, IMPORT_STMT, INCLUDE_STMT, RULE_DECL};
use crate::utf8;
use common::kinds::{id, is_trivia, kind, ID_OF_KIND};
use common::{Question, Record, BEGIN, END, ERROR, EVENT, TOKEN};
use std::collections::{BTreeMap, BTreeSet, HashSet};

#[derive(Clone, Copy, PartialEq, Eq)]
enum State {
    Ok,
    Failure,
    OutOfFuel,
    TooDeep,
}

/// Where a node was begun: the index of its event, and the row that was next.
struct Begun(usize, usize);

pub struct Reader<'a> {
    question: &'a Question,
    state: State,
    pub at: usize,
    pub fuel: u32,
    open: usize,
    /// How many optional parts and how many `not` stand around.
    optional: usize,
    negated: usize,
    cache: HashSet<(usize, u32)>,
    expected: BTreeMap<usize, Vec<u32>>,
    unexpected: BTreeSet<usize>,
    pub events: Vec<[u32; EVENT - 1]>,
    pub records: Vec<Record>,
    /// Records from here on are pending: chosen, and not yet written as events.
    settled: usize,
    pub error_numbers: usize,
    /// How many items were begun.
    item: u32,
    /// 7 or 8, from the first moment that exceeded a room.
    pub full: u32,
}

impl<'a> Reader<'a> {
    pub fn new(question: &'a Question) -> Self {
        Reader {
            question,
            state: State::Ok,
            at: 0,
            fuel: question.fuel,
            open: 0,
            optional: 0,
            negated: 0,
            cache: HashSet::new(),
            expected: BTreeMap::new(),
            unexpected: BTreeSet::new(),
            events: Vec::new(),
            records: Vec::new(),
            settled: 0,
            error_numbers: 0,
            item: 0,
            full: 0,
        }
    }

    pub fn file(&mut self) {
        let length = self.question.source.len() as u32;
        self.write([BEGIN, kind::SOURCE_FILE, 0, length]);
        while !self.stopped() && self.at < self.question.ids.len() {
            self.item();
        }
        self.write([END, kind::SOURCE_FILE, 0, length]);
    }

    pub fn outcome(&self) -> u32 {
        match self.state {
            State::OutOfFuel => 1,
            State::TooDeep => 2,
            _ => 0,
        }
    }

    fn item(&mut self) {
        self.item += 1;
        self.trivia();
        match self.question.ids.get(self.at) {
            Some(&id::IMPORT_KW) => self.run(&IMPORT_STMT),
            Some(&id::INCLUDE_KW) => self.run(&INCLUDE_STMT),
            Some(_) if self.begins_rule(self.at) => self.run(&RULE_DECL),
            Some(_) => self.junk(),
            None => {}
        }
        self.expected.clear();
        self.unexpected.clear();
        self.cache.clear();
        while self.settled < self.records.len() {
            self.error_event();
        }
        self.set(State::Ok);
    }

    fn begins_rule(&self, row: usize) -> bool {
        matches!(self.question.ids.get(row), Some(&(id::RULE_KW | id::GLOBAL_KW | id::PRIVATE_KW)))
    }

    fn junk(&mut self) {
        let (start, end) = self.span_of_row(self.at);
        self.record(Record { start, end, form: 10, item: self.item, names: vec![], place: None });
        self.error_event();
        let begun = self.open_node(kind::ERROR);
        while self.next() < self.question.ids.len() && !self.begins_rule(self.next()) {
            self.trivia();
            self.bump();
        }
        self.close_node(begun, kind::ERROR);
    }

    fn error_event(&mut self) {
        let Record { start, end, .. } = self.records[self.settled];
        self.write([ERROR, self.settled as u32, start, end]);
        self.settled += 1;
    }

    fn run(&mut self, part: &Part) {
        match part {
            Part::Node(kind, parts) => {
                let begun = self.begin(*kind);
                parts.iter().for_each(|p| self.run(p));
                self.end(begun);
            }
            Part::Seq(parts) => parts.iter().for_each(|p| self.run(p)),
            Part::Call(part) => self.run(part),
            Part::Recover(set) => self.recover(set),
            Part::Alt(parts) => self.alt(parts),
            _ if self.state != State::Ok => {}
            Part::Expect(set, name) => self.expect(set, *name),
            Part::IfNext(set, part) => self.if_next(set, part),
            Part::Opt(part) => self.opt(part),
            Part::Not(part) => self.not(part),
            Part::Many(least, part) => self.many(*least, part),
            Part::Then(part) => {
                self.trivia();
                self.run(part);
            }
            Part::Cached(kind, part) => self.cached(*kind, part),
        }
    }

    fn begin(&mut self, kind: u32) -> Begun {
        self.trivia();
        if self.fuel == 0 {
            self.set(State::OutOfFuel);
        } else {
            self.fuel -= 1;
            if self.open == self.question.limits.depth {
                self.set(State::TooDeep);
            }
        }
        self.open += 1;
        self.open_node(kind)
    }

    fn end(&mut self, begun: Begun) {
        self.open -= 1;
        let mut kind = self.events[begun.0][1];
        if self.state != State::Ok {
            if self.optional == 0 {
                self.choose();
            }
            kind = kind::ERROR;
        }
        self.close_node(begun, kind);
    }

    fn open_node(&mut self, kind: u32) -> Begun {
        let place = self.span_of_row(self.at).0;
        self.write([BEGIN, kind, place, place]);
        Begun(self.events.len() - 1, self.at)
    }

    fn close_node(&mut self, Begun(event, row): Begun, kind: u32) {
        let start = self.events[event][2];
        let end = if self.at == row { start } else { self.question.ends[self.at - 1] };
        self.events[event] = [BEGIN, kind, start, end];
        self.write([END, kind, start, end]);
    }

    fn expect(&mut self, set: Set, name: Option<u32>) {
        let row = self.next();
        let Some(kind) = self.kind_in(set, row) else {
            if self.negated == 0 {
                self.enter(row, set, name);
            }
            return self.set(State::Failure);
        };
        if self.negated > 0 {
            self.unexpected.insert(row);
        }
        self.trivia();
        self.take(kind);
    }

    fn if_next(&mut self, set: Set, part: &Part) {
        let row = self.next();
        if self.kind_in(set, row).is_some() {
            self.trivia();
            self.run(part);
        } else if row < self.question.ids.len() {
            self.enter(row, set, None);
        }
    }

    fn opt(&mut self, part: &Part) {
        let bookmark = self.bookmark();
        self.optional(part);
        if self.state == State::Failure {
            self.go_back(bookmark);
        }
    }

    fn not(&mut self, part: &Part) {
        let bookmark = self.bookmark();
        self.trivia();
        self.negated += 1;
        self.run(part);
        self.negated -= 1;
        let turned = if self.state == State::Ok { State::Failure } else { State::Ok };
        self.go_back(bookmark);
        self.set(turned);
    }

    fn many(&mut self, least: usize, part: &Part) {
        for _ in 0..least {
            self.trivia();
            self.run(part);
            if self.state != State::Ok {
                return;
            }
        }
        loop {
            let bookmark = self.bookmark();
            self.optional(part);
            if self.state != State::Ok {
                return self.go_back(bookmark);
            }
        }
    }

    /// Not guarded as a whole, but each alternative is.
    fn alt(&mut self, parts: &[Part]) {
        let bookmark = self.bookmark();
        for part in parts {
            if self.state != State::Ok {
                return;
            }
            self.optional(part);
            if self.state != State::Failure {
                return;
            }
            self.go_back(bookmark);
        }
        self.set(State::Failure);
    }

    fn optional(&mut self, part: &Part) {
        self.trivia();
        self.optional += 1;
        self.run(part);
        self.optional -= 1;
    }

    fn cached(&mut self, kind: u32, part: &Part) {
        let key = (self.at, kind);
        if self.cache.contains(&key) {
            return self.set(State::Failure);
        }
        self.run(part);
        if self.state == State::Failure {
            self.cache.insert(key);
        }
    }

    fn recover(&mut self, set: Set) {
        if self.stopped() {
            return;
        }
        let failed = self.state == State::Failure;
        self.set(State::Ok);
        let row = self.next();
        if row == self.question.ids.len() {
            return;
        }
        let in_set = self.kind_in(set, row).is_some();
        if !in_set && self.settled == self.records.len() {
            self.enter(row, set, None);
        }
        if failed || !in_set {
            self.choose();
        }
        if !in_set {
            self.skip(set);
        }
    }

    fn skip(&mut self, set: Set) {
        let begun = self.begin(kind::ERROR);
        self.bump();
        while self.next() < self.question.ids.len() && self.kind_in(set, self.next()).is_none() {
            self.trivia();
            self.bump();
        }
        self.end(begun);
    }

    /// Both collections are emptied, whatever comes of it.
    fn choose(&mut self) {
        let expected = std::mem::take(&mut self.expected).pop_last();
        let unexpected = std::mem::take(&mut self.unexpected).pop_last();
        let (row, names) = match (expected, unexpected) {
            (Some((row, names)), other) if other.is_none_or(|o| o <= row) => (row, Some(names)),
            (_, Some(row)) => (row, None),
            _ => return,
        };
        let (start, end) = self.span_of_row(row);
        let pending = &self.records[self.settled..];
        if !pending.iter().any(|r| (r.start, r.end) == (start, end)) {
            let (form, names) = self.form(row, names);
            let bad = utf8::bad_byte(&self.question.source[start as usize..end as usize]);
            let place = bad.map(|bad| start + bad as u32);
            self.record(Record { start, end, form, item: self.item, names, place });
        }
    }

    fn form(&self, row: usize, names: Option<Vec<u32>>) -> (u32, Vec<u32>) {
        let (start, end) = self.span_of_row(row);
        let text = &self.question.source[start as usize..end as usize];
        let unknown = self.question.ids.get(row).is_none_or(|i| *i == id::UNKNOWN);
        if !utf8::is_text(text) {
            return (9, vec![]);
        }
        let Some(names) = names else { return (if text.is_empty() { 5 } else { 4 }, vec![]) };
        if unknown && text.starts_with(b"/*") {
            (6, vec![])
        } else if unknown && text.starts_with(b"\"") {
            (7, vec![])
        } else if unknown && text.starts_with(b"/") {
            (8, vec![])
        } else if text.is_empty() {
            (3, names)
        } else {
            (if text.len() > self.question.limits.quote { 2 } else { 1 }, names)
        }
    }

    fn enter(&mut self, row: usize, set: Set, name: Option<u32>) {
        let names = self.expected.entry(row).or_default();
        let of_set = set.iter().map(|k| ID_OF_KIND[*k as usize]);
        let new: Vec<u32> = name.map_or_else(|| of_set.collect(), |n| vec![n]);
        for name in new {
            if !names.contains(&name) {
                names.push(name);
            }
        }
    }

    /// The next row past trivia, or the number of rows.
    fn next(&self) -> usize {
        let rest = &self.question.ids[self.at..];
        self.at + rest.iter().position(|i| !is_trivia(*i)).unwrap_or(rest.len())
    }

    fn kind_in(&self, set: Set, row: usize) -> Option<u32> {
        let id = *self.question.ids.get(row)?;
        let allowed = |k: u32| self.question.limits.entrypoint || k != kind::ENTRYPOINT_KW;
        set.iter().copied().find(|k| ID_OF_KIND[*k as usize] == id && allowed(*k))
    }

    fn trivia(&mut self) {
        while self.state == State::Ok && self.question.ids.get(self.at).is_some_and(|i| is_trivia(*i)) {
            self.bump();
        }
    }

    /// A skipped row is written with the kind that bears its id's number.
    fn bump(&mut self) {
        self.take(self.question.ids[self.at]);
    }

    fn take(&mut self, kind: u32) {
        let (start, end) = self.span_of_row(self.at);
        self.write([TOKEN, kind, start, end]);
        self.at += 1;
    }

    fn span_of_row(&self, row: usize) -> (u32, u32) {
        let end = self.question.source.len() as u32;
        let start = self.question.starts.get(row).copied();
        start.map_or((end, end), |s| (s, self.question.ends[row]))
    }

    fn bookmark(&self) -> (usize, usize) {
        (self.at, self.events.len())
    }

    fn go_back(&mut self, (at, events): (usize, usize)) {
        self.at = at;
        self.events.truncate(events);
        self.set(State::Ok);
    }

    fn stopped(&self) -> bool {
        matches!(self.state, State::OutOfFuel | State::TooDeep)
    }

    /// A stop is never left, and the first one stands.
    fn set(&mut self, state: State) {
        if !self.stopped() {
            self.state = state;
        }
    }

    fn write(&mut self, event: [u32; EVENT - 1]) {
        self.events.push(event);
        if self.full == 0 && EVENT * self.events.len() > self.question.event_room {
            self.full = 7;
        }
    }

    fn record(&mut self, record: Record) {
        self.error_numbers += record.numbers().len();
        self.records.push(record);
        if self.full == 0 && self.error_numbers > self.question.error_room {
            self.full = 8;
        }
    }
}
