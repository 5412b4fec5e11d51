//! Makes a failing case small, and shows it.

use common::kinds::IDS;
use common::Question;

/// Takes out rows, in ever smaller runs, then lowers the fuel and cuts long texts, as long as it still fails.
pub fn minimise(question: &Question, fails: impl Fn(&Question) -> bool) -> Question {
    let mut best = question.clone();
    while tiles(&best) {
        let before = best.clone();
        fewer_rows(&mut best, &fails);
        less_fuel(&mut best, &fails);
        shorter_texts(&mut best, &fails);
        if best == before {
            break;
        }
    }
    best
}

/// Rows are cut out together with their texts, so the texts must be the source.
fn tiles(question: &Question) -> bool {
    question.rows().is_some_and(|rows| Question::new(&rows, 0).source == question.source)
}

fn fewer_rows(best: &mut Question, fails: &impl Fn(&Question) -> bool) {
    let mut run = best.ids.len();
    while run > 0 {
        let mut at = 0;
        while at < best.ids.len() {
            let mut rows = best.rows().unwrap();
            rows.drain(at..rows.len().min(at + run));
            let tried = with_rows(best, &rows);
            if fails(&tried) {
                *best = tried;
            } else {
                at += run;
            }
        }
        run /= 2;
    }
}

/// A long text is noise unless its length matters.
fn shorter_texts(best: &mut Question, fails: &impl Fn(&Question) -> bool) {
    for at in 0..best.ids.len() {
        let mut rows = best.rows().unwrap();
        if rows[at].1.len() < 10 {
            continue;
        }
        rows[at].1.truncate(1);
        let tried = with_rows(best, &rows);
        if fails(&tried) {
            *best = tried;
        }
    }
}

fn with_rows(question: &Question, rows: &[(u32, Vec<u8>)]) -> Question {
    let plain = Question::new(rows, question.fuel);
    let (event_room, error_room) = (question.event_room, question.error_room);
    let scratch = question.scratch.max(plain.scratch);
    Question { limits: question.limits, event_room, error_room, scratch, ..plain }
}

fn less_fuel(best: &mut Question, fails: &impl Fn(&Question) -> bool) {
    let mut step = best.fuel;
    while step > 0 {
        let tried = Question { fuel: best.fuel.saturating_sub(step), ..best.clone() };
        if tried.fuel < best.fuel && fails(&tried) {
            *best = tried;
        } else {
            step /= 2;
        }
    }
}

/// The case as the program's input, and its source for people.
pub fn show(question: &Question) -> String {
    let mut out = format!("source {:?}\n", String::from_utf8_lossy(&question.source));
    let rooms = (question.scratch, question.event_room, question.error_room);
    out += &format!("scratch {}, event room {}, error room {}\n", rooms.0, rooms.1, rooms.2);
    out += &format!("S\tsource\t{}\n", question.fuel);
    let places = question.starts.iter().zip(&question.ends);
    for (id, (start, end)) in question.ids.iter().zip(places) {
        let name = IDS.get(*id as usize).copied().unwrap_or("?");
        out += &format!("T\t{id}\t{start}\t{end}\t({name})\n");
    }
    out
}
