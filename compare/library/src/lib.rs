//! Stableglow itself, through the raw layer of its Rust crate: every room is lent as the question names it.

use common::{Cut, Limits, Merged, Question, Reply, Side, Told, LENT, LENT_BYTE, LENT_WORD, TODAY};
pub use stableglow::raw::{cut as cut_into, merge as merge_into, Lent};

/// The settings text, the edition and the fuel of the call that give the question's limits and fuel: edition 1, or one that has its own fuel, so that
/// the call's must not be looked at.
fn edition(q: &Question) -> (String, u32, u32) {
    let Limits { depth, quote, entrypoint } = q.limits;
    if q.limits == TODAY {
        return (String::new(), 1, q.fuel);
    }
    (format!("2\t0\t1\t0\n3\t{}\t{depth}\t{quote}\t{}\n", q.fuel, u32::from(entrypoint)), 3, !q.fuel)
}

/// Reads a question's rows into lent buffers, whatever rooms the question names.
pub fn read_into(q: &Question, lent: Lent, answer: &mut [u32; 5]) -> u32 {
    let (settings, edition, fuel) = edition(q);
    stableglow::raw::read(&q.source, [&q.ids, &q.starts, &q.ends], settings.as_bytes(), edition, fuel, lent, answer)
}

/// Cuts a source into lists with room for so many rows each.
pub fn cut(source: &[u8], rooms: [usize; 3]) -> Cut {
    let mut lists = rooms.map(|room| vec![LENT; room]);
    let mut count = LENT;
    let refusal = cut_into(source, lists.each_mut().map(|list| &mut list[..]), &mut count);
    Cut { refusal, count, lists }
}

pub struct Library;

impl Side for Library {
    fn read(&self, q: &Question) -> Reply {
        let mut scratch = vec![LENT_WORD; q.scratch];
        let mut events = vec![LENT; q.event_room];
        let mut errors = vec![LENT; q.error_room];
        // The answer's cells are the face's own, so they are written whatever comes.
        let mut answer = [LENT; 5];
        let lent = Lent { scratch: &mut scratch, events: &mut events, errors: &mut errors };
        let refusal = read_into(q, lent, &mut answer);
        Reply { refusal, answer, scratch, events, errors }
    }

    fn merge(&self, events: &[u32], room: usize) -> Merged {
        let mut room = vec![LENT; room];
        let mut count = LENT;
        let refusal = merge_into(events, &mut room, &mut count);
        Merged { refusal, count, room }
    }

    fn message(&self, source: &[u8], numbers: &[u32], room: usize) -> Told {
        let mut room = vec![LENT_BYTE; room];
        let mut length = LENT;
        let refusal = stableglow::raw::message(source, numbers, &mut room, &mut length);
        Told { refusal, length, room }
    }
}
