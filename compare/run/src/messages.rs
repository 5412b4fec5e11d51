//! The Rust's own message texts beside ours, and records that no reader wrote.

use common::kinds::DESCRIPTIONS;
use common::{Record, Side, Told};
use generate::rng::Rng;
use model::Model;

/// Each record's message is the Rust's text, in a room that it fills, and there is no room with a byte less.
pub fn same_texts(
    source: &[u8],
    records: &[Record],
    texts: &[String],
    library: Option<&dyn Side>,
) -> Result<(), String> {
    for (record, text) in records.iter().zip(texts) {
        let numbers = record.numbers();
        for (name, side) in [("model", Some(&Model as &dyn Side)), ("library", library)] {
            let Some(side) = side else { continue };
            let told = side.message(source, &numbers, text.len());
            if told != (Told { refusal: 0, length: text.len() as u32, room: text.clone().into_bytes() }) {
                return Err(format!("message of {numbers:?}: the Rust {text:?}, {name} {}", show(&told)));
            }
            let short = side.message(source, &numbers, text.len() - 1);
            if (short.refusal, short.length) != (12, 0) {
                return Err(format!("message of {numbers:?} with a byte less: {name} {}", show(&short)));
            }
        }
    }
    Ok(())
}

fn show(told: &Told) -> String {
    format!("refusal {}, length {}, {}", told.refusal, told.length, told.room.escape_ascii())
}

/// Records of all forms, most of them spoiled in one number: the library does in every cell as the model does.
pub fn wild(count: u64, seed: u64) -> Result<(), String> {
    let mut seen = [0; 13];
    for n in 0..count {
        let rng = &mut Rng::new(seed, n);
        let (source, numbers) = spoiled(rng);
        let whole = Model.message(&source, &numbers, 4096).length as usize;
        for room in [whole, whole.saturating_sub(1), whole + rng.below(9)] {
            let ours = Model.message(&source, &numbers, room);
            seen[ours.refusal as usize] += 1;
            let Some(library) = crate::library() else { continue };
            let theirs = library.message(&source, &numbers, room);
            if ours != theirs {
                let source = source.escape_ascii();
                let (ours, theirs) = (show(&ours), show(&theirs));
                return Err(format!(
                    "messages {seed} {n}: {source} {numbers:?} room {room}\nmodel {ours}\nlibrary {theirs}"
                ));
            }
        }
    }
    println!(
        "{count} records in three rooms each: {} told, {} refused 11, {} refused 12, no difference",
        seen[0], seen[11], seen[12]
    );
    Ok(())
}

const TEXTS: [&[u8]; 6] =
    [b"rule", b"\xC3\xA9", b"\xED\xA0\x80", b"\xF0\x9F\x99\x82", b"`, found `", b"\xC2"];

fn spoiled(rng: &mut Rng) -> (Vec<u8>, Vec<u32>) {
    let source: Vec<u8> = (0..rng.below(6)).flat_map(|_| rng.pick(&TEXTS).to_vec()).collect();
    let mut place = || rng.below(source.len() + 1) as u32;
    let (a, b) = (place(), place());
    let form = 1 + rng.below(10) as u32;
    let mut names: Vec<u32> = Vec::new();
    if form < 4 {
        let most = rng.pick(&[1, 2, 3, 85]);
        for _ in 0..=rng.below(most) {
            let name = rng.below(DESCRIPTIONS.len()) as u32;
            if !names.contains(&name) {
                names.push(name);
            }
        }
    }
    let end = if form == 3 { a.min(b) } else { a.max(b) };
    let place = (form == 9).then(|| rng.below(source.len() + 1) as u32);
    let item = rng.below(900) as u32;
    let mut numbers = Record { start: a.min(b), end, form, item, names, place }.numbers();
    let at = rng.below(numbers.len());
    match rng.below(8) {
        0 => numbers[at] = rng.pick(&[0, 1, 9, 10, 11, 84, 85, u32::MAX]),
        1 => numbers.truncate(at),
        2 => numbers[at] = rng.pick(&numbers.clone()),
        3 => numbers.push(rng.below(90) as u32),
        4 => numbers[at] = numbers[at].wrapping_add(rng.pick(&[1, u32::MAX])),
        _ => {}
    }
    (source, numbers)
}
