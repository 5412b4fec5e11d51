//! Puts the sides beside each other: see README.md.

mod cases;
mod cut;
mod differences;
mod judge;
mod messages;
mod minimise;
mod modes;
mod tally;
mod vectors;

use common::{events_of, Question, Side, EVENT};
use generate::rng::Rng;
use generate::{case, Sort, SORTS};
use model::Model;
use std::collections::HashSet;
use std::hash::{DefaultHasher, Hash, Hasher};
use std::path::Path;
use std::{env, panic, process, thread};
use tally::{all_same_utf8, report, Tally};

const USAGE: &str = "run cases FOLDER | run compare COUNT [SEED [SORT]] | run merge COUNT [SEED] | \
    run messages COUNT SEED | run cut COUNT SEED [SORT] | run modes [COUNT SEED] | run differences | run show SORT SEED NUMBER | \
    run vectors COUNT SEED [FOLDER | only SORT]";

fn main() {
    // The Rust goes down one call per node.
    let working = thread::Builder::new().stack_size(1 << 30).spawn(work).unwrap();
    if let Err(message) = working.join().unwrap() {
        eprintln!("{message}");
        process::exit(1);
    }
}

fn work() -> Result<(), String> {
    let args: Vec<String> = env::args().skip(1).collect();
    let words: Vec<&str> = args.iter().map(String::as_str).collect();
    let number = |text: &str| text.replace('_', "").parse::<u64>().map_err(|e| format!("{text}: {e}"));
    match words[..] {
        ["cases", folder] => stored_and_small(Path::new(folder)),
        ["compare", count] => compare(number(count)?, 1, None),
        ["compare", count, seed] => compare(number(count)?, number(seed)?, None),
        ["compare", count, seed, sort] => compare(number(count)?, number(seed)?, Some(named(sort)?)),
        ["merge", count] => merges(number(count)?, 1),
        ["merge", count, seed] => merges(number(count)?, number(seed)?),
        ["messages", count, seed] => messages::wild(number(count)?, number(seed)?),
        ["cut", count, seed] => cut::compare(number(count)?, number(seed)?, None),
        ["cut", count, seed, sort] => cut::compare(number(count)?, number(seed)?, Some(sort)),
        ["modes"] => modes::tell(),
        ["modes", count, seed] => modes::tell().and_then(|()| modes::count(number(count)?, number(seed)?)),
        ["differences"] => differences::tell(),
        ["show", sort, seed, at] => {
            print!("{}", minimise::show(&case(named(sort)?, number(seed)?, number(at)?)));
            Ok(())
        }
        ["vectors", count, seed] => vectors::print(number(count)? as usize, number(seed)?, None, None),
        ["vectors", count, seed, folder] => {
            vectors::print(number(count)? as usize, number(seed)?, Some(Path::new(folder)), None)
        }
        ["vectors", count, seed, "only", sort] => {
            vectors::print(number(count)? as usize, number(seed)?, None, Some(named(sort)?))
        }
        _ => Err(USAGE.to_string()),
    }
}

fn named(name: &str) -> Result<Sort, String> {
    let sorts = SORTS.map(|(sort, _)| sort);
    sorts.into_iter().find(|s| format!("{s:?}").to_lowercase() == name).ok_or(format!("no sort {name}"))
}

#[cfg(feature = "library")]
fn library() -> Option<&'static dyn Side> {
    Some(&library::Library)
}

#[cfg(not(feature = "library"))]
fn library() -> Option<&'static dyn Side> {
    None
}

fn stored_and_small(folder: &Path) -> Result<(), String> {
    for (name, side) in [("model", Some(&Model as &dyn Side)), ("library", library())] {
        let Some(side) = side else { continue };
        let count = cases::stored(folder, side).map_err(|e| format!("{name}: {e}"))?;
        cases::small(side).map_err(|e| format!("{name}: {e}"))?;
        println!("{name}: {count} stored cases, P1 to P9 and the sizes agree");
    }
    println!("model: the UTF-8 test agrees with the Rust's on {} sequences", cases::texts()?);
    Ok(())
}

fn compare(count: u64, seed: u64, only: Option<Sort>) -> Result<(), String> {
    // A panic of the Rust is a difference, told with its case.
    panic::set_hook(Box::new(|_| {}));
    let round = round(|sort| only.is_none_or(|s| s == sort));
    let mut tallies = vec![Tally::default(); SORTS.len()];
    let mut made = vec![0; SORTS.len()];
    let mut distinct = HashSet::new();
    for n in 0..count {
        let i = round[n as usize % round.len()];
        let question = case(SORTS[i].0, seed, made[i]);
        match judge::judge(&question, library()) {
            Ok(seen) => tallies[i].add(&seen),
            Err(message) => return Err(differing(SORTS[i].0, seed, made[i], &question, &message)),
        }
        made[i] += 1;
        distinct.insert(hash(&question));
    }
    print!("{}", report(&tallies, distinct.len()));
    all_same_utf8(&tallies)
}

/// The sorts that are wanted, by their place in `SORTS`, each as often as a round has it.
fn round(wanted: impl Fn(Sort) -> bool) -> Vec<usize> {
    (0..SORTS.len()).filter(|i| wanted(SORTS[*i].0)).flat_map(|i| vec![i; SORTS[i].1]).collect()
}

fn hash(question: &Question) -> u64 {
    let mut hasher = DefaultHasher::new();
    question.hash(&mut hasher);
    hasher.finish()
}

fn differing(sort: Sort, seed: u64, number: u64, question: &Question, message: &str) -> String {
    let small = minimise::minimise(question, |q| judge::judge(q, library()).is_err());
    let now = judge::judge(&small, library()).err().unwrap_or_default();
    format!("{sort:?} {seed} {number}: {message}\nsmallest: {now}\n{}", minimise::show(&small))
}

/// The merger alone: the Rust's on lists with a reader's spans, the library's on any numbers.
fn merges(count: u64, seed: u64) -> Result<(), String> {
    let mut refused = 0;
    for n in 0..count {
        let rng = &mut Rng::new(seed, n);
        let list = generate::merge::list(true, rng);
        let ours = Model.merge(&list.concat(), EVENT * list.len());
        let rust = oracle::merge(&list);
        if events_of(&ours.room[..EVENT * ours.count as usize]) != rust {
            return Err(format!("merge {seed} {n}: {list:?} becomes {ours:?}, in the Rust {rust:?}"));
        }
        let (numbers, room) = generate::merge::wild(rng);
        refused += u64::from(Model.merge(&numbers, room).refusal != 0);
        if let Some(library) = library() {
            judge::same_merges(&numbers, room, library)
                .map_err(|e| format!("merge {seed} {n}: {numbers:?}: {e}"))?;
        }
    }
    println!(
        "{count} lists merged as the Rust does; {count} wild ones, {refused} of them refused, no difference"
    );
    Ok(())
}
