//! Where the port and the Rust part on purpose, each with its smallest input. A line here that no longer
//! shows a difference is an error: the page docs/DIFFERENCES.md would be wrong.

use crate::cases::question;
use crate::judge::stripped;
use crate::minimise::minimise;
use common::kinds::kind;
use common::listing::listing;
use common::{counted, reading_of, Question, Side, BEGIN, END, EVENT};
use model::Model;

type Told = Result<(), String>;

pub fn tell() -> Told {
    let empty = |q: &Question, outcome: u32| {
        let ours = reading_of(&Model, q).unwrap();
        ours.outcome == outcome && stripped(&ours).raw.len() != ours.raw.len()
    };
    let whole = minimise(&question("rule~ ~a~{~condition~:~}", 1_000), |q| empty(q, 0));
    readings("An empty ERROR node is kept; the Rust drops it.", &whole)?;
    let started = minimise(&question("rule~ ~a~{~condition~:~}", 4), |q| empty(q, 1));
    readings("The same, stopped.", &started)?;
    let signs = format!("rule~a~{{~condition~:~{}1~}}", "-~".repeat(1_017));
    let deep = reading_of(&Model, &question(&signs, 100_000)).unwrap();
    let rust = oracle::read(&question(&signs, 100_000));
    println!("The port ends too deep at 1,024 open nodes; the Rust has no limit.");
    println!("  1,017 minus signs: ours outcome {}, the Rust's {}\n", deep.outcome, rust.outcome);
    differs(deep.outcome != rust.outcome)?;
    merger()
}

/// Shows both readings. They must be the same once empty ERROR nodes are taken out.
fn readings(title: &str, question: &Question) -> Told {
    let ours = reading_of(&Model, question).unwrap();
    let rust = oracle::read(question);
    let source = question.source.escape_ascii();
    println!("{title}\n  source `{source}`, fuel {}", question.fuel);
    println!("ours:\n{}the Rust's:\n{}", listing(&ours, &ours.raw), listing(&rust, &rust.raw));
    differs(ours != rust)?;
    if stripped(&ours) != rust {
        return Err("more than empty ERROR nodes".to_string());
    }
    Ok(())
}

fn differs(differs: bool) -> Told {
    if differs {
        Ok(())
    } else {
        Err("no difference any more".to_string())
    }
}

/// Lists that no reader writes: ours carries the least start and the greatest end, the Rust's the first
/// start and the last end. One pass: what joining brings side by side is not joined again.
fn merger() -> Told {
    let list = counted([
        [BEGIN, kind::ERROR, 1, 1],
        [END, kind::ERROR, 1, 1],
        [BEGIN, kind::ERROR, 0, 0],
        [END, kind::ERROR, 0, 0],
    ]);
    let ours = Model.merge(&list.concat(), EVENT * list.len());
    let rust = oracle::merge(&list);
    println!("Merger on a list that no reader writes: ERROR 1..1, then ERROR 0..0.");
    println!("  ours {:?}, the Rust's {:?}", &ours.room[..EVENT], rust[0]);
    differs(ours.room[..EVENT] != rust[0])
}
