//! Cases: every one is made from a seed and its number alone, so that any can be made again.

pub mod merge;
pub mod rng;
pub mod sentence;
pub mod source;
pub mod spoil;
pub mod text;

use common::kinds::{id, IDS};
use common::{Limits, Question, Side};
use model::Model;
use rng::Rng;

#[derive(Clone, Copy, Debug, PartialEq, Eq)]
pub enum Sort {
    Sentence,
    Mutant,
    Short,
    Starved,
    Again,
    File,
    Edge,
    Noise,
    Items,
    Nest,
    Room,
    Refusal,
    Edition,
}

/// The sorts, and how many cases of each there are in a round of 44.
pub const SORTS: [(Sort, usize); 13] = [
    (Sort::Sentence, 4),
    (Sort::Mutant, 9),
    (Sort::Short, 6),
    (Sort::Starved, 3),
    (Sort::Again, 6),
    (Sort::File, 2),
    (Sort::Edge, 2),
    (Sort::Noise, 1),
    (Sort::Items, 3),
    (Sort::Room, 2),
    (Sort::Refusal, 1),
    (Sort::Nest, 1),
    (Sort::Edition, 4),
];

/// Enough for nearly all, and little enough that calls within calls end soon.
const PLENTY: u32 = 20_000;

pub fn case(sort: Sort, seed: u64, number: u64) -> Question {
    let mut rng = Rng::new(seed, number);
    let rng = &mut rng;
    match sort {
        Sort::Sentence => finish(sentence::rules(rng), 2, rng),
        Sort::File => finish(sentence::file(rng), 2, rng),
        Sort::Mutant => {
            let ids = if rng.percent(50) { sentence::rules(rng) } else { sentence::file(rng) };
            let faults = 1 + rng.below(4);
            let ids = spoil::mutate(ids, faults, rng);
            finish(ids, 5, rng)
        }
        Sort::Short => Question::new(&text::rows(&short(number), 0, rng), PLENTY),
        Sort::Again => finish(sentence::again(rng), 0, rng),
        Sort::Starved => {
            let mut question = Question::new(&text::rows(&short(rng.number() % 5_000_000), 0, rng), PLENTY);
            starve(&mut question, rng);
            question
        }
        Sort::Edge => edge(rng),
        Sort::Noise => {
            let ids: Vec<u32> = (0..rng.below(40)).map(|_| any_id(rng)).collect();
            finish(ids, 10, rng)
        }
        Sort::Items => {
            let faults = rng.pick(&[0, 0, 1, 2]);
            let ids = spoil::mutate(sentence::items(rng), faults, rng);
            finish(ids, 5, rng)
        }
        Sort::Nest => {
            let ids = if rng.percent(90) { sentence::nest(rng) } else { sentence::hex_nest(rng) };
            let mut question = Question::new(&text::rows(&ids, 0, rng), 5 * PLENTY);
            fuel(&mut question, rng);
            question
        }
        Sort::Room => spoil::rooms(plain(rng), rng),
        Sort::Refusal => spoil::refused(plain(rng), rng),
        Sort::Edition => Question { limits: limits(rng), ..plain(rng) },
    }
}

/// Limits of a later edition: a depth at both ends and between, quote lengths about 15 and at both ends.
fn limits(rng: &mut Rng) -> Limits {
    let depth = rng.pick(&[1, 2, 3, 5, 8, 13, 40, 1_023, 1_024]);
    let quote = rng.pick(&[0, 1, 4, 14, 15, 15, 15, 15, 15, 16, 255]);
    Limits { depth, quote, entrypoint: rng.percent(50) }
}

/// A case of one of the sorts that tile and have room.
fn plain(rng: &mut Rng) -> Question {
    let (sort, _) = rng.pick(&SORTS[..9]);
    case(sort, rng.number(), rng.number() >> 44)
}

pub fn any_id(rng: &mut Rng) -> u32 {
    rng.below(IDS.len()) as u32
}

fn finish(ids: Vec<u32>, odd_percent: usize, rng: &mut Rng) -> Question {
    let ids = with_trivia(ids, rng);
    let mut question = Question::new(&text::rows(&ids, odd_percent, rng), PLENTY);
    fuel(&mut question, rng);
    question
}

/// Trivia at none, some or nearly all places, at both ends too, sometimes several in a row.
fn with_trivia(ids: Vec<u32>, rng: &mut Rng) -> Vec<u32> {
    let chance = rng.pick(&[0, 10, 40, 80]);
    let mut all = Vec::new();
    for id in ids.into_iter().map(Some).chain([None]) {
        while rng.percent(chance) && rng.percent(90) {
            all.push(rng.pick(&[id::WHITESPACE, id::WHITESPACE, id::NEWLINE, id::COMMENT]));
        }
        all.extend(id);
    }
    all
}

/// Plenty for half the cases.
fn fuel(question: &mut Question, rng: &mut Rng) {
    if rng.percent(50) {
        starve(question, rng);
    }
}

/// Just what the file uses, a little less, or anything below; and now and then all that can be given, to a
/// file that is known to finish.
fn starve(question: &mut Question, rng: &mut Rng) {
    let [outcome, .., left] = Model.read(question).answer;
    let used = question.fuel - left;
    question.fuel = match rng.below(16) {
        0..=3 => used,
        4..=7 => used.saturating_sub(1 + rng.below(8) as u32),
        8 if outcome == 0 => u32::MAX - rng.below(2) as u32,
        _ => rng.below(used as usize + 1) as u32,
    };
}

/// What stands before and after the enumerated rows, and the words that they run over. Words joined by `_`
/// go together. The last ones read a `with` or a `for` several times.
const CONTEXTS: [(&str, &str, &str); 12] = [
    ("", "", "rule global private a { } : x"),
    ("", "rule a { condition : true }", "import include \"s\" rule a @ { condition_:_true_}"),
    (
        "rule a { condition : true }",
        "",
        "import include \"s\" global rule_a_{_condition_:_true_} } 1 condition",
    ),
    ("rule a {", "}", "meta strings condition : a = 1 true $a \"s\" -"),
    ("rule a { strings :", "condition : true }", "$a = \"s\" /r/ { } h00 ( ) | [ ] - 1 xor base64 ascii"),
    ("rule a { condition :", "}", "a 1 ( ) [ ] . - % of any $a in at , true and"),
    ("rule a { condition :", "}", "for with any i in of them : ( ) = , 1 $a not }"),
    ("rule a { condition : any of (", ") }", "$a a 1 , * ) ( at in true"),
    ("rule a { condition : with a", ": ( true ) }", "= 1 a , ( ) : [ with @"),
    ("rule a { condition : f ( with x = 1 : (", ") ) }", "any_of_( $a ) at in 1_+_1 % a_( , of"),
    (
        "rule a { condition : f ( for any of them : (",
        ") ) }",
        "any_of_( $a ) at 1 + % with_a_= of_them [ :_(",
    ),
    ("rule a { condition : with a = 1 : ( a (", ") ) }", "with_a_= a [ ) 1 :_( for any i_in , ("),
];

fn ids_of(words: &str) -> Vec<u32> {
    words.split([' ', '_']).filter(|w| !w.is_empty()).map(text::id_of).collect()
}

/// All sequences of up to some length over a few words, in a context. The number alone says which.
fn short(number: u64) -> Vec<u32> {
    let (before, after, words) = CONTEXTS[(number % CONTEXTS.len() as u64) as usize];
    let words: Vec<&str> = words.split(' ').collect();
    let mut rest = number / CONTEXTS.len() as u64;
    let mut ids = ids_of(before);
    // Sequences in order of length: digits without a zero.
    while rest > 0 {
        rest -= 1;
        ids.extend(ids_of(words[(rest % words.len() as u64) as usize]));
        rest /= words.len() as u64;
    }
    ids.extend(ids_of(after));
    ids
}

/// Rows whose text decides the form, where an error is sure to fall on them.
fn edge(rng: &mut Rng) -> Question {
    let around = [
        "",
        "rule",
        "rule a {",
        "rule a { condition :",
        "rule a { condition : 1 ==",
        "rule a { condition : any of ( true )",
    ];
    let before = rng.pick(&around);
    let after = rng.pick(&["", "}", "rule b { condition : true }", "true } x"]);
    let mut ids = ids_of(before);
    let middle = ids.len();
    for _ in 0..rng.below(4) {
        ids.push(rng.pick(&[
            id::UNKNOWN,
            id::UNKNOWN,
            id::INVALID_UTF8,
            id::IDENT,
            id::AT_KW,
            id::COMMENT,
            id::NEWLINE,
        ]));
    }
    let end = ids.len();
    ids.extend(ids_of(after));
    let mut rows = text::rows(&ids, 0, rng);
    for row in &mut rows[middle..end] {
        if rng.percent(75) {
            row.1 = text::odd(rng);
        }
    }
    let mut question = Question::new(&rows, PLENTY);
    fuel(&mut question, rng);
    question
}
