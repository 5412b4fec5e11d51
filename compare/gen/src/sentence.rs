//! Random derivations of the grammar, and files that look like people's.

use crate::rng::Rng;
use crate::spoil;
use crate::text;
use common::kinds::ID_OF_KIND;
use model::grammar::{Part, BOOLEAN_EXPR, ITEM, RULE_DECL};

/// One to three rules, and now and then imports and includes around them, as ids without trivia.
pub fn rules(rng: &mut Rng) -> Vec<u32> {
    let mut ids = Vec::new();
    let depth = 1 + rng.below(9);
    let others = rng.pick(&[0, 0, 20]);
    for _ in 0..1 + rng.below(3) {
        while rng.percent(others) {
            derive(&ITEM, depth, rng, &mut ids);
        }
        derive(&RULE_DECL, depth, rng, &mut ids);
    }
    ids
}

/// Imports, includes and rules, whole and cut short, and rows that begin none of them.
const ITEMS: [&str; 26] = [
    "import \"pe\"",
    "include \"other\"",
    "import \"pe\" import \"elf\"",
    "import",
    "include",
    "import import \"pe\"",
    "include import",
    "import pe",
    "include 1 \"other\"",
    "\"pe\"",
    "@",
    "@ import \"pe\"",
    "} include \"other\"",
    "rule a { condition : true }",
    "private rule b { condition : any of them }",
    "rule c { strings : $a = \"x\" condition : $a }",
    "rule d { condition : import \"pe\" }",
    "rule e { condition : true include \"other\" }",
    "rule f { meta : include = \"x\" condition : true }",
    "rule g { strings : $a = import \"pe\" condition : $a }",
    "rule h { strings : import condition : true }",
    "rule import { condition : true }",
    "rule i { condition : true",
    "rule j {",
    "rule",
    "global import",
];

/// Import and include rows everywhere: at item position, in front of and within rows that begin no item, inside
/// rules and behind damaged ones.
pub fn items(rng: &mut Rng) -> Vec<u32> {
    let words: Vec<&str> = (0..1 + rng.below(6)).map(|_| rng.pick(&ITEMS)).collect();
    words.iter().flat_map(|w| w.split(' ')).map(text::id_of).collect()
}

/// With no depth left only flat alternatives are taken; every cycle of the grammar has one on its way.
fn derive(part: &Part, depth: usize, rng: &mut Rng, ids: &mut Vec<u32>) {
    let likely = if depth == 0 { 5 } else { 45 };
    match part {
        Part::Expect(set, _) => ids.push(ID_OF_KIND[rng.pick(set) as usize]),
        Part::IfNext(_, part) | Part::Opt(part) => {
            if rng.percent(likely) {
                derive(part, depth, rng, ids);
            }
        }
        Part::Many(least, part) => {
            (0..*least).for_each(|_| derive(part, depth, rng, ids));
            while rng.percent(likely / 2) {
                derive(part, depth, rng, ids);
            }
        }
        Part::Then(part) | Part::Call(part) | Part::Cached(_, part) => derive(part, depth, rng, ids),
        Part::Node(_, parts) => parts.iter().for_each(|p| derive(p, depth.saturating_sub(1), rng, ids)),
        Part::Seq(parts) => parts.iter().for_each(|p| derive(p, depth, rng, ids)),
        Part::Alt(parts) => {
            let all: Vec<&Part> = parts.iter().collect();
            let flat: Vec<&Part> = parts.iter().filter(|p| is_flat(p)).collect();
            let chosen = if depth > 0 || flat.is_empty() { all } else { flat };
            derive(rng.pick(&chosen), depth, rng, ids);
        }
        Part::Not(_) | Part::Recover(_) => {}
    }
}

fn is_flat(part: &Part) -> bool {
    match part {
        Part::Expect(..) => true,
        Part::Opt(part) => is_flat(part),
        Part::Seq(parts) => parts.iter().all(is_flat),
        _ => false,
    }
}

const METAS: [&str; 5] = ["author = \"me\"", "score = 75", "offset = - 3", "ratio = 0.5", "checked = true"];

const PATTERNS: [&str; 10] = [
    "$a = \"evil\"",
    "$a = \"evil\" ascii wide nocase",
    "$b = \"x\" xor ( 1 - 255 ) private",
    "$c = \"y\" base64 ( \"alphabet\" ) fullword",
    "$d = /ab+c/",
    "$h = { h4D h5A }",
    "$i = { h4D [ 2 - 4 ] h?? ( h01 | h02 ( h03 | h04 ) ) hFF }",
    "$j = { h4D [ - ] h00 [ 4 ] [ 1 - ] h01 }",
    "$k = \"z\" xor",
    "$l = { ( h01 | h02 ) [ - 7 ] h03 }",
];

const CONDITIONS: [&str; 24] = [
    "true",
    "$a and not $b",
    "any of them",
    "all of ( $a , $b * ) at 0",
    "2 of ( $a * ) in ( 0 . . 1024 )",
    "50 % of them",
    "filesize < 1MB and pe . is_dll ( )",
    "#a > 3 or @a [ 1 ] == 0x100 or !a [ 2 ] >= 7",
    "#a in ( 0 . . filesize - 1 ) == 2",
    "for any i in ( 0 . . 3 ) : ( @a [ i ] < 100 )",
    "for all k , v in pe . version_info : ( k contains \"x\" and v matches /y/ )",
    "for 2 s in ( \"a\" , \"b\" ) : ( s startswith \"a\" )",
    "for none of ( $a , $b ) : ( $ at pe . entry_point )",
    "for any of them : ( # > 2 )",
    "with x = 1 + 2 , y = f ( x ) : ( x == y or defined y )",
    "f ( 1 , 2 * 3 , g ( ) ) . h [ 4 ] . j",
    "- 1 + ~ 2 << 3 & 4 | 5 ^ 6 \\ 7 % 8",
    "( ( 1 + 2 ) * 3 == 9 )",
    "( true or false ) and not ( $a at 5 )",
    "any of ( a > 1 , b . c , true )",
    "1 + 1 of ( true , false )",
    "none of ( $a ) and entrypoint >= 0",
    "a . b ( ) . c icontains \"Q\"",
    "defined a . b and not defined $a",
];

/// A file of plausible rules, most of them whole.
pub fn file(rng: &mut Rng) -> Vec<u32> {
    let mut words = Vec::new();
    while rng.percent(30) {
        words.push(rng.pick(&["import \"pe\"", "include \"other\""]));
    }
    for _ in 0..1 + rng.below(5) {
        words.push(rng.pick(&[
            "rule a",
            "rule b : t1 t2",
            "private rule c",
            "global private rule d",
            "private global rule e",
        ]));
        words.push("{");
        section(&mut words, "meta :", &METAS, rng);
        section(&mut words, "strings :", &PATTERNS, rng);
        words.push("condition :");
        words.push(rng.pick(&CONDITIONS));
        while rng.percent(30) {
            words.push(rng.pick(&["and", "or"]));
            words.push(rng.pick(&CONDITIONS));
        }
        words.push("}");
    }
    words.iter().flat_map(|w| w.split(' ')).map(text::id_of).collect()
}

fn section(words: &mut Vec<&str>, head: &'static str, lines: &[&'static str], rng: &mut Rng) {
    if rng.percent(60) {
        words.push(head);
        words.push(rng.pick(lines));
        while rng.percent(60) {
            words.push(rng.pick(lines));
        }
    }
}

/// One level of a nest: what opens it, what closes it.
const NESTS: [(&str, &str); 13] = [
    ("-", ""),
    ("not", ""),
    ("(", ")"),
    ("( true and", ")"),
    ("f (", ")"),
    ("a [", "]"),
    ("~ ( 1 +", ")"),
    ("any of (", ")"),
    ("for any of them : (", ")"),
    ("for any i in ( 1 ) : (", ")"),
    ("with a = 1 : (", ")"),
    ("with a =", ": ( a )"),
    ("@a [", "]"),
];

/// A nest around the depth limit, or small where each level multiplies the fuel.
pub fn nest(rng: &mut Rng) -> Vec<u32> {
    let (open, close) = rng.pick(&NESTS);
    let nodes = 1 + rng.below(6);
    let near = (1_024 / nodes + 6).saturating_sub(rng.below(20));
    let levels = if rng.percent(50) { near } else { 1 + rng.below(12) };
    let middle = rng.pick(&["1", "true", "a", ")", "$a"]);
    let mut ids: Vec<u32> = "rule a { condition :".split(' ').map(text::id_of).collect();
    let mut put = |words: &str| ids.extend(words.split_whitespace().map(text::id_of));
    (0..levels).for_each(|_| put(open));
    put(middle);
    let missing = if rng.percent(20) { 1 } else { 0 };
    (missing..levels).for_each(|_| put(close));
    put("}");
    ids
}

/// A damaged condition within parts that are read several times, some of which recover: there the cache is
/// seen, and what was entered before a choice is gone after it.
pub fn again(rng: &mut Rng) -> Vec<u32> {
    let around: Vec<(&str, &str)> = (0..1 + rng.below(4)).map(|_| rng.pick(&NESTS)).collect();
    let mut words = vec!["rule a { condition :"];
    words.extend(around.iter().map(|(open, _)| *open));
    let mut ids: Vec<u32> = words.iter().flat_map(|w| w.split(' ')).map(text::id_of).collect();
    let mut inner = Vec::new();
    derive(&BOOLEAN_EXPR, 2 + rng.below(4), rng, &mut inner);
    let faults = 1 + rng.below(2);
    ids.extend(spoil::mutate(inner, faults, rng));
    let closing = around.iter().rev().flat_map(|(_, close)| close.split_whitespace());
    ids.extend(closing.chain(["}"]).map(text::id_of));
    ids
}

/// Hex alternatives within each other.
pub fn hex_nest(rng: &mut Rng) -> Vec<u32> {
    let levels = if rng.percent(50) { 500 + rng.below(20) } else { 1 + rng.below(12) };
    let mut words = vec!["rule a { strings : $a = {"];
    words.extend((0..levels).map(|_| "("));
    words.push("h00");
    words.extend((0..levels).map(|_| ")"));
    words.push("} condition : $a }");
    words.iter().flat_map(|w| w.split(' ')).map(text::id_of).collect()
}
