//! The productions, as data: each line is a step of document 01, in the order of the module's steps.

use common::kinds::{kind, name};
use Part::*;

/// Kinds, in the set's order.
pub type Set = &'static [u32];

pub enum Part {
    /// Takes a row of the set; without one it enters the set's names, or the one name given, and fails.
    Expect(Set, Option<u32>),
    /// The part if a row of the set is next; otherwise names are entered and nothing fails.
    IfNext(Set, &'static Part),
    Opt(&'static Part),
    Not(&'static Part),
    /// At least so many times.
    Many(usize, &'static Part),
    Then(&'static Part),
    /// A production that is entered whatever the state is.
    Call(&'static Part),
    Cached(u32, &'static Part),
    Seq(&'static [Part]),
    Alt(&'static [Part]),
    Node(u32, &'static [Part]),
    Recover(Set),
}

macro_rules! set {
    ($($kind:ident)*) => { &[$(kind::$kind),*] };
}
macro_rules! expect {
    ($($kind:ident)*) => { Expect(set!($($kind)*), None) };
    ($($kind:ident)*, $name:ident) => { Expect(set!($($kind)*), Some(name::$name)) };
}
macro_rules! node {
    ($kind:ident, $($part:expr),*) => { Node(kind::$kind, &[$($part),*]) };
}
macro_rules! seq {
    ($($part:expr),*) => { Seq(&[$($part),*]) };
}
macro_rules! alt {
    ($($part:expr),*) => { Alt(&[$($part),*]) };
}
macro_rules! opt {
    ($($kind:ident)*) => { Opt(&expect!($($kind)*)) };
}
/// If a row of the set is next: that row, then the part.
macro_rules! cond {
    ($kind:ident, $part:expr) => { IfNext(set!($kind), &seq!(expect!($kind), Then(&$part))) };
}

pub static RULE_DECL: Part = seq!(
    node!(RULE_DECL,
        Opt(&RULE_MODS),
        expect!(RULE_KW),
        expect!(IDENT),
        IfNext(set!(COLON), &RULE_TAGS),
        expect!(L_BRACE),
        IfNext(set!(META_KW), &META_BLK),
        IfNext(set!(STRINGS_KW), &PATTERNS_BLK),
        Then(&CONDITION_BLK),
        expect!(R_BRACE)),
    Recover(set!(GLOBAL_KW PRIVATE_KW RULE_KW IMPORT_KW INCLUDE_KW))
);

pub static IMPORT_STMT: Part = node!(IMPORT_STMT, expect!(IMPORT_KW), expect!(STRING_LIT));

pub static INCLUDE_STMT: Part = node!(INCLUDE_STMT, expect!(INCLUDE_KW), expect!(STRING_LIT));

/// An item of any sort, as acceptance has it.
pub static ITEM: Part = alt!(Call(&RULE_DECL), Call(&IMPORT_STMT), Call(&INCLUDE_STMT));

static RULE_MODS: Part = node!(RULE_MODS,
    alt!(
        seq!(expect!(PRIVATE_KW), opt!(GLOBAL_KW)),
        seq!(expect!(GLOBAL_KW), opt!(PRIVATE_KW))));

static RULE_TAGS: Part = seq!(
    node!(RULE_TAGS, expect!(COLON), Many(1, &expect!(IDENT))),
    Recover(set!(L_BRACE))
);

static META_BLK: Part = seq!(
    node!(META_BLK, expect!(META_KW), expect!(COLON), Many(1, &META_DEF)),
    Recover(set!(STRINGS_KW CONDITION_KW))
);

static META_DEF: Part = node!(META_DEF,
    expect!(IDENT),
    expect!(EQUAL),
    alt!(
        seq!(opt!(MINUS), expect!(INTEGER_LIT FLOAT_LIT)),
        expect!(STRING_LIT TRUE_KW FALSE_KW)));

static PATTERNS_BLK: Part = seq!(
    node!(PATTERNS_BLK, expect!(STRINGS_KW), expect!(COLON), Many(1, &PATTERN_DEF)),
    Recover(set!(CONDITION_KW))
);

static PATTERN_DEF: Part = node!(PATTERN_DEF,
    expect!(PATTERN_IDENT),
    expect!(EQUAL),
    alt!(expect!(STRING_LIT), expect!(REGEXP), Call(&HEX_PATTERN)),
    Opt(&PATTERN_MODS));

static PATTERN_MODS: Part = node!(PATTERN_MODS, Many(1, &PATTERN_MOD));

static PATTERN_MOD: Part = node!(PATTERN_MOD,
    alt!(
        expect!(ASCII_KW WIDE_KW NOCASE_KW PRIVATE_KW FULLWORD_KW, PATTERN_MODIFIER),
        seq!(
            expect!(BASE64_KW BASE64WIDE_KW, PATTERN_MODIFIER),
            cond!(L_PAREN, seq!(expect!(STRING_LIT), expect!(R_PAREN)))),
        seq!(
            expect!(XOR_KW, PATTERN_MODIFIER),
            cond!(L_PAREN, seq!(
                expect!(INTEGER_LIT),
                cond!(HYPHEN, expect!(INTEGER_LIT)),
                expect!(R_PAREN))))));

static HEX_PATTERN: Part =
    node!(HEX_PATTERN, expect!(L_BRACE), Then(&HEX_SUB_PATTERN), expect!(R_BRACE));

static HEX_SUB_PATTERN: Part = node!(HEX_SUB_PATTERN,
    alt!(expect!(HEX_BYTE), Call(&HEX_ALTERNATIVE)),
    Many(0, &seq!(
        Many(0, &HEX_JUMP),
        alt!(expect!(HEX_BYTE), Call(&HEX_ALTERNATIVE)))));

static HEX_ALTERNATIVE: Part = node!(HEX_ALTERNATIVE,
    expect!(L_PAREN),
    Then(&HEX_SUB_PATTERN),
    Many(0, &seq!(expect!(PIPE), Then(&HEX_SUB_PATTERN))),
    expect!(R_PAREN));

static HEX_JUMP: Part = node!(HEX_JUMP,
    expect!(L_BRACKET),
    alt!(
        seq!(opt!(INTEGER_LIT), expect!(HYPHEN), opt!(INTEGER_LIT)),
        expect!(INTEGER_LIT)),
    expect!(R_BRACKET));

static CONDITION_BLK: Part = seq!(
    node!(CONDITION_BLK,
        expect!(CONDITION_KW),
        expect!(COLON),
        Then(&seq!(Call(&BOOLEAN_EXPR), Recover(set!(R_BRACE))))),
    Recover(set!(R_BRACE))
);

pub static BOOLEAN_EXPR: Part = node!(BOOLEAN_EXPR,
    Then(&BOOLEAN_TERM),
    Many(0, &seq!(expect!(AND_KW OR_KW, OPERATOR), Then(&BOOLEAN_TERM))));

static BOOLEAN_TERM: Part = node!(BOOLEAN_TERM,
    alt!(
        seq!(expect!(PATTERN_IDENT, EXPRESSION), IfNext(set!(AT_KW IN_KW), &AT_OR_IN)),
        expect!(TRUE_KW FALSE_KW, EXPRESSION),
        seq!(expect!(NOT_KW DEFINED_KW, EXPRESSION), Then(&BOOLEAN_TERM)),
        Call(&FOR_EXPR),
        Call(&OF_EXPR),
        Call(&WITH_EXPR),
        seq!(Call(&EXPR), Many(0, &seq!(COMPARISON, Then(&EXPR)))),
        seq!(expect!(L_PAREN, EXPRESSION), Then(&BOOLEAN_EXPR), expect!(R_PAREN))));

const COMPARISON: Part = expect!(
    EQ NE LE LT GE GT CONTAINS_KW ICONTAINS_KW STARTSWITH_KW ISTARTSWITH_KW ENDSWITH_KW
    IENDSWITH_KW IEQUALS_KW MATCHES_KW, EXPRESSION);

static AT_OR_IN: Part = alt!(
    seq!(expect!(AT_KW), Then(&EXPR)),
    seq!(expect!(IN_KW), Then(&RANGE))
);

static EXPR: Part = Cached(kind::EXPR, &node!(EXPR,
    Then(&TERM),
    Many(0, &seq!(
        expect!(ADD SUB MUL DIV MOD SHL SHR BITWISE_AND BITWISE_OR BITWISE_XOR, OPERATOR),
        Then(&TERM)))));

static FUNC_CALL: Part = node!(FUNC_CALL,
    expect!(IDENT),
    expect!(L_PAREN),
    Opt(&seq!(
        Call(&BOOLEAN_EXPR),
        Many(0, &seq!(expect!(COMMA), Then(&BOOLEAN_EXPR))))),
    expect!(R_PAREN));

static RANGE: Part = node!(RANGE,
    expect!(L_PAREN),
    Then(&EXPR),
    expect!(DOT),
    expect!(DOT),
    Then(&EXPR),
    expect!(R_PAREN));

static TERM: Part = Cached(kind::TERM, &node!(TERM,
    alt!(
        expect!(FLOAT_LIT INTEGER_LIT STRING_LIT REGEXP FILESIZE_KW ENTRYPOINT_KW, EXPRESSION),
        seq!(expect!(PATTERN_COUNT, EXPRESSION), cond!(IN_KW, RANGE)),
        seq!(
            expect!(PATTERN_OFFSET PATTERN_LENGTH, EXPRESSION),
            cond!(L_BRACKET, seq!(Call(&EXPR), expect!(R_BRACKET)))),
        seq!(expect!(MINUS, EXPRESSION), Then(&TERM)),
        seq!(expect!(BITWISE_NOT, EXPRESSION), Then(&TERM)),
        seq!(expect!(L_PAREN, EXPRESSION), Then(&EXPR), expect!(R_PAREN)),
        seq!(
            Call(&PRIMARY_EXPR),
            Many(0, &seq!(expect!(DOT, EXPRESSION), Then(&PRIMARY_EXPR)))))));

static PRIMARY_EXPR: Part = node!(PRIMARY_EXPR,
    alt!(
        Call(&FUNC_CALL),
        seq!(expect!(IDENT), expect!(L_BRACKET), Then(&EXPR), expect!(R_BRACKET)),
        expect!(IDENT)));

static FOR_EXPR: Part = node!(FOR_EXPR,
    expect!(FOR_KW, EXPRESSION),
    Then(&QUANTIFIER),
    alt!(
        seq!(expect!(OF_KW), alt!(expect!(THEM_KW), Call(&PATTERN_IDENT_TUPLE))),
        seq!(
            expect!(IDENT),
            Many(0, &seq!(expect!(COMMA), expect!(IDENT))),
            expect!(IN_KW),
            Call(&ITERABLE))),
    expect!(COLON),
    expect!(L_PAREN),
    Then(&seq!(Call(&BOOLEAN_EXPR), Recover(set!(R_PAREN)))),
    expect!(R_PAREN));

static OF_EXPR: Part = node!(OF_EXPR,
    Then(&QUANTIFIER),
    expect!(OF_KW),
    alt!(
        seq!(
            alt!(expect!(THEM_KW), Call(&PATTERN_IDENT_TUPLE)),
            IfNext(set!(AT_KW IN_KW), &AT_OR_IN)),
        seq!(Call(&BOOLEAN_EXPR_TUPLE), Not(&expect!(AT_KW IN_KW)))));

static WITH_EXPR: Part = node!(WITH_EXPR,
    expect!(WITH_KW, EXPRESSION),
    Then(&WITH_DECLS),
    expect!(COLON),
    expect!(L_PAREN),
    Then(&seq!(Call(&BOOLEAN_EXPR), Recover(set!(R_PAREN)))),
    expect!(R_PAREN));

static WITH_DECLS: Part = seq!(
    node!(WITH_DECLS,
        Then(&WITH_DECL),
        Many(0, &seq!(expect!(COMMA), Call(&WITH_DECL)))),
    Recover(set!(COLON L_PAREN))
);

static WITH_DECL: Part = node!(WITH_DECL, expect!(IDENT), expect!(EQUAL), Then(&EXPR));

static QUANTIFIER: Part = node!(QUANTIFIER,
    alt!(
        expect!(ALL_KW NONE_KW ANY_KW, EXPRESSION),
        seq!(Call(&TERM), expect!(PERCENT)),
        seq!(Call(&EXPR), Not(&expect!(PERCENT)))));

static ITERABLE: Part = node!(ITERABLE, alt!(Call(&RANGE), Call(&EXPR_TUPLE), Call(&EXPR)));

static BOOLEAN_EXPR_TUPLE: Part = node!(BOOLEAN_EXPR_TUPLE,
    expect!(L_PAREN),
    Then(&BOOLEAN_EXPR),
    Many(0, &seq!(expect!(COMMA), Then(&BOOLEAN_EXPR))),
    expect!(R_PAREN));

static EXPR_TUPLE: Part = node!(EXPR_TUPLE,
    expect!(L_PAREN),
    Then(&EXPR),
    Many(0, &seq!(expect!(COMMA), Then(&EXPR))),
    expect!(R_PAREN));

static PATTERN_IDENT_TUPLE: Part = node!(PATTERN_IDENT_TUPLE,
    expect!(L_PAREN),
    expect!(PATTERN_IDENT),
    opt!(ASTERISK),
    Many(0, &seq!(expect!(COMMA), expect!(PATTERN_IDENT), opt!(ASTERISK))),
    expect!(R_PAREN));
