//! Ids, kinds and names: the numbers of docs/KINDS.md, each list a type with a constant for each number.

use std::fmt;

include!(concat!(env!("OUT_DIR"), "/numbers.rs"));

macro_rules! number {
    ($what:literal, $sort:ident, $list:ident) => {
        #[doc = $what]
        #[derive(Clone, Copy, Debug, PartialEq, Eq, PartialOrd, Ord, Hash)]
        pub struct $sort(pub u32);

        impl $sort {
            /// As docs/KINDS.md spells it; a number that the page does not have has no spelling.
            pub fn spelling(self) -> Option<&'static str> {
                $list.get(self.0 as usize).copied()
            }
        }

        /// The spelling, or the number where there is none.
        impl fmt::Display for $sort {
            fn fmt(&self, f: &mut fmt::Formatter) -> fmt::Result {
                match self.spelling() {
                    Some(spelling) => f.pad(spelling),
                    None => self.0.fmt(f),
                }
            }
        }
    };
}

number!("What a row of a source is, as `RULE_KW`.", Id, IDS);
number!("What an event is of: a row's kind, or a node's, as `RULE_DECL`.", Kind, KINDS);
number!(
    "What an error record expected: an id, or `expression`, `operator` or `pattern modifier`.",
    Name,
    NAMES
);
