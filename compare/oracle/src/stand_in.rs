//! What the Rust's four files take from the rest of their crate, as far as they use it.

use std::cell::RefCell;
use std::collections::VecDeque;
use std::marker::PhantomData;
use std::ops::Range;
use std::rc::Rc;
use std::str::Utf8Error;

use crate::parser::Parser;
use tokens::{Cutter, Mode, Row};

#[derive(Clone, Debug, Default, PartialEq, Eq, Hash)]
pub struct Span(pub Range<u32>);

impl From<Range<usize>> for Span {
    fn from(range: Range<usize>) -> Self {
        Span(u32::try_from(range.start).unwrap()..u32::try_from(range.end).unwrap())
    }
}

impl Span {
    pub fn range(&self) -> Range<usize> {
        self.start()..self.end()
    }
    pub fn start(&self) -> usize {
        self.0.start as usize
    }
    pub fn end(&self) -> usize {
        self.0.end as usize
    }
    /// The merger asks for the later end, not for the greater one; on lists of a reader they are the same.
    pub fn combine(&self, other: &Span) -> Span {
        Span(self.0.start..other.0.end)
    }
}

/// Ids, tokens, kinds and descriptions out of docs/KINDS.md.
macro_rules! stand_in {
    (ids { $($id:ident $i:literal $description:literal,)* }
     kinds { $($kind:ident $k:literal $of:ident,)* }
     nodes { $($node:ident $n:literal,)* }) => {
        #[allow(non_camel_case_types)]
        #[derive(Clone, Copy, Debug, PartialEq, Eq, Hash)]
        pub enum TokenId { $($id = $i,)* }

        impl TokenId {
            pub fn description(&self) -> &'static str {
                match self { $(Self::$id => $description,)* }
            }
        }

        #[allow(non_camel_case_types)]
        #[derive(Clone, Debug)]
        pub enum Token { $($id(Span),)* }

        impl Token {
            pub fn new(id: u32, span: Span) -> Self {
                match id { $($i => Self::$id(span),)* _ => panic!("no id {id}") }
            }
            pub fn id(&self) -> TokenId {
                match self { $(Self::$id(_) => TokenId::$id,)* }
            }
            pub fn span(&self) -> Span {
                match self { $(Self::$id(span) => span.clone(),)* }
            }
        }

        #[allow(non_camel_case_types)]
        #[derive(Clone, Copy, Debug, PartialEq, Eq, Hash)]
        pub enum SyntaxKind { $($kind = $k,)* $($node = $n,)* }

        impl SyntaxKind {
            pub const ALL: &[Self] = &[$(Self::$kind,)* $(Self::$node,)*];

            pub fn token_id(&self) -> TokenId {
                match self {
                    $(Self::$kind => TokenId::$of,)*
                    node => panic!("{node:?} is no token"),
                }
            }
        }
    };
}

common::page!(stand_in);

impl Token {
    pub fn is_trivia(&self) -> bool {
        matches!(self, Self::WHITESPACE(_) | Self::NEWLINE(_) | Self::COMMENT(_))
    }
}

/// The kind of a skipped row bears the number of its id.
impl From<&Token> for SyntaxKind {
    fn from(token: &Token) -> Self {
        Self::ALL[token.id() as usize]
    }
}

/// The rows that a tokenizer has cut, each with its mode. The parser keeps the tokenizer to itself.
pub type Log = Rc<RefCell<Vec<(Row, Mode)>>>;

/// Hands out given rows, which the modes do not change, or cuts the source as the modes are set.
pub struct Tokenizer<'src> {
    source: &'src [u8],
    feed: Feed<'src>,
}

enum Feed<'src> {
    Given(VecDeque<Token>),
    Cut(Cutter<'src>, Log),
}

impl<'src> Tokenizer<'src> {
    pub fn with_rows(source: &'src [u8], rows: &[Token]) -> Self {
        Self { source, feed: Feed::Given(rows.iter().cloned().collect()) }
    }
    pub fn logged(source: &'src [u8], log: Log) -> Self {
        Self { source, feed: Feed::Cut(Cutter::new(source), log) }
    }
    pub fn new(source: &'src [u8]) -> Self {
        Self::logged(source, Log::default())
    }
    pub fn source(&self) -> &'src [u8] {
        self.source
    }
    pub fn next_token(&mut self) -> Option<Token> {
        match &mut self.feed {
            Feed::Given(rows) => rows.pop_front(),
            Feed::Cut(cutter, log) => {
                let row = cutter.next_row()?;
                log.borrow_mut().push((row, cutter.mode()));
                Some(Token::new(row.0, Span(row.1..row.2)))
            }
        }
    }
    pub fn enter_hex_pattern_mode(&mut self) {
        self.enter(Mode::Hex);
    }
    pub fn enter_hex_jump_mode(&mut self) {
        self.enter(Mode::Jump);
    }
    fn enter(&mut self, mode: Mode) {
        if let Feed::Cut(cutter, _) = &mut self.feed {
            cutter.enter(mode);
        }
    }
}

#[derive(Clone, Debug, PartialEq)]
pub enum Event {
    Begin { kind: SyntaxKind, span: Span },
    End { kind: SyntaxKind, span: Span },
    Token { kind: SyntaxKind, span: Span },
    Error { message: String, span: Span },
}

/// The trees are named by the parser's public face and never made here.
pub struct AST<'src>(PhantomData<&'src ()>);

impl<'src> From<Parser<'src>> for AST<'src> {
    fn from(_: Parser<'src>) -> Self {
        AST(PhantomData)
    }
}

pub struct CST;

impl TryFrom<Parser<'_>> for CST {
    type Error = Utf8Error;
    fn try_from(parser: Parser<'_>) -> Result<Self, Utf8Error> {
        std::str::from_utf8(parser.source()).map(|_| CST)
    }
}

pub struct CSTStream<'src, I: Iterator<Item = Event>>(PhantomData<(&'src (), I)>);

impl<'src, I: Iterator<Item = Event>> CSTStream<'src, I> {
    pub fn new(_: &'src [u8], _: I) -> Self {
        CSTStream(PhantomData)
    }
}
