//! Stands where the parser declares its tests, since a module within may set its fuel and see its state.
//! That module is private, so the parser's public type hands the probe out.

use super::{Parser, ParserImpl, State};
use crate::Probed;
use crate::stand_in::Log;
use crate::tokenizer::{Token, Tokenizer};

impl<'src> Parser<'src> {
    /// A parser that is to read the given rows with the given fuel.
    pub fn with_rows(source: &'src [u8], rows: &[Token], fuel: usize) -> Self {
        let mut parser = ParserImpl::from(Tokenizer::with_rows(source, rows));
        parser.fuel = fuel;
        Self { parser }
    }

    /// Reads the given rows with the given fuel by the parser's own iterator.
    pub fn probe(source: &'src [u8], rows: &[Token], fuel: usize) -> Probed {
        Self::with_rows(source, rows, fuel).parser.probed()
    }

    /// Reads a source that the plain tokenizer cuts on the way, with the modes that the parser sets.
    pub fn steered(source: &'src [u8], log: Log, fuel: usize) -> Probed {
        let mut parser = ParserImpl::from(Tokenizer::logged(source, log));
        parser.fuel = fuel;
        parser.probed()
    }
}

impl ParserImpl<'_> {
    fn probed(mut self) -> Probed {
        let mut events = Vec::new();
        let mut seen = false;
        while let Some(event) = self.next() {
            events.push(event);
            seen |= matches!(self.state, State::OutOfFuel);
        }
        let rows = self.tokens.current_token_index();
        // The iterator leaves the state of a stopped item behind at once if the item wrote nothing, and
        // then it took no row either. Nothing but a stop leaves rows uncovered.
        Probed { events, out_of_fuel: seen || self.tokens.has_more(), rows, fuel: self.fuel }
    }
}
