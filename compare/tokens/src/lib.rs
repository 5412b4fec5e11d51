//! A plain tokenizer, written from the text of the crate's tokenizer and from document 02: it judges the
//! proved cutter, and the crate's parser may steer its modes in place of the text.

mod hex;
mod jump;
mod normal;
mod scan;

use common::kinds::{id, is_trivia};

/// Id, start, end.
pub type Row = (u32, u32, u32);

#[derive(Clone, Copy, Debug, PartialEq, Eq)]
pub enum Mode {
    Normal,
    Hex,
    Jump,
}

/// Cuts one row after the other. Whoever holds it may set the mode between two rows.
pub struct Cutter<'src> {
    source: &'src [u8],
    at: usize,
    mode: Mode,
}

impl<'src> Cutter<'src> {
    pub fn new(source: &'src [u8]) -> Self {
        Self { source, at: 0, mode: Mode::Normal }
    }

    pub fn source(&self) -> &'src [u8] {
        self.source
    }

    /// The mode that cut the last row, or the one entered since.
    pub fn mode(&self) -> Mode {
        self.mode
    }

    pub fn enter(&mut self, mode: Mode) {
        self.mode = mode;
    }

    /// The next row. A mode in which nothing matches here is left for the one below.
    pub fn next_row(&mut self) -> Option<Row> {
        let rest = &self.source[self.at..];
        if rest.is_empty() {
            return None;
        }
        let (id, length) = loop {
            let found = match self.mode {
                Mode::Normal => Some(normal::longest(rest).unwrap_or_else(|| normal::unexpected(rest))),
                Mode::Hex => hex::longest(rest),
                Mode::Jump => jump::longest(rest),
            };
            if let Some(found) = found {
                break found;
            }
            self.mode = if self.mode == Mode::Jump { Mode::Hex } else { Mode::Normal };
        };
        let start = self.at;
        self.at += length;
        Some((id, start as u32, self.at as u32))
    }
}

/// The rows of a source with the modes told from its text, as document 02 has it.
pub fn rows(source: &[u8]) -> Vec<Row> {
    with_modes(source).into_iter().map(|(row, _)| row).collect()
}

/// The same rows, each with the mode that cut it.
pub fn with_modes(source: &[u8]) -> Vec<(Row, Mode)> {
    const OPENING: [u32; 3] = [id::PATTERN_IDENT, id::EQUAL, id::L_BRACE];
    const ENDING: [u32; 4] = [id::R_BRACE, id::PATTERN_IDENT, id::UNKNOWN, id::INVALID_UTF8];
    let mut cutter = Cutter::new(source);
    let mut rows = Vec::new();
    // How much of the opening stands just before.
    let mut seen = 0;
    // Whether the closing brace of a hex pattern is still to come. A pattern's identifier or a row that
    // nothing matches gives such a pattern up.
    let mut open = false;
    while let Some(row) = cutter.next_row() {
        rows.push((row, cutter.mode()));
        match cutter.mode() {
            Mode::Normal if is_trivia(row.0) => {}
            Mode::Normal => {
                seen = if row.0 == OPENING[seen] { seen + 1 } else { usize::from(row.0 == OPENING[0]) };
                open &= !ENDING.contains(&row.0);
                if seen == OPENING.len() {
                    (seen, open) = (0, true);
                    cutter.enter(Mode::Hex);
                } else if open && row.0 == id::L_BRACKET {
                    cutter.enter(Mode::Jump);
                }
            }
            Mode::Hex if row.0 == id::L_BRACKET => cutter.enter(Mode::Jump),
            Mode::Hex | Mode::Jump => {}
        }
    }
    rows
}
