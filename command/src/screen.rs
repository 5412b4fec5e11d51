//! Standard output, and a line on a terminal that says how far a long run is.

use crate::text::shown;
use std::io::{self, BufWriter, IsTerminal, Stdout, Write};
use std::sync::mpsc::{Receiver, RecvTimeoutError};
use std::sync::{Arc, Mutex};
use std::time::Duration;

/// A run that takes longer says how far it is, and says it anew this often.
const LONG: Duration = Duration::from_millis(500);
const AGAIN: Duration = Duration::from_millis(100);

/// What is being read, and whether its line stands on the terminal.
#[derive(Clone, Default)]
pub struct Progress(Arc<Mutex<(String, bool)>>);

impl Progress {
    pub fn now(&self, number: usize, files: usize, name: &str) {
        self.0.lock().unwrap().0 = format!("{number} of {files}: {}", shown(name));
    }

    /// Shows it until the run is over: until whoever holds the other end lets go of it.
    pub fn watch(&self, run: Receiver<()>) {
        let mut wait = LONG;
        while io::stderr().is_terminal() && run.recv_timeout(wait) == Err(RecvTimeoutError::Timeout) {
            wait = AGAIN;
            let (line, stands) = &mut *self.0.lock().unwrap();
            let cut: String = line.chars().take(78).collect();
            let _ = write!(io::stderr(), "\r\x1b[K{cut}");
            *stands = true;
        }
    }

    /// Takes the line away and keeps it away while `write` writes.
    fn without<T>(&self, write: impl FnOnce() -> T) -> T {
        let (_, stands) = &mut *self.0.lock().unwrap();
        if std::mem::take(stands) {
            let _ = write!(io::stderr(), "\r\x1b[K");
        }
        write()
    }
}

pub struct Screen {
    out: BufWriter<Stdout>,
    terminal: bool,
    pub progress: Progress,
}

impl Screen {
    pub fn new(progress: Progress) -> Self {
        let out = io::stdout();
        Self { terminal: out.is_terminal(), out: BufWriter::with_capacity(1 << 16, out), progress }
    }

    /// Writes, on a terminal at once.
    pub fn write(&mut self, text: &str) -> io::Result<()> {
        let (out, terminal) = (&mut self.out, self.terminal);
        self.progress.without(|| {
            out.write_all(text.as_bytes())?;
            if terminal {
                out.flush()?;
            }
            Ok(())
        })
    }

    /// A note beside the output.
    pub fn note(&mut self, text: &str) {
        self.progress.without(|| {
            let _ = writeln!(io::stderr(), "stableglow: {text}");
        });
    }

    pub fn end(&mut self) -> io::Result<()> {
        self.progress.without(|| self.out.flush())
    }
}
