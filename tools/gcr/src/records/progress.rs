//! How far the command has come, for who watches it on a terminal.

use crate::ending::Failure;
use crate::output::Output;
use std::io::{self, IsTerminal, Write};
use std::time::{Duration, Instant};

/// Nothing is told of what takes less.
const PATIENCE: Duration = Duration::from_secs(1);
/// From one telling to the next.
const PAUSE: Duration = Duration::from_millis(100);

pub struct Progress {
    all: usize,
    done: usize,
    next: Instant,
    is_watched: bool,
    is_shown: bool,
}

impl Progress {
    pub fn of(all: usize) -> Progress {
        let is_watched = io::stderr().is_terminal();
        Progress { all, done: 0, next: Instant::now() + PATIENCE, is_watched, is_shown: false }
    }

    /// One more is done. What was put out before stands above what is told.
    pub fn step(&mut self, output: &mut Output) -> Result<(), Failure> {
        self.done += 1;
        if !self.is_watched || Instant::now() < self.next {
            return Ok(());
        }
        output.finish()?;
        self.tell(&format!("\r{} of {} records", self.done, self.all));
        (self.is_shown, self.next) = (true, Instant::now() + PAUSE);
        Ok(())
    }

    /// Takes back what was told, so that a line can stand there.
    pub fn clear(&mut self) {
        if self.is_shown {
            self.tell("\r\x1b[K");
            self.is_shown = false;
        }
    }

    /// That it cannot be told is no matter.
    fn tell(&self, text: &str) {
        let mut to = io::stderr();
        let _ = to.write_all(text.as_bytes()).and_then(|()| to.flush());
    }
}
