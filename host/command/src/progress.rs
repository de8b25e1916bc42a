//! The progress bar on standard error.

use std::io::{self, IsTerminal, Write};
use std::time::{Duration, Instant};

use crate::signals;

/// The bar is drawn at most once in this time.
const PAUSE: Duration = Duration::from_millis(100);

/// The cells of the bar.
const WIDTH: usize = 24;

/// A bar that shows how many files of how many are done.
#[derive(Debug)]
pub struct Progress {
    drawn_by: Option<Instant>,
    stands: bool,
    total: usize,
    done: usize,
}

impl Progress {
    /// A bar for so many files, where standard error is a terminal and the bar is wanted.
    pub fn new(total: usize, wanted: bool) -> Progress {
        let dumb = std::env::var_os("TERM").is_none_or(|terminal| terminal == "dumb");
        let drawn = wanted && total > 1 && !dumb && io::stderr().is_terminal();
        if drawn {
            signals::catch();
        }
        Progress {
            drawn_by: drawn.then(Instant::now),
            stands: false,
            total,
            done: 0,
        }
    }

    /// Counts a file that is done, and draws the bar if it is time.
    pub fn step(&mut self) {
        self.done += 1;
        let Some(last) = self.drawn_by else { return };
        if last.elapsed() >= PAUSE {
            self.drawn_by = Some(Instant::now());
            self.stands = true;
            signals::bar(true);
            self.put(&format!("{}{}", signals::ERASE, self.text()));
        }
    }

    /// Removes the bar, so that a line can be put.
    pub fn hide(&mut self) {
        if self.stands {
            self.put(signals::ERASE);
            self.stands = false;
            signals::bar(false);
        }
    }

    /// The bar.
    fn text(&self) -> String {
        let full = (self.done * WIDTH) / self.total.max(1);
        let (full, open) = ("#".repeat(full), "-".repeat(WIDTH - full.min(WIDTH)));
        format!("[{full}{open}] {} of {} files", self.done, self.total)
    }

    fn put(&self, text: &str) {
        let mut error = io::stderr();
        let _ = error.write_all(text.as_bytes());
        let _ = error.flush();
    }
}

impl Drop for Progress {
    fn drop(&mut self) {
        self.hide();
    }
}
