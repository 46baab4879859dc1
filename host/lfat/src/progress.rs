//! A progress bar: on a terminal only, and only for what takes more than a second.

use std::io::{stderr, IsTerminal, Write};
use std::time::{Duration, Instant};

const WIDTH: usize = 40;
const QUIET: Duration = Duration::from_secs(1);

pub struct Progress {
    /// What is counted, in words.
    what: &'static str,
    began: Instant,
    shown: Option<usize>,
    is_terminal: bool,
}

impl Progress {
    pub fn new(what: &'static str) -> Progress {
        Progress {
            what,
            began: Instant::now(),
            shown: None,
            is_terminal: stderr().is_terminal(),
        }
    }

    /// Draws the bar anew when its percentage has changed.
    pub fn step(&mut self, done: usize, total: usize) {
        if !self.is_terminal || self.began.elapsed() < QUIET {
            return;
        }
        let percent = (done as u128 * 100 / total.max(1) as u128) as usize;
        if self.shown != Some(percent) {
            self.shown = Some(percent);
            let filled = percent * WIDTH / 100;
            let _ = write!(
                stderr(),
                "\r[{}{}] {percent:>3} %  {} {done} of {total}",
                "#".repeat(filled),
                ".".repeat(WIDTH - filled),
                self.what,
            );
        }
    }
}

impl Drop for Progress {
    /// Clears the line.
    fn drop(&mut self) {
        if self.shown.is_some() {
            let _ = write!(stderr(), "\r\x1b[K");
        }
    }
}
