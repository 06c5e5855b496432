//! How far the work is: a line on standard error, where that is a terminal and the work takes over a second.

use std::io::{self, IsTerminal};
use std::time::{Duration, Instant};

pub struct Progress {
    bytes: Option<u64>,
    told: Instant,
    wait: Duration,
    shown: bool,
}

impl Progress {
    /// Of so many bytes, if that is known.
    pub fn new(bytes: Option<u64>) -> Progress {
        let wait = if io::stderr().is_terminal() { Duration::from_secs(1) } else { Duration::MAX };
        Progress { bytes: bytes.filter(|bytes| *bytes > 0), told: Instant::now(), wait, shown: false }
    }

    /// So many lines and bytes are done.
    pub fn tell(&mut self, lines: u64, read: u64) {
        if self.told.elapsed() < self.wait {
            return;
        }
        match self.bytes {
            Some(bytes) => eprint!("\r{lines} lines, {} %", (read * 100 / bytes).min(100)),
            None => eprint!("\r{lines} lines"),
        }
        (self.told, self.wait, self.shown) = (Instant::now(), Duration::from_millis(200), true);
    }

    /// Everything is done: the line goes.
    pub fn end(&self) {
        if self.shown {
            eprint!("\r\x1b[K");
        }
    }
}
