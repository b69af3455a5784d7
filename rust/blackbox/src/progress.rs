//! A line on standard error for work that takes more than a second, if standard error is a terminal.

use std::io::{stderr, Write};
use std::os::raw::c_int;
use std::time::{Duration, Instant};

extern "C" {
    fn isatty(file: c_int) -> c_int;
}

pub struct Progress {
    what: &'static str,
    total: Option<u64>,
    next: Option<Instant>,
    shown: bool,
}

impl Progress {
    /// Work on so many bytes or lines, if that is known.
    pub fn new(what: &'static str, total: Option<u64>) -> Progress {
        let next = if unsafe { isatty(2) } == 1 { Some(Instant::now() + Duration::from_secs(1)) } else { None };
        Progress { what, total, next, shown: false }
    }

    /// So much is done.
    pub fn at(&mut self, done: u64) {
        match self.next {
            Some(next) if Instant::now() >= next => {
                let _ = match self.total {
                    Some(total) => write!(stderr(), "\r{} {} of {} ", self.what, done, total),
                    None => write!(stderr(), "\r{} {} ", self.what, done),
                };
                self.next = Some(Instant::now() + Duration::from_millis(200));
                self.shown = true;
            }
            _ => {}
        }
    }
}

impl Drop for Progress {
    fn drop(&mut self) {
        if self.shown {
            let _ = write!(stderr(), "\r\x1b[K");
        }
    }
}
