//! Lines on standard error: progress, and what is wrong. Where that cannot be written to, the status still tells.

use std::io::Write;
use std::time::{Duration, Instant};

pub fn tell(line: &str) {
    let _ = writeln!(std::io::stderr(), "{line}");
}

/// When a word about progress was last due.
pub struct Progress {
    last: Instant,
}

impl Default for Progress {
    fn default() -> Progress {
        Progress { last: Instant::now() }
    }
}

impl Progress {
    /// Every two seconds.
    pub fn is_due(&mut self) -> bool {
        let due = self.last.elapsed() >= Duration::from_secs(2);
        if due {
            self.last = Instant::now();
        }
        due
    }
}
