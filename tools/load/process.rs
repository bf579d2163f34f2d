//! What a process costs, as the system tells.

use std::fs;

pub struct Process {
    pid: u32,
}

impl Process {
    /// The process of this number; all its figures are 0 where there is none.
    pub fn of(pid: u32) -> Process {
        Process { pid }
    }

    /// Processor time of the threads that there are, in seconds.
    pub fn cpu(&self) -> f64 {
        let Ok(threads) = fs::read_dir(format!("/proc/{}/task", self.pid)) else {
            return 0.0;
        };
        let times = threads.flatten().filter_map(|thread| {
            // The first word is the time in nanoseconds.
            let text = fs::read_to_string(thread.path().join("schedstat")).ok()?;
            text.split_ascii_whitespace().next()?.parse::<f64>().ok()
        });
        times.sum::<f64>() / 1e9
    }

    /// Resident memory, in kB.
    pub fn memory(&self) -> u64 {
        let text = fs::read_to_string(format!("/proc/{}/status", self.pid)).unwrap_or_default();
        let line = text
            .lines()
            .find(|line| line.starts_with("VmRSS:"))
            .unwrap_or("");
        line.split_ascii_whitespace()
            .nth(1)
            .and_then(|word| word.parse().ok())
            .unwrap_or(0)
    }
}
