//! The times of a run's phases.

use std::time::{Duration, Instant};

pub struct Phases {
    since: Instant,
    times: Vec<(&'static str, Duration)>,
}

impl Phases {
    pub fn start() -> Phases {
        Phases { since: Instant::now(), times: Vec::new() }
    }

    /// What was done since the last end counts as this phase; a phase may come in several pieces.
    pub fn end(&mut self, name: &'static str) {
        let now = Instant::now();
        let time = now - self.since;
        self.since = now;
        match self.times.iter_mut().find(|(other, _)| *other == name) {
            Some((_, sum)) => *sum += time,
            None => self.times.push((name, time)),
        }
    }

    /// Prints the times in ms to standard error.
    pub fn print(&self) {
        let milliseconds = |time: Duration| 1000.0 * time.as_secs_f64();
        for (name, time) in &self.times {
            eprintln!("{name:24} {:10.1}", milliseconds(*time));
        }
        eprintln!(
            "{:24} {:10.1}",
            "all",
            milliseconds(self.times.iter().map(|(_, time)| *time).sum())
        );
    }
}
