//! A network's faults, made on purpose: datagrams that get lost, arrive twice or late.

use crate::disk::said;
use crate::draws::Draws;
use crate::Result;
use std::fs::{File, OpenOptions};
use std::io::Write;
use std::path::Path;
use std::time::Duration;

/// Which faults a party's outgoing datagrams meet.
pub struct Faults {
    /// So many of 100 are lost.
    pub loss: u8,
    /// So many of 100 go out twice.
    pub double: u8,
    /// Each waits up to so many milliseconds.
    pub delay: u64,
    /// What decides.
    pub draws: Draws,
    /// Where each fault is told.
    pub log: Option<Log>,
}

/// A file of faults, one line each: the party and `lost`, `doubled` or `delayed`.
pub struct Log {
    party: String,
    file: File,
}

impl Log {
    /// Appends to a file, which several parties may share.
    pub fn open(path: &Path, party: &str) -> Result<Log> {
        let file = OpenOptions::new().create(true).append(true).open(path).map_err(said(path))?;
        Ok(Log { party: party.to_string(), file })
    }
}

impl Faults {
    /// No fault at all.
    pub fn none() -> Faults {
        Faults { loss: 0, double: 0, delay: 0, draws: Draws::new(0), log: None }
    }

    /// How long each copy of a datagram waits; one that is lost has no copy.
    pub fn copies(&mut self) -> Vec<Duration> {
        if self.draws.percent(self.loss) {
            self.tell("lost");
            return vec![];
        }
        let doubled = self.draws.percent(self.double);
        if doubled {
            self.tell("doubled");
        }
        (0..=u8::from(doubled)).map(|_| self.wait()).collect()
    }

    fn wait(&mut self) -> Duration {
        let wait = self.draws.up_to(self.delay);
        if wait > 0 {
            self.tell("delayed");
        }
        Duration::from_millis(wait)
    }

    /// A fault that can't be told happens all the same.
    fn tell(&mut self, what: &str) {
        if let Some(log) = &mut self.log {
            _ = log.file.write_all(format!("{} {what}\n", log.party).as_bytes());
        }
    }
}

#[cfg(test)]
mod tests {
    use super::*;

    #[test]
    fn without_faults_one_copy_goes_at_once() {
        let mut faults = Faults::none();
        assert!((0..100).all(|_| faults.copies() == [Duration::ZERO]));
    }

    #[test]
    fn each_fault_happens() {
        let mut faults = Faults { loss: 20, double: 20, delay: 5, ..Faults::none() };
        let all: Vec<_> = (0..200).map(|_| faults.copies()).collect();
        assert!((0..=2).all(|count| all.iter().any(|copies| copies.len() == count)));
        assert!(all.iter().flatten().any(|wait| *wait == Duration::from_millis(5)));
    }
}
