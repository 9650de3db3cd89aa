//! A client's operation: its records go out again and again, in bounded rounds and time, till it ends.

use crate::client::{Kept, Taken};
use crate::history::{Event, History};
use crate::network::{Network, Ports};
use crate::Result;
use coded_board::{Ended, Record};
use std::time::{Duration, Instant};

/// How long an operation may take.
#[derive(Clone, Copy, Debug)]
pub struct Patience {
    /// The time between one sending and the next.
    pub wait: Duration,
    /// So many sendings at most, over all phases.
    pub rounds: u64,
    /// So much time at most.
    pub whole: Duration,
}

/// A client at work.
pub struct Desk {
    /// The client.
    pub kept: Kept,
    /// Its socket.
    pub network: Network,
    /// Its servers.
    pub ports: Ports,
    /// What it puts up with.
    pub patience: Patience,
    /// Where its operations are told.
    pub history: History,
}

/// Whether an operation that ended is the one asked for, or one that an earlier process left.
#[derive(Clone, Copy, Debug, PartialEq, Eq)]
pub enum Whose {
    /// An earlier process began it.
    Earlier,
    /// It was asked for now.
    Asked,
}

impl Desk {
    /// Brings the operation that an earlier process left, if any, to its end, and tells it.
    pub fn go_on(&mut self, tell: &mut impl FnMut(Whose, &Ended) -> Result<()>) -> Result<()> {
        if !self.kept.is_busy() {
            return Ok(());
        }
        let begun = self.history.is_open(self.kept.number())?;
        self.end(begun, |ended| tell(Whose::Earlier, ended))?;
        Ok(())
    }

    /// Writes a board, or reads it if there is none to write, and tells the end. What an earlier process left
    /// comes first.
    pub fn run(
        &mut self,
        board: Option<&[u8]>,
        tell: &mut impl FnMut(Whose, &Ended) -> Result<()>,
    ) -> Result<Ended> {
        self.go_on(tell)?;
        let client = self.kept.number();
        let event = board.map_or(Event::Read(client), |board| Event::Write(client, board.to_vec()));
        self.kept.begin(board, || self.history.add(&event))?;
        self.end(true, |ended| tell(Whose::Asked, ended))
    }

    /// Tells the end only once it is kept, and keeps that it has been told. In between a kill may have it
    /// told twice, but its line stands in the history once.
    fn end(&mut self, begun: bool, tell: impl FnOnce(&Ended) -> Result<()>) -> Result<Ended> {
        if self.kept.ended().is_none() {
            self.rounds()?;
        }
        let ended = self.kept.ended().cloned().unwrap_or(Ended::Nothing);
        if begun {
            self.history.add(&Event::End(self.kept.number(), ended.clone()))?;
        }
        tell(&ended)?;
        self.kept.told()?;
        Ok(ended)
    }

    fn rounds(&mut self) -> Result<()> {
        let begin = Instant::now();
        let until = begin + self.patience.whole;
        for _ in 0..self.patience.rounds {
            let sends = self.kept.sends().to_vec();
            sends
                .iter()
                .for_each(|record| self.network.send(self.ports.server(record.server()), record.bytes()));
            if self.gather(until.min(Instant::now() + self.patience.wait))? == Taken::Ended {
                return Ok(());
            }
            if Instant::now() >= until {
                break;
            }
        }
        let (client, seconds) = (self.kept.number(), begin.elapsed().as_secs_f32());
        let why =
            format!("client {client} gave up after {seconds:.1} s: too few servers answer, or too late");
        Err(why + "; the operation stays open, and the client's next call goes on with it")
    }

    /// Takes answers till there is something new to send, or the end, or it is time.
    fn gather(&mut self, until: Instant) -> Result<Taken> {
        while let Some((from, datagram)) = self.network.receive(until)? {
            let Ok(answer) = Record::from_bytes(&datagram) else { continue };
            if from != self.ports.server(answer.server()) {
                continue;
            }
            let taken = self.kept.take(&answer)?;
            if matches!(taken, Taken::Sends | Taken::Ended) {
                return Ok(taken);
            }
        }
        Ok(Taken::Nothing)
    }
}
