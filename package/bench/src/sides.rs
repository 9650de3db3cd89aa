//! The parties of one list, by the crate and by the model.

use crate::lists::Step;
use crate::model::{self, Answer, Event, Message, Rig};
use coded_board::{Client, Config, Ended, Record, Server};
use std::hint::black_box;

/// What steps have come to.
#[derive(Clone, Debug, Default, PartialEq)]
pub struct Tally {
    pub sent: usize,
    pub written: usize,
    pub read: usize,
}

pub trait Party {
    type Record;
    fn fresh(config: &model::Config, start: &[u8]) -> Self;
    fn step(&mut self, step: &Step<Self::Record>, tally: &mut Tally);
}

/// Servers and clients of `coded_board`.
pub struct Proved {
    pub servers: Vec<Server>,
    pub clients: Vec<Client>,
}

impl Party for Proved {
    type Record = Record;

    fn fresh(config: &model::Config, start: &[u8]) -> Proved {
        let [n, k, d, e, c] = [config.n, config.k, config.d, config.e, config.c].map(|number| number as u8);
        let config = Config::new(n, k, d, e, c, &config.ranks).expect("a configuration in range");
        let server = |s| Server::fresh(&config, s, start).expect("a fresh server");
        let client = |c| Client::fresh(&config, c).expect("a fresh client");
        Proved { servers: (1..=n).map(server).collect(), clients: (1..=c).map(client).collect() }
    }

    fn step(&mut self, step: &Step<Record>, tally: &mut Tally) {
        match step {
            Step::Server(s, r) => {
                black_box(self.servers[*s].step(r).expect("a server takes what a client sends"));
                tally.sent += 1;
            }
            Step::Client(c, r) => match black_box(self.clients[*c].step(r)) {
                Ok(step) => {
                    tally.sent += step.sends.len();
                    tally.written += usize::from(matches!(step.ended, Ended::Written(_)));
                    tally.read += usize::from(matches!(step.ended, Ended::Read(..)));
                }
                Err(no) => assert_eq!(no.number(), 14),
            },
            Step::Write(c, board, length) => {
                tally.sent +=
                    black_box(self.clients[*c].write(&board[..*length])).expect("an idle client").len();
            }
            Step::Read(c) => {
                tally.sent += black_box(self.clients[*c].read()).expect("an idle client").len();
            }
        }
    }
}

/// An event of the only board.
pub fn event(code: u8, party: u8, position: usize, bytes: &[u8], length: usize) -> Event<'_> {
    Event { code, party, position, board: 1, bytes, length }
}

/// Those of the model, with its own types. A server's step is called as it is; a client takes its steps in a rig in
/// which nothing else is in flight, as the model has no other way to them.
pub struct Modelled {
    pub rig: Rig,
}

impl Modelled {
    /// A client's begin or step; what it sends is in flight then.
    pub fn client(&mut self, step: &Step<model::Record>) -> Answer {
        self.rig.flight.clear();
        let done = match step {
            Step::Write(c, board, length) => self.rig.event(event(1, *c as u8 + 1, 0, board, *length)),
            Step::Read(c) => self.rig.event(event(2, *c as u8 + 1, 0, &[], 0)),
            Step::Client(_, r) | Step::Server(_, r) => {
                self.rig.flight.push(Message { board: 1, record: *r });
                self.rig.event(event(3, 0, 0, &[], 0))
            }
        };
        done.expect("an event that is done")
    }
}

impl Party for Modelled {
    type Record = model::Record;

    fn fresh(config: &model::Config, start: &[u8]) -> Modelled {
        Modelled { rig: Rig::make(*config, start).expect("a configuration in range") }
    }

    fn step(&mut self, step: &Step<model::Record>, tally: &mut Tally) {
        if let Step::Server(s, r) = step {
            black_box(self.rig.parties[0].servers[*s].step(&self.rig.config, r));
            tally.sent += 1;
            return;
        }
        let answer = black_box(self.client(step));
        tally.sent += black_box(&self.rig.flight).len();
        tally.written += usize::from(matches!(answer, Answer::Written(..)));
        tally.read += usize::from(matches!(answer, Answer::Read(..)));
    }
}
