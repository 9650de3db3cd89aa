//! What lists meet of servers that are started again.

use crate::common::never;
use crate::model::{Answer, CLEARED, Client, Event, Phase, Record, Rig, START, Server};
use crate::sharing::second;
use std::collections::{HashMap, HashSet};

/// What the lists made so far have met of them, those for `board` and those for `simulate`.
#[derive(Default, Debug)]
pub struct Restarts {
    board: Met,
    simulate: Met,
}

#[derive(Default, Debug)]
pub struct Met {
    accepted: usize,
    /// 8 for server 0, for the one above N, for a higher one.
    refused_8: [usize; 3],
    refused_9: usize,
    /// 7 for event 9.
    unknown: usize,
    /// Accepted, with a position that isn't there, and with a length above V.
    any_position: usize,
    any_length: usize,
    /// Accepted, and 9, with the number of a client that is down.
    client_down: [usize; 2],
    /// Crashes of servers that were restarted, and restarts of servers for the third time.
    crashed_again: usize,
    third: usize,
    /// Crashes after which all servers are down.
    all_down: usize,
    /// Messages to restarted servers, where one before was gone while they were down.
    gone_before: usize,
    kept: Kept,
    ended: Ended,
    /// On several boards: restarts, and restarted servers that answer on two boards.
    boards: usize,
    two_boards: usize,
}

/// Answers of restarted servers with what they had at the crash, other than the starting tag.
#[derive(Default, Debug)]
struct Kept {
    highest: usize,
    element: usize,
    /// Kind 9, of a tag at or below the floor.
    floor: usize,
}

/// Operations that end with an answer that a restarted server has sent in their last phase, for a read with an element
/// that it had at the crash and that the read decodes.
#[derive(Default, Debug)]
struct Ended {
    /// Restarted before the begin, and after it.
    writes: [usize; 2],
    reads: [usize; 2],
    /// With fewer than q servers up at some time after their begin.
    stalled_writes: usize,
    stalled_reads: usize,
}

impl Restarts {
    pub fn by(&mut self, general: bool) -> &mut Met {
        if general { &mut self.simulate } else { &mut self.board }
    }

    pub fn missing(&self) -> Vec<&'static str> {
        let by = |program: &str, met: &Met| -> Vec<&'static str> {
            met.missing().iter().map(|name| &*format!("{name}, by {program}").leak()).collect()
        };
        let boards = never(&[
            ("restarts on several boards", self.simulate.boards),
            ("answers of a restarted server on two boards", self.simulate.two_boards),
        ]);
        [by("board", &self.board), by("simulate", &self.simulate), boards].concat()
    }
}

impl Met {
    fn missing(&self) -> Vec<&'static str> {
        let counts = [
            ("a restart", self.accepted),
            ("8 of a restart of server 0", self.refused_8[0]),
            ("8 of a restart of the server above N", self.refused_8[1]),
            ("8 of a restart of a higher server", self.refused_8[2]),
            ("9 of a restart", self.refused_9),
            ("7 of event 9", self.unknown),
            ("a restart with a position that isn't there", self.any_position),
            ("a restart with a length above V", self.any_length),
            ("a restart with the number of a crashed client", self.client_down[0]),
            ("9 of a restart with the number of a crashed client", self.client_down[1]),
            ("a crash after a restart", self.crashed_again),
            ("a third restart", self.third),
            ("all servers down", self.all_down),
            ("a message to a restarted server after one that was gone", self.gone_before),
        ];
        [never(&counts), self.kept.missing(), self.ended.missing()].concat()
    }
}

impl Kept {
    fn missing(&self) -> Vec<&'static str> {
        never(&[
            ("H of before the crash", self.highest),
            ("an element of before the crash", self.element),
            ("a floor of before the crash", self.floor),
        ])
    }
}

impl Ended {
    fn missing(&self) -> Vec<&'static str> {
        never(&[
            ("a write that ends by a server restarted before it", self.writes[0]),
            ("a write that ends by a server restarted in it", self.writes[1]),
            ("a read that ends by a server restarted before it", self.reads[0]),
            ("a read that ends by a server restarted in it", self.reads[1]),
            ("a write that goes on after a stall", self.stalled_writes),
            ("a read that goes on after a stall", self.stalled_reads),
        ])
    }

    fn note(&mut self, write: bool, during: bool, stalled: bool) {
        let (ended, after_stall) = match write {
            true => (&mut self.writes, &mut self.stalled_writes),
            false => (&mut self.reads, &mut self.stalled_reads),
        };
        ended[during as usize] += 1;
        *after_stall += stalled as usize;
    }
}

/// A server that has crashed.
#[derive(Default)]
struct Crashed {
    /// As it was at its latest crash, on each board.
    at_crash: Vec<Server>,
    restarts: usize,
    /// The event of its latest restart.
    restarted: usize,
    /// A message to it was gone since its latest crash.
    gone: bool,
    /// The boards on which it has answered since its latest restart.
    boards: HashSet<u8>,
}

/// What is kept of one list for that.
#[derive(Default)]
pub struct Restarting {
    /// Events so far.
    time: usize,
    servers: HashMap<u8, Crashed>,
    /// By board and client: the event at which its operation began, and whether fewer than q servers were up since.
    begun: HashMap<(u8, u8), (usize, bool)>,
    /// Board, client, operation number and server of answers that a restarted server has sent in an operation's last
    /// phase, for a read with an element that it had at the crash.
    answers: HashSet<(u8, u8, u32, u8)>,
}

impl Restarting {
    /// Notes what has become of an event.
    pub fn note(&mut self, met: &mut Met, rig: &Rig, event: &Event, answer: &Result<Answer, u8>) {
        self.time += 1;
        match (event.code, answer) {
            (1 | 2, Ok(_)) => _ = self.begun.insert((event.board, event.party), (self.time, false)),
            (6, Ok(_)) => self.note_crash(met, rig, event.party),
            (8, Ok(_)) => self.note_restart(met, rig, event),
            (8, Err(8)) if event.party == 0 => met.refused_8[0] += 1,
            (8, Err(8)) => met.refused_8[1 + (event.party as usize > rig.config.n + 1) as usize] += 1,
            (8, Err(_)) => {
                met.refused_9 += 1;
                met.client_down[1] += client_down(rig, event.party) as usize;
            }
            (9, Err(7)) => met.unknown += 1,
            _ => {}
        }
        let up = rig.on(1).servers.iter().filter(|server| server.up).count();
        if up < rig.config.q() {
            self.begun.values_mut().for_each(|(_, stalled)| *stalled = true);
        }
    }

    fn note_crash(&mut self, met: &mut Met, rig: &Rig, party: u8) {
        let place = party as usize - 1;
        let server = self.servers.entry(party).or_default();
        met.crashed_again += (server.restarts > 0) as usize;
        met.all_down += rig.on(1).servers.iter().all(|server| !server.up) as usize;
        server.at_crash = rig.parties.iter().map(|parties| parties.servers[place].clone()).collect();
        server.gone = false;
    }

    fn note_restart(&mut self, met: &mut Met, rig: &Rig, event: &Event) {
        let server = self.servers.get_mut(&event.party).expect("one that has crashed");
        server.restarts += 1;
        server.restarted = self.time;
        server.boards.clear();
        met.accepted += 1;
        met.any_position += (event.position >= rig.flight.len()) as usize;
        met.any_length += (event.length > rig.config.v()) as usize;
        met.client_down[0] += client_down(rig, event.party) as usize;
        met.third += (server.restarts == 3) as usize;
        met.boards += (rig.config.boards > 1) as usize;
    }

    /// Notes what a message of a board has met, by its client before it.
    pub fn note_handed_over(
        &mut self,
        met: &mut Met,
        rig: &Rig,
        (board, r): (u8, &Record),
        client: &Client,
        answer: &Result<Answer, u8>,
    ) {
        if r.for_server() {
            self.note_to_server(met, rig, board, r);
        } else if answer.as_ref().is_ok_and(|answer| *answer != Answer::Nothing) {
            self.note_ended(met, rig.config.k, board, r, client);
        }
    }

    /// A server that has crashed and is up was restarted, and has answered.
    fn note_to_server(&mut self, met: &mut Met, rig: &Rig, board: u8, r: &Record) {
        let Some(server) = self.servers.get_mut(&r.server) else { return };
        if !rig.on(board).servers[r.server as usize - 1].up {
            server.gone = true;
            return;
        }
        met.gone_before += std::mem::take(&mut server.gone) as usize;
        met.two_boards += second(&mut server.boards, board);
        let (before, sent) =
            (&server.at_crash[board as usize - 1], rig.flight.last().expect("its answer").record);
        let below = |floor| rig.config.key(sent.tag) <= rig.config.key(floor);
        let kept = sent.piece.is_some() && before.stored.iter().any(|(tag, _)| *tag == sent.tag);
        let later = sent.tag != START;
        met.kept.highest += (sent.kind == 2 && later && sent.tag == before.highest) as usize;
        met.kept.element += (kept && later) as usize;
        met.kept.floor += (sent.kind == CLEARED && later && before.floor.is_some_and(below)) as usize;
        if sent.kind == 6 || kept && later {
            self.answers.insert((board, r.client, r.operation, r.server));
        }
    }

    /// The answers that ended an operation: those counted in its last phase, for a read those that it decodes.
    fn note_ended(&mut self, met: &mut Met, k: usize, board: u8, r: &Record, client: &Client) {
        let write = client.phase == Phase::FinalisingWrite;
        let mut used: Vec<u8> = match write {
            true => client.counted.clone(),
            false => client.pieces.keys().copied().collect(),
        };
        if write || r.piece.is_some() {
            used.push(r.server);
        }
        used.sort();
        used.truncate(if write { used.len() } else { k });
        used.retain(|server| self.answers.contains(&(board, r.client, r.operation, *server)));
        let (begun, stalled) = self.begun.remove(&(board, r.client)).expect("begun");
        if !used.is_empty() {
            let during = used.iter().any(|server| self.servers[server].restarted > begun);
            met.ended.note(write, during, stalled);
        }
    }
}

/// Whether the client of this number is down.
fn client_down(rig: &Rig, number: u8) -> bool {
    rig.on(1).clients.get(number as usize - 1).is_some_and(|client| client.phase == Phase::Down)
}
