//! A list made by hand, event by event, with the lines that are due. Boards have one byte.

use crate::list::List;
use crate::model::{Config, Event, PRE_WRITE, QUERY, READ_FINALISE, Rig, WRITE_FINALISE};
use crate::programs::PROGRAM;

pub struct Directed {
    pub name: &'static str,
    pub list: List,
    pub due: String,
}

/// A list in the making. The model runs along, so that a message can be named by its kind, client and server.
pub struct Script {
    pub rig: Rig,
    /// The board that events name.
    pub on: u8,
    list: List,
    due: String,
}

impl Script {
    /// For `board` if the configuration is the program's, else for `simulate`.
    pub fn new(config: Config) -> Script {
        Script::from(config, &vec![0; config.boards])
    }

    /// From these starting boards.
    pub fn from(config: Config, start: &[u8]) -> Script {
        let rig = Rig::make(config, start).expect("a configuration in range");
        let list = List::new(config != PROGRAM, config, start.to_vec());
        Script { rig, on: 1, list, due: String::new() }
    }

    pub fn named(self, name: &'static str) -> Directed {
        Directed { name, list: self.list, due: self.due }
    }

    pub fn event(&mut self, [code, party, position, byte]: [u8; 4], due: &str) {
        let (position, board) = (position as usize, self.on);
        self.put(Event { code, party, position, board, bytes: &[byte], length: 1 }, due);
    }

    /// An event of any board and length.
    pub fn put(&mut self, event: Event, due: &str) {
        let answer = self.rig.event(event);
        self.list.put(&event, answer.map_or(0, |answer| answer.client()));
        self.due += &format!("{} {due}\n", self.list.named.len());
    }

    pub fn write(&mut self, client: u8, byte: u8) {
        self.event([1, client, 0, byte], "ok");
    }

    pub fn read(&mut self, client: u8) {
        self.event([2, client, 0, 0], "ok");
    }

    pub fn crash(&mut self, servers: &[u8]) {
        servers.iter().for_each(|server| self.event([6, *server, 0, 0], "ok"));
    }

    pub fn restart(&mut self, servers: &[u8]) {
        servers.iter().for_each(|server| self.event([8, *server, 0, 0], "ok"));
    }

    /// Where the newest such message is; past all if there is none.
    fn newest(&self, kind: u8, client: u8, server: u8) -> u8 {
        let flight = || self.rig.of(self.on);
        let found = flight().zip(0..).filter(|(r, _)| (r.kind, r.client, r.server) == (kind, client, server));
        found.last().map_or(flight().count() as u8, |(_, position)| position)
    }

    /// Hands over the newest message of this kind to or from each of these servers.
    pub fn hand(&mut self, client: u8, kind: u8, servers: &[u8]) {
        for server in servers {
            self.event([3, 0, self.newest(kind, client, *server), 0], "ok");
        }
    }

    /// Hands over one with this line.
    pub fn due(&mut self, client: u8, kind: u8, server: u8, due: &str) {
        self.event([3, 0, self.newest(kind, client, server), 0], due);
    }

    /// Hands over messages of this kind, then their answers.
    pub fn answered(&mut self, client: u8, kind: u8, servers: &[u8]) {
        self.hand(client, kind, servers);
        self.hand(client, kind + 1, servers);
    }

    pub fn double(&mut self, client: u8, kind: u8, server: u8) {
        self.event([5, 0, self.newest(kind, client, server), 0], "ok");
    }

    pub fn lose(&mut self, client: u8, kind: u8, server: u8) {
        self.event([4, 0, self.newest(kind, client, server), 0], "ok");
    }

    /// So many of the board are in flight: there is nothing at that position, and the last one can be doubled and its copy lost.
    pub fn in_flight(&mut self, count: u8) {
        self.event([4, 0, count, 0], "no 8");
        self.event([5, 0, count - 1, 0], "ok");
        self.event([4, 0, count, 0], "ok");
    }

    /// A write of this byte asks servers 1 and 2.
    pub fn asked(&mut self, client: u8, byte: u8) {
        self.write(client, byte);
        self.answered(client, QUERY, &[1, 2]);
    }

    /// A write of the byte ab by client 2 asks servers 1 and 2, and its pre-writes reach these.
    pub fn pre_written(&mut self, servers: &[u8]) {
        self.asked(2, 0xab);
        self.hand(2, PRE_WRITE, servers);
    }

    /// The pre-writes of a client to servers 1 and 2 are there; its write ends by them with this line.
    pub fn ends(&mut self, client: u8, due: &str) {
        self.hand(client, PRE_WRITE + 1, &[1, 2]);
        self.hand(client, WRITE_FINALISE, &[1, 2]);
        self.hand(client, WRITE_FINALISE + 1, &[1]);
        self.due(client, WRITE_FINALISE + 1, 2, due);
    }

    /// The same for the write of client 2.
    pub fn written(&mut self) {
        self.ends(2, "written 1 2");
    }

    /// A read that has asked ends by servers 1 and 2 with this line.
    pub fn shows(&mut self, client: u8, due: &str) {
        self.answered(client, READ_FINALISE, &[1]);
        self.hand(client, READ_FINALISE, &[2]);
        self.due(client, READ_FINALISE + 1, 2, due);
    }
}
