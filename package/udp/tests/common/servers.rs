//! Servers in the test's own process, which show it each record.

use super::Place;
use board_udp::shared::Shared;
use coded_board::{Config, Record, Server};
use std::net::{SocketAddr, UdpSocket};
use std::time::{Duration, Instant};

/// Servers in this process, at the servers' ports, that answer records of some kinds alone.
pub struct Servers {
    config: Config,
    sockets: Vec<UdpSocket>,
    servers: Vec<Server>,
}

impl Servers {
    pub fn new(place: &Place) -> Servers {
        let shared = Shared::read(&place.board_folder().join("config")).unwrap();
        let bind = |s| UdpSocket::bind(place.ports.server(s)).unwrap();
        let sockets: Vec<UdpSocket> = (1..=5).map(bind).collect();
        sockets.iter().for_each(|socket| socket.set_read_timeout(Some(Duration::from_millis(2))).unwrap());
        let fresh = |s| Server::fresh(&shared.config, s, &shared.start).unwrap();
        let servers = (1..=5).map(fresh).collect();
        Servers { config: shared.config, sockets, servers }
    }

    /// All have finalised a tag of the last number.
    pub fn at_the_last_number(&mut self) {
        for server in &mut self.servers {
            let mut state = *server.state();
            state[8..13].copy_from_slice(&[255, 255, 255, 255, 1]);
            *server = Server::from_parts(&self.config, &state, server.store()).unwrap();
        }
    }

    /// Takes at most one record at each server, and answers it unless it is of this kind. Gives those of this
    /// kind.
    pub fn answer_but(&mut self, kind: u8) -> Vec<Record> {
        let mut found = vec![];
        for (socket, server) in self.sockets.iter().zip(&mut self.servers) {
            let Some((record, from)) = receive(socket) else { continue };
            if record.kind() == kind {
                found.push(record);
            } else {
                socket.send_to(server.step(&record).unwrap().bytes(), from).unwrap();
            }
        }
        found
    }

    /// Answers till each server has a record of this kind, and gives these.
    pub fn wait_for(&mut self, kind: u8) -> Vec<Record> {
        each(|| self.answer_but(kind))
    }

    /// The first record that each server gets. Answers nothing.
    pub fn first(&self) -> Vec<Record> {
        each(|| self.sockets.iter().filter_map(receive).map(|(record, _)| record).collect())
    }

    /// Drops all that has come.
    pub fn clear(&self) {
        self.sockets.iter().for_each(|socket| while receive(socket).is_some() {});
    }
}

/// Asks for records till there is one for each server, and gives the first for each.
fn each(mut more: impl FnMut() -> Vec<Record>) -> Vec<Record> {
    let mut found: Vec<Option<Record>> = vec![None; 5];
    let until = Instant::now() + Duration::from_secs(10);
    while found.iter().any(Option::is_none) && Instant::now() < until {
        more()
            .into_iter()
            .for_each(|record| _ = found[usize::from(record.server()) - 1].get_or_insert(record));
    }
    found.into_iter().flatten().collect()
}

fn receive(socket: &UdpSocket) -> Option<(Record, SocketAddr)> {
    let mut room = [0; 100];
    let (length, from) = socket.recv_from(&mut room).ok()?;
    Some((Record::from_bytes(&room[..length]).unwrap(), from))
}
