//! Datagrams on the loopback, with faults on the way out.

use crate::disk::said;
use crate::faults::Faults;
use crate::Result;
use std::io::ErrorKind;
use std::net::{Ipv4Addr, SocketAddr, UdpSocket};
use std::path::Path;
use std::time::{Duration, Instant};

const LEAST: u16 = 1024;
const MOST: u16 = 65_000;
/// One byte more than a record has, so that a longer datagram doesn't pass for one.
const ROOM: usize = 81;
/// So many datagrams wait at most; more are lost.
const LATE: usize = 1024;

/// The ports of a board's servers on 127.0.0.1: server s has the base plus s.
#[derive(Clone, Copy, Debug)]
pub struct Ports(u16);

impl Ports {
    /// From the base, `47100` or `127.0.0.1:47100`. Any other address is refused.
    pub fn read(word: &str) -> Result<Ports> {
        let port = match word.rsplit_once(':') {
            Some((address, port)) if address == Ipv4Addr::LOCALHOST.to_string() => port,
            Some((address, _)) => return Err(format!("{address}: this host uses 127.0.0.1 alone")),
            None => word,
        };
        let base = port.parse().ok().filter(|base| (LEAST..=MOST).contains(base));
        base.map(Ports).ok_or_else(|| format!("{word}: the base of the ports is {LEAST} to {MOST}"))
    }

    /// A base from which so many servers find their ports free just now; looks from `first` on.
    pub fn free(first: u16, servers: u8) -> Result<Ports> {
        let mut bases = (first.max(LEAST)..MOST).step_by(32).take(500).map(Ports);
        let free = |ports: &Ports| (1..=servers).all(|s| UdpSocket::bind(ports.server(s)).is_ok());
        bases.find(free).ok_or_else(|| "no free ports".to_string())
    }

    /// The base.
    pub fn base(self) -> u16 {
        self.0
    }

    /// Where a server is.
    pub fn server(self, s: u8) -> SocketAddr {
        SocketAddr::from((Ipv4Addr::LOCALHOST, self.0.saturating_add(s.into())))
    }
}

/// A party's socket, and the datagrams that still wait to go out.
pub struct Network {
    socket: UdpSocket,
    faults: Faults,
    late: Vec<Late>,
}

struct Late {
    due: Instant,
    to: SocketAddr,
    bytes: Vec<u8>,
}

impl Network {
    /// At a server's port.
    pub fn at(address: SocketAddr, faults: Faults) -> Result<Network> {
        if address.ip() != Ipv4Addr::LOCALHOST {
            return Err(format!("{address}: this host uses 127.0.0.1 alone"));
        }
        let socket = UdpSocket::bind(address).map_err(|why| format!("{address}: {why}"))?;
        Ok(Network { socket, faults, late: vec![] })
    }

    /// At any free port, for a client.
    pub fn anywhere(faults: Faults) -> Result<Network> {
        Network::at(SocketAddr::from((Ipv4Addr::LOCALHOST, 0)), faults)
    }

    /// Sends a datagram, or what the faults make of it.
    pub fn send(&mut self, to: SocketAddr, bytes: &[u8]) {
        let now = Instant::now();
        for wait in self.faults.copies() {
            if self.late.len() < LATE {
                self.late.push(Late { due: now + wait, to, bytes: bytes.to_vec() });
            }
        }
        self.send_due(now);
    }

    /// The next datagram, if one comes in time. What is due goes out meanwhile.
    pub fn receive(&mut self, until: Instant) -> Result<Option<(SocketAddr, Vec<u8>)>> {
        let mut room = [0; ROOM];
        loop {
            let now = Instant::now();
            self.send_due(now);
            if now >= until {
                return Ok(None);
            }
            let next = self.next_due().map_or(until, |due| due.min(until));
            let wait = next.saturating_duration_since(now).max(Duration::from_millis(1));
            self.socket.set_read_timeout(Some(wait)).map_err(said(Path::new("the socket")))?;
            match self.socket.recv_from(&mut room) {
                Ok((length, from)) => return Ok(Some((from, room[..length].to_vec()))),
                Err(why) if passes(why.kind()) => {}
                Err(why) => return Err(format!("the socket: {why}")),
            }
        }
    }

    /// Waits till all datagrams have gone out.
    pub fn drain(&mut self) {
        while let Some(due) = self.next_due() {
            std::thread::sleep(due.saturating_duration_since(Instant::now()));
            self.send_due(Instant::now());
        }
    }

    fn next_due(&self) -> Option<Instant> {
        self.late.iter().map(|late| late.due).min()
    }

    /// A datagram that the system doesn't take is lost.
    fn send_due(&mut self, now: Instant) {
        for late in self.late.extract_if(.., |late| late.due <= now) {
            _ = self.socket.send_to(&late.bytes, late.to);
        }
    }
}

/// Whether one may try again after this. Being told that an earlier datagram reached nobody is no trouble.
fn passes(kind: ErrorKind) -> bool {
    use ErrorKind::*;
    matches!(kind, WouldBlock | TimedOut | Interrupted | ConnectionRefused | ConnectionReset)
}

#[cfg(test)]
mod tests {
    use super::*;

    #[test]
    fn the_loopback_alone_is_used() {
        assert_eq!(Ports::read("47100").unwrap().server(2).to_string(), "127.0.0.1:47102");
        assert_eq!(Ports::read("127.0.0.1:47100").unwrap().base(), 47100);
        for wrong in ["0.0.0.0:47100", "[::1]:47100", "localhost:47100", ":47100", "80", "65001", "x", ""] {
            assert!(Ports::read(wrong).is_err(), "{wrong}");
        }
        let everywhere = SocketAddr::from((Ipv4Addr::UNSPECIFIED, 0));
        assert!(Network::at(everywhere, Faults::none()).is_err());
    }

    #[test]
    fn a_delayed_datagram_comes_later() {
        let mut to = Network::anywhere(Faults::none()).unwrap();
        let mut from = Network::anywhere(Faults { double: 100, delay: 20, ..Faults::none() }).unwrap();
        from.send(to.socket.local_addr().unwrap(), b"twice");
        from.drain();
        let until = Instant::now() + Duration::from_secs(5);
        let came = std::iter::from_fn(|| to.receive(until).unwrap()).map(|(_, bytes)| bytes);
        assert_eq!(came.take(2).collect::<Vec<_>>(), [b"twice", b"twice"]);
        assert_eq!(to.receive(Instant::now()), Ok(None));
    }
}
