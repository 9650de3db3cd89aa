use crate::calls;
use crate::refusal::{Refusal, SHAPE};

/// What all servers and clients of a board have in common: N servers, numbered from 1; the elements of any k
/// of them give the board back; a server keeps the elements of D + 1 versions; an element has E bytes; C
/// clients, numbered from 1, each with a rank. A board has up to k × E bytes.
#[derive(Clone, Debug, PartialEq, Eq)]
pub struct Config {
    bytes: [u8; 21],
    board: usize,
    store: usize,
    elements: usize,
    sends: usize,
}

impl Config {
    /// N 1 to 16, k 1 to N, D 0 to 7, E 1 to 64, C 1 to 16; ranks 0 to 3, of client 1, 2 and so on. A client
    /// past the end of the ranks has rank 0, and ranks past client C are not looked at.
    pub fn new(n: u8, k: u8, d: u8, e: u8, c: u8, ranks: &[u8]) -> Result<Config, Refusal> {
        let mut bytes = [0; 21];
        let given = [n, k, d, e, c].into_iter().chain(ranks.iter().copied().take(c.into()));
        for (byte, value) in bytes.iter_mut().zip(given) {
            *byte = value;
        }
        let (mut board, mut store, mut elements, mut sends) = (0, 0, 0, 0);
        Refusal::told(calls::lengths(&bytes, &mut board, &mut store, &mut elements, &mut sends))?;
        Ok(Config { bytes, board, store, elements, sends })
    }

    /// From the 21 bytes that [`bytes`](Config::bytes) gives.
    pub fn from_bytes(bytes: &[u8]) -> Result<Config, Refusal> {
        match bytes {
            [n, k, d, e, c, ranks @ ..] if ranks.len() == 16 => Config::new(*n, *k, *d, *e, *c, ranks),
            _ => Err(SHAPE),
        }
    }

    /// N, k, D, E and C, then the ranks of clients 1 to 16, zero past C. Equal configurations have equal
    /// bytes.
    pub fn bytes(&self) -> &[u8; 21] {
        &self.bytes
    }

    /// Servers.
    pub fn n(&self) -> u8 {
        self.bytes[0]
    }

    /// Elements that give a board back.
    pub fn k(&self) -> u8 {
        self.bytes[1]
    }

    /// A server keeps the elements of D + 1 versions.
    pub fn d(&self) -> u8 {
        self.bytes[2]
    }

    /// Bytes in an element.
    pub fn e(&self) -> u8 {
        self.bytes[3]
    }

    /// Clients.
    pub fn c(&self) -> u8 {
        self.bytes[4]
    }

    /// The rank of client c; 0 if there is no such client.
    pub fn rank(&self, c: u8) -> u8 {
        let mut ranks = self.bytes.iter().skip(5).take(self.c().into());
        let place = usize::from(c).checked_sub(1);
        place.and_then(|place| ranks.nth(place)).copied().unwrap_or(0)
    }

    /// The answers that a phase of an operation needs: (N + k) / 2, rounded up.
    pub fn quorum(&self) -> usize {
        (usize::from(self.n()) + usize::from(self.k())).div_ceil(2)
    }

    /// The most bytes in a board, k × E.
    pub fn board_length(&self) -> usize {
        self.board
    }

    /// Bytes in a server's store.
    pub fn store_length(&self) -> usize {
        self.store
    }

    /// Bytes in the elements that a client has received.
    pub fn elements_length(&self) -> usize {
        self.elements
    }

    /// Bytes in a client's sends.
    pub(crate) fn sends_length(&self) -> usize {
        self.sends
    }
}
