use crate::refusal::{Refusal, SHAPE};
use std::fmt;

/// A version of the board: a number and the client that wrote it. The starting board has (0, 0). Which of two
/// tags is the later one goes by the number, then by the client's rank, then by the client, so it takes a
/// configuration to tell.
#[derive(Clone, Copy, Debug, PartialEq, Eq, Hash)]
pub struct Tag {
    /// Its count.
    pub number: u32,
    /// The client that wrote this version.
    pub client: u8,
}

/// A message between a client and a server, 80 bytes. They may be anything: the step that a record is handed
/// to says whether it is well formed.
#[derive(Clone, Copy, PartialEq, Eq, Hash)]
pub struct Record([u8; 80]);

impl Record {
    /// From 80 bytes; another length gets 6.
    pub fn from_bytes(bytes: &[u8]) -> Result<Record, Refusal> {
        bytes.try_into().map(Record).map_err(|_| SHAPE)
    }

    /// The bytes, as they go over a network.
    pub fn bytes(&self) -> &[u8; 80] {
        &self.0
    }

    /// What it is: 1 query, 3 pre-write, 5 write finalise, 7 read finalise, for a server; 2, 4, 6 and 8 their
    /// answers, 9 that an element was cleared, for a client.
    pub fn kind(&self) -> u8 {
        self.0[0]
    }

    /// The client that it is from or for.
    pub fn client(&self) -> u8 {
        self.0[1]
    }

    /// The server that it is for or from.
    pub fn server(&self) -> u8 {
        self.0[2]
    }

    /// The client's operation number.
    pub fn operation(&self) -> u32 {
        u32::from_le_bytes([self.0[4], self.0[5], self.0[6], self.0[7]])
    }

    /// Its tag.
    pub fn tag(&self) -> Tag {
        let number = u32::from_le_bytes([self.0[8], self.0[9], self.0[10], self.0[11]]);
        Tag { number, client: self.0[12] }
    }

    /// Room for an answer.
    pub(crate) fn blank() -> Record {
        Record([0; 80])
    }

    /// The bytes, to write.
    pub(crate) fn lent(&mut self) -> &mut [u8] {
        &mut self.0
    }

    /// The first `count` records of a client's sends.
    pub(crate) fn first(sends: &[u8], count: u8) -> Vec<Record> {
        sends.chunks_exact(80).take(count.into()).flat_map(Record::from_bytes).collect()
    }
}

impl fmt::Debug for Record {
    fn fmt(&self, f: &mut fmt::Formatter<'_>) -> fmt::Result {
        f.debug_struct("Record")
            .field("kind", &self.kind())
            .field("client", &self.client())
            .field("server", &self.server())
            .field("operation", &self.operation())
            .field("tag", &self.tag())
            .finish_non_exhaustive()
    }
}
