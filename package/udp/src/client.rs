//! A client: all that it must not forget, in one file.
//!
//! The file's content, little-endian:
//! - the board's mark (8 bytes);
//! - the client's state (56), the board that it writes (k × E) and the elements received (N × E);
//! - how many records its phase has (1), 0 or N, and the records (80 × N, zeros if there are none);
//! - how its last operation ended, if nobody has been told yet (1): 0 nothing to tell, 1 written, 2 spent,
//!   3 read; the tag's number (4) and client (1), the length (2) and the board (k × E).

use crate::disk::Folder;
use crate::shared::Shared;
use crate::Result;
use coded_board::{Client, Ended, Record, Tag};
use std::path::Path;

const RECORD: usize = 80;

/// A client and the folder that it is kept in.
pub struct Kept {
    folder: Folder,
    shared: Shared,
    parts: Parts,
}

struct Parts {
    client: Client,
    sends: Vec<Record>,
    ended: Ended,
}

/// What came of an answer.
#[derive(Debug, PartialEq, Eq)]
pub enum Taken {
    /// It was not awaited, or no answer at all.
    Nothing,
    /// It was counted.
    Counted,
    /// It was counted, and there are new records to send.
    Sends,
    /// It was counted, and the operation has ended.
    Ended,
}

/// The content of a client's file at its very beginning.
pub fn fresh(shared: &Shared, number: u8) -> Result<Vec<u8>> {
    let client = Client::fresh(&shared.config, number).map_err(|no| format!("client {number}: {no}"))?;
    Ok(content(shared, &Parts { client, sends: vec![], ended: Ended::Nothing }))
}

impl Kept {
    /// From what was kept. A client whose file is missing or broken is refused, and never starts afresh.
    pub fn open(path: &Path, number: u8, shared: Shared) -> Result<Kept> {
        let folder = Folder::open(path)?;
        let parts = read(&folder.kept()?, &shared).filter(|parts| parts.client.number() == number);
        let parts =
            parts.ok_or_else(|| format!("{}: not of client {number} of this board", path.display()))?;
        Ok(Kept { folder, shared, parts })
    }

    /// The client's number.
    pub fn number(&self) -> u8 {
        self.parts.client.number()
    }

    /// What is to be sent, one record to each server in order, till the operation ends.
    pub fn sends(&self) -> &[Record] {
        &self.parts.sends
    }

    /// How the last operation ended, if nobody has been told yet.
    pub fn ended(&self) -> Option<&Ended> {
        Some(&self.parts.ended).filter(|ended| **ended != Ended::Nothing)
    }

    /// Whether an operation is open, or ended and not told.
    pub fn is_busy(&self) -> bool {
        !self.parts.client.is_idle() || self.ended().is_some()
    }

    /// Begins a write, or a read if there is nothing to write. `first` is called when the beginning is sure
    /// and before it is kept. What is to be sent is on the disk then.
    pub fn begin(&mut self, board: Option<&[u8]>, first: impl FnOnce() -> Result<()>) -> Result<()> {
        let begun = match board {
            Some(board) => self.parts.client.write(board),
            None => self.parts.client.read(),
        };
        self.parts.sends = begun.map_err(|no| format!("client {}: {no}", self.number()))?;
        first()?;
        self.keep()
    }

    /// Takes a server's answer. New records and an operation's end are on the disk when this returns. An
    /// answer that is only counted is not kept: a client that comes back without it is one that the answer
    /// has not reached.
    pub fn take(&mut self, answer: &Record) -> Result<Taken> {
        let Ok(step) = self.parts.client.step(answer) else { return Ok(Taken::Nothing) };
        let taken = match (&step.ended, step.sends.is_empty()) {
            (Ended::Nothing, true) => return Ok(Taken::Counted),
            (Ended::Nothing, false) => Taken::Sends,
            _ => Taken::Ended,
        };
        self.parts.sends = step.sends;
        self.parts.ended = step.ended;
        self.keep()?;
        Ok(taken)
    }

    /// Keeps that the end of the last operation has been told.
    pub fn told(&mut self) -> Result<()> {
        self.parts.ended = Ended::Nothing;
        self.keep()
    }

    fn keep(&self) -> Result<()> {
        self.folder.keep(&content(&self.shared, &self.parts))
    }
}

fn content(shared: &Shared, parts: &Parts) -> Vec<u8> {
    let (client, count) = (&parts.client, parts.sends.len());
    let mut bytes = [&shared.mark()[..], client.state(), client.kept(), client.elements()].concat();
    bytes.push(count as u8);
    parts.sends.iter().for_each(|record| bytes.extend(record.bytes()));
    let missing = usize::from(shared.config.n()).saturating_sub(count);
    bytes.resize(bytes.len() + RECORD * missing, 0);
    let none = Tag { number: 0, client: 0 };
    let (how, tag, board) = match &parts.ended {
        Ended::Nothing => (0, none, &[][..]),
        Ended::Written(tag) => (1, *tag, &[][..]),
        Ended::Spent => (2, none, &[][..]),
        Ended::Read(tag, board) => (3, *tag, &board[..]),
    };
    bytes.push(how);
    bytes.extend(tag.number.to_le_bytes());
    bytes.push(tag.client);
    bytes.extend((board.len() as u16).to_le_bytes());
    bytes.extend(board);
    bytes.resize(bytes.len() + shared.config.board_length() - board.len(), 0);
    bytes
}

fn read(content: &[u8], shared: &Shared) -> Option<Parts> {
    let config = &shared.config;
    let mut rest = content;
    let mut part = |length: usize| {
        let (part, after) = rest.split_at_checked(length)?;
        rest = after;
        Some(part)
    };
    let mark = part(8)?;
    let (state, board, elements) = (part(56)?, part(config.board_length())?, part(config.elements_length())?);
    let client = Client::from_parts(config, state, board, elements).ok()?;
    let (count, records) = (part(1)?[0], part(RECORD * usize::from(config.n()))?);
    let sends = records.chunks(RECORD).take(count.into()).flat_map(Record::from_bytes).collect();
    let ended = read_ended(part(8)?, part(config.board_length())?)?;
    let parts = Parts { client, sends, ended };
    (mark == shared.mark() && rest.is_empty() && agree(&parts, config.n())).then_some(parts)
}

fn read_ended(head: &[u8], board: &[u8]) -> Option<Ended> {
    let [how, n0, n1, n2, n3, client, low, high] = *head else { return None };
    let tag = Tag { number: u32::from_le_bytes([n0, n1, n2, n3]), client };
    let board = board.get(..u16::from_le_bytes([low, high]).into())?;
    match how {
        0 => Some(Ended::Nothing),
        1 => Some(Ended::Written(tag)),
        2 => Some(Ended::Spent),
        3 => Some(Ended::Read(tag, board.to_vec())),
        _ => None,
    }
}

/// An idle client has nothing to send. One that is not has a record of its own for each server, and no end to
/// tell.
fn agree(parts: &Parts, n: u8) -> bool {
    let Parts { client, sends, ended } = parts;
    if client.is_idle() {
        return sends.is_empty();
    }
    let own =
        |record: &Record| record.client() == client.number() && record.operation() == client.operation();
    let in_order = sends.iter().map(Record::server).eq(1..=n);
    *ended == Ended::Nothing && in_order && sends.iter().all(own)
}
