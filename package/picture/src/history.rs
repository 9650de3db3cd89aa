//! A history: what begins and ends, by whom and when, who crashes and which servers come back.

/// A board as far as its length; the zeros after it are left out.
pub type Board = Vec<u8>;

#[derive(Clone, Copy, Debug, PartialEq, Eq, Hash)]
pub struct Tag {
    pub number: u32,
    pub client: u8,
}

pub const START: Tag = Tag { number: 0, client: 0 };

/// What tags compare by: the number, then the rank of the tag's client, then the client number.
pub type Key = (u32, u8, u8);

/// What a begin asks for.
#[derive(Clone, Debug, PartialEq)]
pub enum Call {
    Write(Board),
    Read,
}

/// How an operation ends.
#[derive(Clone, Debug, PartialEq)]
pub enum Outcome {
    Written(Tag),
    Spent,
    Read(Tag, Board),
}

#[derive(Clone, Debug, PartialEq)]
pub struct End {
    pub time: usize,
    pub outcome: Outcome,
}

#[derive(Clone, Debug, PartialEq)]
pub struct Operation {
    pub client: u8,
    pub call: Call,
    pub begin: usize,
    /// None of one that is unended.
    pub end: Option<End>,
}

impl Operation {
    pub fn outcome(&self) -> Option<&Outcome> {
        self.end.as_ref().map(|end| &end.outcome)
    }

    pub fn is_write(&self) -> bool {
        matches!(self.call, Call::Write(_))
    }

    pub fn is_spent(&self) -> bool {
        self.outcome() == Some(&Outcome::Spent)
    }

    /// Whether an order may have it: spent operations and unended reads are in none.
    pub fn in_orders(&self) -> bool {
        !self.is_spent() && (self.is_write() || self.end.is_some())
    }

    /// The board that a write brings or a read shows.
    pub fn board(&self) -> Option<&Board> {
        match (&self.call, self.outcome()) {
            (Call::Write(board), _) | (Call::Read, Some(Outcome::Read(_, board))) => Some(board),
            (Call::Read, _) => None,
        }
    }

    /// The tag that it ends with.
    pub fn tag(&self) -> Option<Tag> {
        match self.outcome() {
            Some(Outcome::Written(tag) | Outcome::Read(tag, _)) => Some(*tag),
            _ => None,
        }
    }
}

#[derive(Clone, Copy, Debug, PartialEq)]
pub enum Party {
    Server(u8),
    Client(u8),
}

#[derive(Clone, Copy, Debug, PartialEq)]
pub struct Crash {
    pub time: usize,
    pub party: Party,
}

#[derive(Clone, Copy, Debug, PartialEq)]
pub struct Restart {
    pub time: usize,
    pub server: u8,
}

#[derive(Clone, Debug, Default)]
pub struct History {
    /// Where it comes from, in a few words.
    pub about: String,
    /// None where the starting board is unknown.
    pub start: Option<Board>,
    /// Those of clients 1, 2 and so on; a client without one has rank 0.
    pub ranks: Vec<u8>,
    /// By begin.
    pub operations: Vec<Operation>,
    pub crashes: Vec<Crash>,
    pub restarts: Vec<Restart>,
}

impl History {
    pub fn rank(&self, client: u8) -> u8 {
        let place = (client as usize).checked_sub(1);
        place.and_then(|place| self.ranks.get(place)).copied().unwrap_or(0)
    }

    pub fn key(&self, tag: Tag) -> Key {
        (tag.number, self.rank(tag.client), tag.client)
    }

    /// If the client's last operation has not ended, it stays unended.
    pub fn begin(&mut self, time: usize, client: u8, call: Call) {
        self.operations.push(Operation { client, call, begin: time, end: None });
    }

    /// The outcome is one of the operation that the client began last, and a write's tag is of its own client.
    pub fn end(&mut self, time: usize, client: u8, outcome: Outcome) -> Result<(), String> {
        let Some(operation) = self.open(client) else {
            return Err(format!("client {client} ends an operation and has begun none"));
        };
        let of_write = matches!(operation.call, Call::Write(_));
        match &outcome {
            Outcome::Written(_) if !of_write => {
                return Err(format!("client {client} reads and ends written"))
            }
            Outcome::Read(..) if of_write => {
                return Err(format!("client {client} writes and ends with a read"))
            }
            Outcome::Written(tag) if tag.client != client || tag.number == 0 => {
                return Err(format!("client {client} can't write with tag {} {}", tag.number, tag.client));
            }
            _ => operation.end = Some(End { time, outcome }),
        }
        Ok(())
    }

    /// The client's unended operation.
    fn open(&mut self, client: u8) -> Option<&mut Operation> {
        let last = self.operations.iter_mut().rev().find(|operation| operation.client == client);
        last.filter(|operation| operation.end.is_none())
    }

    /// Clients that begin or crash, rising.
    pub fn clients(&self) -> Vec<u8> {
        let crashed = self.crashes.iter().filter_map(|crash| match crash.party {
            Party::Client(client) => Some(client),
            Party::Server(_) => None,
        });
        let mut clients: Vec<u8> = self.operations.iter().map(|o| o.client).chain(crashed).collect();
        clients.sort();
        clients.dedup();
        clients
    }

    /// When a client crashes, which it does at most once.
    pub fn crash_of(&self, client: u8) -> Option<usize> {
        self.crashes.iter().find(|crash| crash.party == Party::Client(client)).map(|crash| crash.time)
    }
}

#[cfg(test)]
mod tests {
    use super::*;

    #[test]
    fn an_end_is_of_the_last_operation() {
        let mut history = History::default();
        history.begin(1, 2, Call::Read);
        history.begin(2, 1, Call::Read);
        history.begin(3, 2, Call::Read);
        history.end(4, 2, Outcome::Spent).unwrap();
        assert!(history.end(5, 2, Outcome::Spent).is_err());
        let ended: Vec<bool> = history.operations.iter().map(|operation| operation.end.is_some()).collect();
        assert_eq!(ended, [false, false, true]);
        assert_eq!(history.clients(), [1, 2]);
    }

    #[test]
    fn an_outcome_is_one_of_its_call() {
        let mut history = History::default();
        history.begin(1, 1, Call::Read);
        history.begin(2, 2, Call::Write(vec![7]));
        let own = |client| Outcome::Written(Tag { number: 1, client });
        assert!(history.end(3, 1, own(1)).is_err());
        assert!(history.end(3, 2, Outcome::Read(START, vec![])).is_err());
        assert!(history.end(3, 2, own(1)).is_err());
        assert!(history.end(3, 2, Outcome::Written(Tag { number: 0, client: 2 })).is_err());
        history.end(3, 2, own(2)).unwrap();
    }

    #[test]
    fn ranks_come_before_client_numbers() {
        let history = History { ranks: vec![1, 0], ..History::default() };
        let key = |number, client| history.key(Tag { number, client });
        assert!(key(1, 1) > key(1, 2) && key(2, 2) > key(1, 1) && key(1, 2) > key(0, 0));
        assert_eq!(history.rank(9), 0);
    }
}
