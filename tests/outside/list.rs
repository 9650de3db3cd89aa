//! A list of events as a program is handed it.

use crate::model::{Config, Event};
use crate::programs;
use crate::ties::mixed;

/// What a program is handed, and what the model knows beyond the lines that it prints.
#[derive(Clone)]
pub struct List {
    /// For `simulate`; else for `board`.
    pub general: bool,
    pub input: Vec<u8>,
    pub config: Config,
    /// The starting boards, joined.
    pub start: Vec<u8>,
    /// The client that each event's answer names, or 0.
    pub named: Vec<u8>,
}

impl List {
    /// One with no events as yet.
    pub fn new(general: bool, config: Config, start: Vec<u8>) -> List {
        let input = if general { [head(&config), start.clone()].concat() } else { vec![] };
        List { general, input, config, start, named: vec![] }
    }

    pub fn events(&self) -> impl Iterator<Item = Event<'_>> {
        let head = if self.general { head(&self.config).len() + self.start.len() } else { 0 };
        let numbered = self.general;
        let records = self.input[head..].chunks_exact(6 + numbered as usize + self.config.v());
        records.map(move |record| programs::event(record, numbered))
    }

    /// Puts an event to the end, and the client that its answer names.
    pub fn put(&mut self, event: &Event, named: u8) {
        self.input.extend([event.code, event.party]);
        self.input.extend((event.position as u16).to_le_bytes());
        self.input.extend(self.general.then_some(event.board));
        self.input.extend(event.bytes);
        self.input.extend((event.length as u16).to_le_bytes());
        self.named.push(named);
    }

    /// The starting board of a board.
    pub fn start_of(&self, board: u8) -> &[u8] {
        let v = self.config.v();
        &self.start[(board as usize - 1) * v..board as usize * v]
    }

    /// What the model prints.
    pub fn lines(&self) -> String {
        let mut out = vec![];
        let run = if self.general {
            programs::simulate(&mut &self.input[..], &mut out)
        } else {
            programs::board(&mut &self.input[..], &mut out)
        };
        run.expect("lines to memory");
        String::from_utf8(out).expect("lines are text")
    }

    /// The same list with each of its clients at this rank. Where ranks were mixed the answers may be others, and
    /// nothing is known of the clients that they name.
    pub fn at_rank(&self, rank: u8) -> List {
        let named = if mixed(&self.config) { vec![] } else { self.named.clone() };
        List { named, ..self.made_with(ranked(self.config, &vec![rank; self.config.c])) }
    }

    /// A list of one board with this share.
    pub fn at_share(&self, share: usize) -> List {
        self.made_with(shared(self.config, &[share]))
    }

    /// The same events for `simulate`, in a rig of this configuration.
    fn made_with(&self, config: Config) -> List {
        let mut list = List::new(true, config, self.start.clone());
        let after = if self.general { head(&self.config).len() + self.start.len() } else { 0 };
        list.input.extend(numbered(&self.input[after..], self.general, config.v()));
        List { named: self.named.clone(), ..list }
    }
}

/// Records with their board's number, which is 1 where they have none.
fn numbered(records: &[u8], already: bool, v: usize) -> Vec<u8> {
    if already {
        return records.to_vec();
    }
    let with_number = |record: &[u8]| match record.split_at_checked(4) {
        Some((head, rest)) => [head, &[1], rest].concat(),
        None => record.to_vec(),
    };
    records.chunks(6 + v).flat_map(with_number).collect()
}

/// The same with these ranks, from client 1 on.
pub fn ranked(config: Config, ranks: &[u8]) -> Config {
    Config { ranks: std::array::from_fn(|place| ranks.get(place).copied().unwrap_or(0)), ..config }
}

/// The same with as many boards as there are shares.
pub fn shared(config: Config, shares: &[usize]) -> Config {
    let of = std::array::from_fn(|place| shares.get(place).copied().unwrap_or(0));
    Config { boards: shares.len(), shares: of, ..config }
}

/// The header and the ranks.
pub fn ranks_head(config: &Config) -> Vec<u8> {
    let [n, k, d, e, c] = [config.n, config.k, config.d, config.e, config.c].map(|x| x as u8);
    let ranks = &config.ranks[..config.c.min(16)];
    [&[n, k, d, e, c], &(config.m as u16).to_le_bytes()[..], ranks].concat()
}

/// What comes before the starting boards: the header, the ranks, the number of boards and their shares.
pub fn head(config: &Config) -> Vec<u8> {
    let shares = config.shares.iter().take(config.boards).flat_map(|share| (*share as u16).to_le_bytes());
    [ranks_head(config), vec![config.boards as u8], shares.collect()].concat()
}
