//! The number that a call must answer, from the documents' questions and the header's layouts alone.

use crate::call::{Call, Which};

/// The configuration as numbers.
pub struct Numbers {
    pub n: usize,
    pub k: usize,
    pub d: usize,
    pub e: usize,
    pub c: usize,
    ranks: Vec<u8>,
}

/// What 6 asks beyond lengths.
enum State {
    None,
    Server,
    Client,
}

fn ask(yes: bool, number: u8) -> Result<(), u8> {
    if yes {
        Ok(())
    } else {
        Err(number)
    }
}

fn word(bytes: &[u8], at: usize) -> u32 {
    u32::from_le_bytes([bytes[at], bytes[at + 1], bytes[at + 2], bytes[at + 3]])
}

fn half(bytes: &[u8], at: usize) -> usize {
    usize::from(u16::from_le_bytes([bytes[at], bytes[at + 1]]))
}

fn zero(bytes: &[u8]) -> bool {
    bytes.iter().all(|byte| *byte == 0)
}

impl Numbers {
    /// 6 for another length, then questions 1 to 5 and 21.
    pub fn of(bytes: &[u8]) -> Result<Numbers, u8> {
        ask(bytes.len() == 21, 6)?;
        let [n, k, d, e, c] = std::array::from_fn(|i| usize::from(bytes[i]));
        ask((1..=16).contains(&n), 1)?;
        ask((1..=n).contains(&k), 2)?;
        ask(d <= 7, 3)?;
        ask((1..=64).contains(&e), 4)?;
        ask((1..=16).contains(&c), 5)?;
        let ranks = bytes[5..5 + c].to_vec();
        ask(ranks.iter().all(|rank| *rank <= 3), 21)?;
        Ok(Numbers { n, k, d, e, c, ranks })
    }

    pub fn v(&self) -> usize {
        self.k * self.e
    }

    fn server(&self, number: u8) -> bool {
        (1..=self.n).contains(&number.into())
    }

    fn client(&self, number: u8) -> bool {
        (1..=self.c).contains(&number.into())
    }

    /// A tag is (0, 0), or has no 0 and a client that is there.
    fn allowed(&self, number: u32, client: u8) -> bool {
        if number == 0 {
            client == 0
        } else {
            self.client(client)
        }
    }

    fn key(&self, (number, client): (u32, u8)) -> (u32, u8, u8) {
        let rank = usize::from(client).checked_sub(1).map_or(0, |place| self.ranks[place]);
        (number, rank, client)
    }

    /// A set of servers: bits 1 to N alone.
    fn set(&self, bits: u32) -> bool {
        (0..32).all(|s| bits >> s & 1 == 0 || (1..=self.n).contains(&s))
    }

    /// Question 6 of a server's state.
    pub fn is_server(&self, state: &[u8]) -> bool {
        if state.len() != 88 {
            return false;
        }
        let rows: Vec<&[u8]> = state.chunks(8).collect();
        let (count, floor) = (usize::from(state[1]), state[2] == 1);
        let tag = |row: &[u8]| (word(row, 0), row[4]);
        let plain =
            |row: &[u8]| self.allowed(word(row, 0), row[4]) && row[7] == 0 && half(row, 5) <= self.v();
        if !self.server(state[0]) || state[2] > 1 || !zero(&state[3..8]) || count > self.d + 1 {
            return false;
        }
        let (stored, rest) = rows[3..].split_at(count);
        let tags: Vec<(u32, u8)> = stored.iter().map(|row| tag(row)).collect();
        let once = tags.iter().enumerate().all(|(i, t)| !tags[..i].contains(t));
        let marks = [rows[1], rows[2]].iter().all(|row| plain(row) && half(row, 5) == 0);
        if !marks || !once || !stored.iter().all(|row| plain(row)) || !rest.iter().all(|row| zero(row)) {
            return false;
        }
        if !floor {
            return zero(rows[2]);
        }
        count == self.d + 1 && tags.iter().all(|t| self.key(*t) > self.key(tag(rows[2])))
    }

    /// Question 6 of a client's state.
    pub fn is_client(&self, state: &[u8]) -> bool {
        if state.len() != 56 || !self.client(state[0]) || state[3] != 0 || state[15] != 0 {
            return false;
        }
        let (phase, writes, kept) = (state[1], state[2], half(state, 13));
        let (counted, sent) = (word(state, 16), word(state, 20));
        if matches!(phase, 0 | 5) {
            return writes == 0 && zero(&state[8..]);
        }
        let asks = phase == 1;
        let lengths = (1..=16).all(|s| {
            let length = half(state, 22 + 2 * s);
            if sent >> s & 1 == 1 {
                length <= self.v()
            } else {
                length == 0
            }
        });
        phase <= 4
            && (writes == 0 || asks && writes == 1)
            && (if writes == 1 { kept <= self.v() } else { kept == 0 })
            && self.allowed(word(state, 8), state[12])
            && self.set(counted)
            && (if phase == 4 { self.set(sent) } else { sent == 0 })
            && lengths
    }

    /// Question 12.
    pub fn is_record(&self, r: &[u8]) -> bool {
        let (kind, present, length) = (r[0], r[3], half(r, 13));
        let element = &r[16..];
        let kinds = match kind {
            1 => word(r, 8) == 0 && present == 0,
            3 => r[12] == r[1] && present == 1,
            4..=6 => r[12] == r[1] && present == 0,
            8 => present <= 1,
            2 | 7 | 9 => present == 0,
            _ => false,
        };
        let fits = if present == 1 {
            length <= self.v() && zero(&element[self.e..])
        } else {
            length == 0 && zero(element)
        };
        let parties = self.client(r[1]) && self.server(r[2]) && self.allowed(word(r, 8), r[12]);
        kinds && fits && parties && word(r, 4) >= 1 && r[15] == 0
    }
}

/// The number, or 0.
pub fn number(call: &Call) -> u8 {
    asked(call).err().unwrap_or(0)
}

fn asked(call: &Call) -> Result<(), u8> {
    let cfg = Numbers::of(&call.parts[0])?;
    let parts = &call.parts;
    let (due, state) = due(&cfg, call);
    ask(parts[1..].iter().zip(&due).all(|(part, length)| part.len() == *length), 6)?;
    match state {
        State::None => {}
        State::Server => ask(cfg.is_server(&parts[1]), 6)?,
        State::Client => ask(cfg.is_client(&parts[1]), 6)?,
    }
    match call.which {
        Which::Lengths | Which::ServerElement => Ok(()),
        Which::ServerFresh => ask(cfg.server(call.party), 8),
        Which::ClientFresh => ask(cfg.client(call.party), 8),
        Which::ServerStep => server_step(&cfg, &parts[1], &parts[2]),
        Which::ClientStep => client_step(&cfg, &parts[1], &parts[2]),
        Which::ClientWrite => {
            ask(usize::from(call.number as u16) <= cfg.v(), 19)?;
            begins(&parts[1])
        }
        Which::ClientRead => begins(&parts[1]),
        Which::Encode => ask(cfg.server(call.party), 18),
        Which::EncodeAll => ask(call.places[0] as u128 + cfg.e as u128 <= call.places[1] as u128, 6),
        Which::Decode => decode(&cfg, &parts[1]),
    }
}

/// The lengths due after the configuration's, and whose state comes first.
fn due(cfg: &Numbers, call: &Call) -> (Vec<usize>, State) {
    let (e, v, store, elements, sends) = (cfg.e, cfg.v(), (cfg.d + 1) * cfg.e, cfg.n * cfg.e, 80 * cfg.n);
    match call.which {
        Which::Lengths => (vec![], State::None),
        Which::ServerFresh => (vec![e, 88, store], State::None),
        Which::ServerStep => (vec![88, 80, store, 80], State::Server),
        Which::ServerElement => (vec![88, store], State::Server),
        Which::ClientFresh => (vec![56], State::None),
        Which::ClientWrite => (vec![56, v, v, sends], State::Client),
        Which::ClientRead => (vec![56, sends], State::Client),
        Which::ClientStep => (vec![56, 80, v, elements, sends, v, 12], State::Client),
        Which::Encode => (vec![v, e], State::None),
        // No buffer is as long as the largest number.
        Which::EncodeAll => (vec![v, cfg.n.saturating_mul(call.places[1])], State::None),
        Which::Decode => (vec![call.parts[1].len(), call.parts[1].len() * e, v], State::None),
    }
}

fn server_step(cfg: &Numbers, state: &[u8], r: &[u8]) -> Result<(), u8> {
    ask(cfg.is_record(r), 12)?;
    ask(r[2] == state[0] && matches!(r[0], 1 | 3 | 5 | 7), 16)
}

fn client_step(cfg: &Numbers, state: &[u8], r: &[u8]) -> Result<(), u8> {
    ask(cfg.is_record(r), 12)?;
    ask(r[1] == state[0] && matches!(r[0], 2 | 4 | 6 | 8 | 9), 16)?;
    let kind = match state[1] {
        1 => 2,
        2 => 4,
        3 => 6,
        4 => 8,
        _ => return Err(14),
    };
    let (judged, counted) = (if r[0] == 9 { 8 } else { r[0] }, word(state, 16));
    let same_tag = kind == 2 || r[8..13] == state[8..13];
    ask(judged == kind && r[4..8] == state[4..8] && counted >> r[2] & 1 == 0 && same_tag, 14)
}

fn begins(state: &[u8]) -> Result<(), u8> {
    ask(state[1] != 5, 9)?;
    ask(state[1] == 0, 10)?;
    ask(word(state, 4) < u32::MAX, 11)
}

fn decode(cfg: &Numbers, servers: &[u8]) -> Result<(), u8> {
    let rising = servers.windows(2).all(|pair| pair[0] < pair[1]);
    ask(rising && servers.iter().all(|s| cfg.server(*s)), 17)?;
    ask(servers.len() >= cfg.k, 18)
}
