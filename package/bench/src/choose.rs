//! What a configuration costs: rows of a table for choosing N, k and D, measured on servers and clients of
//! `coded_board`, and held to the formulas in `due`.
//!
//!     cargo run -q --release --offline --manifest-path package/Cargo.toml --bin choose [N k D BOARD]
//!
//! BOARD is how many bytes the longest board is to have. Without numbers the rows are those of the README.

use coded_board::{Client, Config, Ended, Record, Refusal, Server};
use std::collections::VecDeque;
use std::fmt;
use std::process::ExitCode;

/// N and k of the README's rows.
const PAIRS: [[u8; 2]; 6] = [[3, 1], [5, 3], [5, 1], [7, 5], [9, 5], [16, 8]];
const DEPTH: u8 = 2;
const BOARD: usize = 60;

/// What was sent, by clients and by servers.
#[derive(Debug, Default, PartialEq)]
struct Sent {
    records: usize,
    bytes: usize,
}

impl fmt::Display for Sent {
    fn fmt(&self, f: &mut fmt::Formatter<'_>) -> fmt::Result {
        write!(f, "{} records, {} bytes", self.records, self.bytes)
    }
}

#[derive(Debug, PartialEq)]
struct Cost {
    /// The fewest servers with which operations end.
    quorum: usize,
    /// Bytes in the longest board, if elements have as many bytes as they can.
    longest: usize,
    /// Bytes of elements at a server, and at all of them.
    store: usize,
    stores: usize,
    /// With all servers up and nothing lost.
    write: Sent,
    read: Sent,
    /// Writes that a read may be overtaken by, between its two phases, without asking again.
    overtaken: usize,
}

/// By the formulas.
fn due(config: &Config) -> Cost {
    let [n, k, d, e] = [config.n(), config.k(), config.d(), config.e()].map(usize::from);
    let phases = |count: usize| Sent { records: 2 * count * n, bytes: 2 * count * n * 80 };
    Cost {
        quorum: (n + k).div_ceil(2),
        longest: 64 * k,
        store: (d + 1) * e,
        stores: n * (d + 1) * e,
        write: phases(3),
        read: phases(2),
        overtaken: d,
    }
}

/// By the crate.
fn measured(config: &Config) -> Result<Cost, Refusal> {
    let mut rig = Rig::fresh(config)?;
    let (_, write) = rig.write()?;
    let (_, read) = rig.read()?;
    let stores: Vec<usize> = rig.servers.iter().flatten().map(|server| server.store().len()).collect();
    let mut quorum = 1;
    while quorum <= config.n().into() && !ends(config, quorum)? {
        quorum += 1;
    }
    let mut overtaken = 0;
    while overtaken < 9 && !asks_again(config, overtaken + 1)? {
        overtaken += 1;
    }
    let longest = longest(config.n(), config.k())?;
    Ok(Cost { quorum, longest, store: stores[0], stores: stores.iter().sum(), write, read, overtaken })
}

/// The board's length with the widest elements there are.
fn longest(n: u8, k: u8) -> Result<usize, Refusal> {
    let mut made = Config::new(n, k, 0, 1, 1, &[])?;
    while let Ok(wider) = Config::new(n, k, 0, made.e() + 1, 1, &[]) {
        made = wider;
    }
    Ok(made.board_length())
}

/// Whether a write and a read end while so many servers are up, the first ones or the last.
fn ends(config: &Config, up: usize) -> Result<bool, Refusal> {
    let down = usize::from(config.n()) - up;
    for crashed in [0..down, up..up + down] {
        let mut rig = Rig::fresh(config)?;
        rig.servers[crashed].fill_with(|| None);
        let (written, _) = rig.write()?;
        let (read, _) = rig.read()?;
        if written == Ended::Nothing || read == Ended::Nothing {
            return Ok(false);
        }
    }
    Ok(true)
}

/// Whether a read asks again that so many writes overtake after it has asked. It ends in both cases.
fn asks_again(config: &Config, writes: usize) -> Result<bool, Refusal> {
    let mut rig = Rig::fresh(config)?;
    let (first, _) = rig.write()?;
    let mut finalises = vec![];
    for query in rig.reader.read()? {
        if let Some(answer) = rig.server(&query)? {
            finalises.extend(rig.client(&answer)?.0);
        }
    }
    for _ in 0..writes {
        rig.write()?;
    }
    match (first, rig.carry(finalises)?.0) {
        (Ended::Written(first), Ended::Read(shown, _)) => Ok(first != shown),
        other => panic!("a write and a read that end: {other:?}"),
    }
}

/// Servers, of which some may be down, and two clients.
struct Rig {
    servers: Vec<Option<Server>>,
    writer: Client,
    reader: Client,
}

impl Rig {
    fn fresh(config: &Config) -> Result<Rig, Refusal> {
        let start = vec![0; config.board_length()];
        let servers =
            (1..=config.n()).map(|s| Server::fresh(config, s, &start).map(Some)).collect::<Result<_, _>>()?;
        Ok(Rig { servers, writer: Client::fresh(config, 1)?, reader: Client::fresh(config, 2)? })
    }

    fn write(&mut self) -> Result<(Ended, Sent), Refusal> {
        let sends = self.writer.write(b"")?;
        self.carry(sends)
    }

    fn read(&mut self) -> Result<(Ended, Sent), Refusal> {
        let sends = self.reader.read()?;
        self.carry(sends)
    }

    /// Carries records and what they lead to, in the order of sending, till nothing is left.
    fn carry(&mut self, sends: Vec<Record>) -> Result<(Ended, Sent), Refusal> {
        let (mut ended, mut sent, mut flight) = (Ended::Nothing, Sent::default(), VecDeque::from(sends));
        while let Some(record) = flight.pop_front() {
            sent.records += 1;
            sent.bytes += record.bytes().len();
            if matches!(record.kind(), 1 | 3 | 5 | 7) {
                flight.extend(self.server(&record)?);
            } else {
                let (sends, how) = self.client(&record)?;
                flight.extend(sends);
                ended = if how == Ended::Nothing { ended } else { how };
            }
        }
        Ok((ended, sent))
    }

    /// A server's answer, if it is up.
    fn server(&mut self, record: &Record) -> Result<Option<Record>, Refusal> {
        let server = &mut self.servers[usize::from(record.server()) - 1];
        server.as_mut().map(|server| server.step(record)).transpose()
    }

    /// What a client sends, and how its operation ended. An answer that is not awaited (14) leads to nothing.
    fn client(&mut self, record: &Record) -> Result<(Vec<Record>, Ended), Refusal> {
        let client = if record.client() == 1 { &mut self.writer } else { &mut self.reader };
        match client.step(record) {
            Ok(step) => Ok((step.sends, step.ended)),
            Err(no) if no.number() == 14 => Ok((vec![], Ended::Nothing)),
            Err(no) => Err(no),
        }
    }
}

/// The row of a configuration, if what was measured is what is due.
fn row(n: u8, k: u8, d: u8, board: usize) -> Result<String, String> {
    let e = u8::try_from(board.div_ceil(k.max(1).into())).unwrap_or(u8::MAX);
    let config = Config::new(n, k, d, e, 2, &[]).map_err(|no| no.to_string())?;
    let cost = measured(&config).map_err(|no| no.to_string())?;
    if cost != due(&config) {
        return Err(format!("{config:?}: measured {cost:?}, and {:?} is due", due(&config)));
    }
    let Cost { quorum, longest, store, stores, write, read, .. } = cost;
    let down = usize::from(n) - quorum;
    Ok(format!(
        "| {n}, {k} | {d} | {quorum} | {down} | {longest} | {e} | {store} | {stores} | {write} | {read} |"
    ))
}

fn table(words: &[String]) -> Result<String, String> {
    let numbers: Result<Vec<u16>, _> = words.iter().map(|word| word.parse()).collect();
    let small = |number: u16| u8::try_from(number).unwrap_or(u8::MAX);
    let (board, rows): (usize, Vec<[u8; 3]>) = match numbers.as_deref() {
        Ok([]) => (BOARD, PAIRS.map(|[n, k]| [n, k, DEPTH]).to_vec()),
        Ok([n, k, d, board]) => (usize::from(*board), vec![[small(*n), small(*k), small(*d)]]),
        _ => return Err("N, k, D and the bytes of a board, or nothing".to_string()),
    };
    let rows: Result<Vec<String>, String> = rows.into_iter().map(|[n, k, d]| row(n, k, d, board)).collect();
    let head = format!(
        "| N, k | D | q | may be down | longest board | E for {board} bytes | stored at a server | in all | a write | a read |"
    );
    Ok(format!("{head}\n|---|---|---|---|---|---|---|---|---|---|\n{}", rows?.join("\n")))
}

fn main() -> ExitCode {
    match table(&std::env::args().skip(1).collect::<Vec<_>>()) {
        Ok(table) => {
            println!("{table}");
            ExitCode::SUCCESS
        }
        Err(why) => {
            eprintln!("choose: {why}");
            ExitCode::FAILURE
        }
    }
}

#[cfg(test)]
mod tests {
    use super::*;

    #[test]
    fn the_formulas_hold_for_every_n_and_k() {
        for n in 1..=16 {
            for k in 1..=n {
                let config =
                    Config::new(n, k, (n + k) % 8, 1 + n * 3 % 64, 2, &[]).expect("numbers in range");
                assert_eq!(measured(&config), Ok(due(&config)), "{config:?}");
            }
        }
    }

    #[test]
    fn what_is_refused() {
        let refused = |words: &str| {
            let words: Vec<String> = words.split_whitespace().map(str::to_string).collect();
            table(&words).expect_err("a refusal")
        };
        assert!(refused("5 3 2").contains("nothing"));
        assert!(refused("5 3 2 x").contains("nothing"));
        assert!(refused("0 3 2 60").starts_with("1:"));
        assert!(refused("5 0 2 60").starts_with("2:"));
        assert!(refused("5 3 8 60").starts_with("3:"));
        assert!(refused("5 3 2 193").starts_with("4:"));
        assert!(refused("5 3 2 65535").starts_with("4:"));
    }
}
