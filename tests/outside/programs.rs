//! The programs `board` and `simulate` over the model: bytes in, lines out.

use crate::model::{Answer, Config, Event, Rig, Tag};
use std::io::{self, BufReader, BufWriter, Read, Stdin, Stdout, Write};
use std::path::Path;
use std::process::exit;

/// Runs the program as which this one is called, if it is called as either.
pub fn main() -> bool {
    called("board", board) || called("simulate", simulate)
}

/// Runs a program from standard input to standard output, if this one is called by its name.
pub fn called(
    name: &str,
    program: impl FnOnce(&mut BufReader<Stdin>, &mut BufWriter<Stdout>) -> io::Result<()>,
) -> bool {
    let path = std::env::args().next().unwrap_or_default();
    if Path::new(&path).file_name() != Some(name.as_ref()) {
        return false;
    }
    let input = &mut BufReader::with_capacity(1 << 16, io::stdin());
    let out = &mut BufWriter::with_capacity(1 << 16, io::stdout());
    // A program stops where it can't read or write.
    if let Err(why) = program(input, out).and_then(|()| out.flush()) {
        eprintln!("{why}");
        exit(1)
    }
    true
}

/// Fills the buffer as far as the input goes; the count of bytes read.
pub fn take(input: &mut impl Read, buffer: &mut [u8]) -> io::Result<usize> {
    let mut got = 0;
    while got < buffer.len() {
        match input.read(&mut buffer[got..])? {
            0 => break,
            more => got += more,
        }
    }
    Ok(got)
}

/// The program's configuration; its ranks, its starting board and its one board's share are 0.
pub const PROGRAM: Config =
    Config { n: 3, k: 1, d: 0, e: 1, c: 2, m: 64, ranks: [0; 16], boards: 1, shares: [0; 8] };

pub fn board(input: &mut impl Read, out: &mut impl Write) -> io::Result<()> {
    let rig = Rig::make(PROGRAM, &[0]).expect("the program's configuration");
    events(rig, false, input, out)
}

/// Why no rig is made.
enum Unmade {
    Short,
    No(u8),
    Unread(io::Error),
}

impl From<u8> for Unmade {
    fn from(number: u8) -> Unmade {
        Unmade::No(number)
    }
}

/// Fills the whole buffer.
fn fill(input: &mut impl Read, buffer: &mut [u8]) -> Result<(), Unmade> {
    let got = take(input, buffer).map_err(Unmade::Unread)?;
    if got < buffer.len() { Err(Unmade::Short) } else { Ok(()) }
}

pub fn simulate(input: &mut impl Read, out: &mut impl Write) -> io::Result<()> {
    match made(input) {
        Ok(rig) => events(rig, true, input, out),
        Err(Unmade::Short) => writeln!(out, "0 short"),
        Err(Unmade::No(number)) => writeln!(out, "0 no {number}"),
        Err(Unmade::Unread(why)) => Err(why),
    }
}

/// N, k, D, E, C, a byte each, M, 2 bytes; the ranks of clients 1 to C; the number of boards; a share of 2 bytes for
/// each; the starting boards. Each part is asked once it is read.
fn made(input: &mut impl Read) -> Result<Rig, Unmade> {
    let mut header = [0; 7];
    fill(input, &mut header)?;
    let [n, k, d, e, c] = std::array::from_fn(|i| header[i] as usize);
    let m = u16::from_le_bytes([header[5], header[6]]) as usize;
    let mut config = Config { n, k, d, e, c, m, ..PROGRAM };
    config.ask_numbers()?;
    fill(input, &mut config.ranks[..c])?;
    config.ask_ranks()?;
    let mut number = [0];
    fill(input, &mut number)?;
    config.boards = number[0] as usize;
    config.ask_boards()?;
    let mut shares = vec![0; 2 * config.boards];
    fill(input, &mut shares)?;
    for (share, two) in config.shares.iter_mut().zip(shares.chunks(2)) {
        *share = u16::from_le_bytes([two[0], two[1]]) as usize;
    }
    config.ask_shares()?;
    let mut start = vec![0; config.boards * config.v()];
    fill(input, &mut start)?;
    Ok(Rig::make(config, &start)?)
}

/// A record of V bytes of a board and 6 or, with a board's number, 7 others: code, party, position (2 bytes), the
/// board's number, the bytes, length (2 bytes). Without a number it is board 1.
pub fn event(record: &[u8], numbered: bool) -> Event<'_> {
    let (head, rest) = record.split_at(4 + numbered as usize);
    let (bytes, length) = rest.split_at(rest.len() - 2);
    let position = u16::from_le_bytes([head[2], head[3]]) as usize;
    let length = u16::from_le_bytes([length[0], length[1]]) as usize;
    let board = if numbered { head[4] } else { 1 };
    Event { code: head[0], party: head[1], position, board, bytes, length }
}

/// Records of `simulate` have a board's number, those of `board` have none.
pub fn events(mut rig: Rig, numbered: bool, input: &mut impl Read, out: &mut impl Write) -> io::Result<()> {
    let mut record = vec![0; 6 + numbered as usize + rig.config.v()];
    for count in 1u64.. {
        let got = take(input, &mut record)?;
        if got < record.len() {
            return if got == 0 { Ok(()) } else { writeln!(out, "{count} short") };
        }
        match rig.event(event(&record, numbered)) {
            Ok(Answer::Nothing) => writeln!(out, "{count} ok")?,
            Ok(Answer::Written(_, t)) => writeln!(out, "{count} written {} {}", t.number, t.client)?,
            Ok(Answer::Spent(_)) => writeln!(out, "{count} spent")?,
            Ok(Answer::Read(_, t, board)) => read(out, count, t, &board.bytes[..board.length])?,
            Err(number) => writeln!(out, "{count} no {number}")?,
        }
    }
    Ok(())
}

/// A read of length 0 prints only its tag, with no blank after it.
fn read(out: &mut impl Write, count: u64, t: Tag, shown: &[u8]) -> io::Result<()> {
    let blank = if shown.is_empty() { "" } else { " " };
    writeln!(out, "{count} read {} {}{blank}{}", t.number, t.client, digits(shown))
}

/// Two lower-case hexadecimal digits a byte.
fn digits(board: &[u8]) -> String {
    const DIGITS: &[u8; 16] = b"0123456789abcdef";
    board.iter().flat_map(|b| [b >> 4, b & 15]).map(|d| DIGITS[d as usize] as char).collect()
}
