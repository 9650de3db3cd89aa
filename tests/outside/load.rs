//! Request L3 of document 02 in plain Rust, from its text alone: a load, which is records for `board` made from a
//! seed, and the program `load`.

use crate::model::{Rig, ask};
use crate::programs::{PROGRAM, called, event, take};
use std::io::{self, Read, Write};

/// A draw, or the seed, from which the first one is made.
pub type Draw = u32;

/// The seed when none is given.
pub const DEFAULT_SEED: u32 = 2_463_534_242;

/// Code, party, position (2 bytes), board byte, length (2 bytes).
pub type Event = [u8; 7];

/// 32-bit xorshift: left 13, right 17, left 5.
fn next(last: Draw) -> Draw {
    let shifts = [(13, 0), (0, 17), (5, 0)];
    shifts.iter().fold(last, |x, (left, right)| x ^ x << left >> right)
}

/// The draws of a seed, which isn't one of them.
pub fn draws(seed: Draw) -> impl Iterator<Item = Draw> {
    std::iter::successors(Some(next(seed)), |last| Some(next(*last)))
}

/// The records of a seed, without end.
pub fn records(seed: u32) -> Result<impl Iterator<Item = Event>, u8> {
    ask(seed != 0, 20)?;
    let mut rig = Rig::make(PROGRAM, &[0])?;
    let mut draws = draws(seed as Draw);
    Ok(std::iter::repeat_with(move || record(&mut rig, || draws.next().unwrap())))
}

/// The next record. The rig runs it, so that the one after it finds what is in flight then; a refused one counts too.
fn record(rig: &mut Rig, mut draw: impl FnMut() -> Draw) -> Event {
    let in_flight = rig.flight.len() as Draw;
    let code = draw() % 5 + 1;
    let second = draw();
    let third = if code == 1 { draw() } else { 0 };
    let (party, position) = match code {
        1 | 2 => (second % 2 + 1, 0),
        _ => (0, second.checked_rem(in_flight).unwrap_or(0)),
    };
    let (code, party, byte, length) = (code as u8, party as u8, (third % 256) as u8, (code == 1) as u8);
    let [low, high] = (position as u16).to_le_bytes();
    let made = [code, party, low, high, byte, length, 0];
    _ = rig.event(event(&made, false));
    made
}

/// Runs the program `load`, if this one is called so.
pub fn main() -> bool {
    called("load", |input, out| load(input, out, &mut io::stderr()))
}

/// Reads the count and, if the input goes on, the seed. Why nothing is made goes to `said`.
pub fn load(input: &mut impl Read, out: &mut impl Write, said: &mut impl Write) -> io::Result<()> {
    let mut head = [0; 8];
    let got = take(input, &mut head)?;
    let [count, given] = [0, 4].map(|at| u32::from_le_bytes(head[at..at + 4].try_into().unwrap()));
    let seed = match got {
        4 => DEFAULT_SEED,
        8 => given,
        _ => return writeln!(said, "short"),
    };
    match records(seed) {
        Ok(mut records) => (0..count).try_for_each(|_| out.write_all(&records.next().unwrap())),
        Err(number) => writeln!(said, "no {number}"),
    }
}
