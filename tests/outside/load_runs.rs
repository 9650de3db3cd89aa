//! Compares what the program `load` makes and says with the model's, and what `board` prints of its records.

use crate::common::{difference, never, output};
use crate::load::DEFAULT_SEED;
use crate::load_checks::made_and_said;
use crate::programs;
use crate::random::Random;
use std::io::{self, Write};
use std::process::{Command, Output, Stdio};

/// Those of figures; of 1 to 2000 the one that rests last; of 200,000 others the one that rests last, after its record
/// 1021, and the one with most in flight, 40; then 2, the highest bit alone and all bits.
const SEEDS: [u32; 9] = [1, DEFAULT_SEED, 1992, 631, 1_728_895_314, 1_889_012_322, 2, 1 << 31, u32::MAX];

/// So many records that a program in bounded memory makes them in several parts.
const MANY: u32 = 300_000;

/// A count and a seed, if there is one; its name too.
fn input(count: u32, seed: Option<u32>) -> (Vec<u8>, String) {
    let named = seed.map_or("no seed".to_string(), |seed| format!("seed {seed}"));
    let bytes = [Some(count), seed].into_iter().flatten().flat_map(u32::to_le_bytes);
    (bytes.collect(), format!("{named}, {count} records"))
}

/// The first record in which two loads differ.
fn differing(due: &[u8], made: &[u8]) -> Option<String> {
    if due == made {
        return None;
    }
    let (mut d, mut m) = (due.chunks(7), made.chunks(7));
    for number in 1.. {
        let (due, made) = (d.next(), m.next());
        if due != made || due.is_none() {
            return Some(format!("record {number}: due {due:?}, made {made:?}"));
        }
    }
    unreachable!()
}

/// How a program's output differs from what is due. Where it is due to say why it makes nothing, its status is free.
fn judged((made, said): (Vec<u8>, Vec<u8>), output: Output) -> Option<String> {
    let ended = if said.is_empty() { output.status.success() } else { output.status.code().is_some() };
    let text = |bytes| String::from_utf8_lossy(bytes).into_owned();
    if !ended {
        Some(format!("{}, said {:?}", output.status, text(&output.stderr)))
    } else if output.stderr != said {
        Some(format!("due to say {:?}, said {:?}", text(&said), text(&output.stderr)))
    } else {
        differing(&made, &output.stdout)
    }
}

/// What `board` prints of what `load` makes.
fn into_board(load: &str, board: &str, input: &[u8]) -> io::Result<String> {
    let mut made = Command::new(load).stdin(Stdio::piped()).stdout(Stdio::piped()).spawn()?;
    made.stdin.take().unwrap().write_all(input)?;
    let printed = Command::new(board).stdin(made.stdout.take().unwrap()).output()?;
    for status in [made.wait()?, printed.status] {
        if !status.success() {
            return Err(io::Error::other(format!("{status}")));
        }
    }
    String::from_utf8(printed.stdout).map_err(io::Error::other)
}

/// The programs, where to keep inputs on which `load` differs, and what the runs came to.
struct Runs<'a> {
    board: &'a str,
    load: &'a str,
    directory: &'a str,
    random: Random,
    inputs: usize,
    records: usize,
    /// Lines of `board`.
    met: [(&'static str, usize); 5],
    most: u64,
    failed: u64,
}

impl<'a> Runs<'a> {
    fn new(seed: u64, most: u64, directory: &'a str, board: &'a str, load: &'a str) -> Runs<'a> {
        let met = [" ok\n", " written ", " read ", " no 8\n", " no 10\n"].map(|line| (line, 0));
        let (random, inputs, records, failed) = (Random::new(seed, u64::MAX), 0, 0, 0);
        Runs { board, load, directory, random, inputs, records, met, most, failed }
    }

    fn report(&mut self, input: &[u8], name: &str, what: &str) {
        self.failed += 1;
        let kept = format!("{}/differs.{}.load", self.directory, self.failed);
        println!("FAILED: load, {name}: {what}\n  input kept in {kept}");
        std::fs::write(kept, input).expect("keeping the input");
    }

    /// Nothing is run after the last failure.
    fn one(&mut self, input: &[u8], name: &str) {
        if self.failed >= self.most {
            return;
        }
        let due = made_and_said(input);
        self.inputs += 1;
        self.records += due.0.len() / 7;
        let piece = self.random.within(1, 9).max(input.len() / 1000);
        let what = match output(Command::new(self.load).stderr(Stdio::piped()), input, piece) {
            Ok(output) => judged(due, output),
            Err(why) => Some(why.to_string()),
        };
        if let Some(what) = what {
            self.report(input, name, &what);
        }
    }

    fn of_seed(&mut self, count: u32, seed: Option<u32>) {
        let (input, name) = input(count, seed);
        self.one(&input, &name);
    }

    /// `load` into `board`.
    fn piped(&mut self, count: u32, seed: Option<u32>) {
        if self.failed >= self.most {
            return;
        }
        let (input, name) = input(count, seed);
        let (records, mut due) = (made_and_said(&input).0, vec![]);
        programs::board(&mut &records[..], &mut due).expect("lines to memory");
        let due = String::from_utf8(due).expect("lines are text");
        self.met.iter_mut().for_each(|(line, met)| *met += due.matches(*line).count());
        let what = match into_board(self.load, self.board, &input) {
            Ok(printed) => difference(&due, &printed),
            Err(why) => Some(why.to_string()),
        };
        if let Some(what) = what {
            self.report(&input, &format!("{name}, into board"), &what);
        }
    }

    fn figures(&mut self) {
        for count in [6, 0, 1, 2, 700, 1100] {
            self.of_seed(count, None);
            SEEDS.iter().for_each(|seed| self.of_seed(count, Some(*seed)));
        }
        SEEDS.iter().for_each(|seed| self.piped(1100, Some(*seed)));
    }

    /// Inputs that are short, that have seed 0, or that go on after the seed.
    fn heads(&mut self) {
        for length in [0, 1, 2, 3, 5, 6, 7] {
            let drawn = self.random.bytes(8);
            for bytes in [&[0; 8], &[1; 8], &drawn[..]] {
                self.one(&bytes[..length], &format!("{length} bytes"));
            }
        }
        [0, 1, 6, 100_000].iter().for_each(|count| self.of_seed(*count, Some(0)));
        for (more, seed) in [(1, 1992), (4, 1992), (8, 1992), (100_000, 1992), (1, 0), (4, 0)] {
            let (mut input, name) = input(700, Some(seed));
            input.extend(self.random.bytes(more));
            self.one(&input, &format!("{name}, {more} bytes more"));
        }
    }

    /// So many seeds, of which a quarter are 1 to 2000 and the others any. Every fourth load goes into `board`.
    fn drawn(&mut self, seeds: u64) {
        for number in 0..seeds {
            let any = u32::from_le_bytes(std::array::from_fn(|_| self.random.byte()));
            let seed = if self.random.chance(250) { any % 2000 + 1 } else { any.max(1) };
            let highest = self.random.pick(&[2, 20, 700]);
            let count = self.random.within(0, highest) as u32;
            self.of_seed(count, Some(seed));
            if number % 4 == 0 {
                self.piped(700, Some(seed));
            }
        }
    }

    fn long(&mut self) {
        self.of_seed(MANY, None);
        self.of_seed(MANY, Some(1_728_895_314));
        self.piped(MANY, Some(1992));
    }
}

/// Seeds of figures, heads, so many seeds drawn and long loads, up to so many failures.
pub fn compare([seed, seeds, most]: [u64; 3], directory: &str, board: &str, load: &str) -> u64 {
    let mut runs = Runs::new(seed, most, directory, board, load);
    println!("seed {seed}, {seeds} seeds drawn: {load}, also into {board}");
    runs.figures();
    runs.heads();
    runs.drawn(seeds);
    runs.long();
    let Runs { inputs, records, met, mut failed, .. } = runs;
    let missing = never(&met);
    if failed == 0 && !missing.is_empty() {
        failed += 1;
        println!("FAILED: too few loads; never met: {missing:?}");
    }
    println!("{inputs} inputs, {records} records, {failed} failed; into board: {met:?}");
    failed
}
