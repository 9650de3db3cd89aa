//! Compares the programs' lines with the model's, and searches the histories of those runs.

use crate::common::{difference, output};
use crate::directed;
use crate::list::{List, ranked, shared};
use crate::lists;
use crate::maker::Seen;
use crate::model::Config;
use crate::pairs;
use crate::printed::Printed;
use crate::programs::PROGRAM;
use crate::random::Random;
use crate::script::Directed;
use crate::search::{Fault, ordered};
use std::process::Command;

/// C of lists whose histories are searched, at most.
const SEARCHED: usize = 4;

/// What a program prints, handed the input in pieces of drawn lengths.
fn run(path: &str, input: &[u8], random: &mut Random) -> Result<String, String> {
    let piece = random.pick(&[7, 64, 1000, 4096, 65536]).max(input.len() / 1000);
    let output = output(&mut Command::new(path), input, piece).map_err(|e| format!("{path}: {e}"))?;
    if !output.status.success() {
        return Err(format!("{path}: {}", output.status));
    }
    String::from_utf8(output.stdout).map_err(|e| format!("{path}: {e}"))
}

/// The programs, where to keep inputs on which they differ, and what their runs came to.
struct Runs<'a> {
    board: &'a str,
    simulate: &'a str,
    directory: &'a str,
    random: Random,
    lists: usize,
    events: usize,
    histories: usize,
    operations: usize,
    printed: Printed,
    failed: usize,
}

impl<'a> Runs<'a> {
    fn new(seed: u64, directory: &'a str, board: &'a str, simulate: &'a str) -> Runs<'a> {
        let (random, printed) = (Random::new(seed, u64::MAX - 1), Printed::default());
        let (lists, events, histories, operations, failed) = (0, 0, 0, 0, 0);
        Runs { board, simulate, directory, random, lists, events, histories, operations, printed, failed }
    }

    fn report(&mut self, list: &List, name: &str, what: &str) {
        self.failed += 1;
        let program = if list.general { "simulate" } else { "board" };
        let kept = format!("{}/differs.{}.{program}", self.directory, self.failed);
        println!("FAILED: {name}: {what}\n  {:?}; input kept in {kept}", list.config);
        std::fs::write(kept, &list.input).expect("keeping the input");
    }

    /// Runs a list; the lines printed, if they are the model's.
    fn one(&mut self, list: &List, name: &str) -> Option<String> {
        let expected = list.lines();
        let printed =
            run(if list.general { self.simulate } else { self.board }, &list.input, &mut self.random);
        self.lists += 1;
        self.events += list.named.len();
        let wrong = match &printed {
            Ok(printed) => difference(&expected, printed),
            Err(what) => Some(what.clone()),
        };
        if let Some(what) = wrong {
            self.report(list, name, &what);
            return None;
        }
        let printed = printed.ok()?;
        self.printed.note(list, &printed);
        if list.config.c <= SEARCHED && !list.named.is_empty() {
            self.searched(list, name, &printed);
        }
        Some(printed)
    }

    /// Searches the history of each board.
    fn searched(&mut self, list: &List, name: &str, printed: &str) {
        match ordered(list, printed) {
            Ok(histories) => {
                for history in histories {
                    self.histories += 1;
                    self.operations += history.operations.len();
                    self.printed.note_history(&history);
                }
            }
            Err(Fault::NoOrder(what) | Fault::NoneRises(what)) => self.report(list, name, &what),
        }
    }

    /// A second list with the same events for one board and the same crashes and restarts. Where that board meets no 13
    /// in either, it has the same answers in both.
    fn paired(&mut self, list: &List, printed: &str, name: &str, seen: &mut Seen) {
        let board = self.random.within(1, list.config.boards) as u8;
        let name = format!("{name}, the same for board {board}");
        let second = pairs::second(&mut self.random, list, board, seen);
        let Some(other) = self.one(&second, &name) else { return };
        if let Err(what) = self.printed.pairs.note([list, &second], [printed, &other], board) {
            self.report(&second, &name, &what);
        }
    }

    /// A list by `simulate` with all clients at one rank, and with any share if it has one board: the lines are those of
    /// ranks 0 and share 0, which `board` has.
    fn at_one_rank(&mut self, list: &List, name: &str) {
        let (rank, share) = (self.random.below(4) as u8, self.random.within(0, list.config.m));
        let name = format!("{name} by simulate at rank {rank} with share {share}");
        let of_0 = if list.general { list.at_rank(0).lines() } else { list.lines() };
        let list = list.at_rank(rank);
        let list = if list.config.boards == 1 { list.at_share(share) } else { list };
        match difference(&of_0, &list.lines()) {
            Some(what) => self.report(&list, &name, &format!("the model itself: {what}")),
            None => _ = self.one(&list, &name),
        }
    }

    /// Directed lists, up to so many failures. What they print counts for nothing but itself.
    fn directed(&mut self, most: u64) {
        for Directed { name, list, .. } in directed::all() {
            if self.failed as u64 >= most {
                return;
            }
            let name = format!("directed list, {name}");
            self.one(&list, &name);
            if !list.general {
                self.at_one_rank(&list, &name);
            }
        }
        self.printed = Printed::default();
    }

    /// So many lists of a seed, up to so many failures.
    fn drawn(&mut self, seed: u64, count: u64, most: u64, seen: &mut Seen) {
        for number in 0..count {
            if self.failed as u64 >= most {
                return println!("stopped at {most}");
            }
            let list = lists::list(seed, number, seen);
            let name = format!("seed {seed} list {number}");
            let printed = self.one(&list, &name);
            if let Some(printed) = printed.filter(|_| number % lists::KINDS == lists::SHARED) {
                self.paired(&list, &printed, &name, seen);
            }
            let one_in = if list.general { 8 } else { 4 };
            if number / lists::KINDS % one_in == 0 && !list.named.is_empty() {
                self.at_one_rank(&list, &name);
            }
        }
    }

    fn long(&mut self, seed: u64, seen: &mut Seen) {
        let of_three = |n, k, e| Config { n, k, d: 2, e, c: 3, m: 512, ..PROGRAM };
        let few = ranked(of_three(5, 2, 2), &[3, 1, 2]);
        let all = ranked(of_three(16, 16, 64), &[1, 1, 0]);
        let eight = shared(few, &[100, 0, 1, 50, 20, 0, 7, 60]);
        let configs = [(PROGRAM, 20_000), (few, 20_000), (all, 8_000), (eight, 40_000)];
        for (config, events) in configs {
            let list = lists::long(seed, config, config != PROGRAM, events, seen);
            self.one(&list, &format!("seed {seed} long list"));
        }
        for (config, events) in [(PROGRAM, 20_000), (few, 20_000), (eight, 40_000)] {
            let list = lists::long_restarting(seed, config, config != PROGRAM, events, seen);
            self.one(&list, &format!("seed {seed} long list with restarts"));
        }
        for shares in [&[0][..], &[64; 8], &[0; 8]] {
            self.one(&lists::full(seed, shares, seen), &format!("seed {seed} full list"));
        }
    }
}

/// Directed lists and so many of a seed, on both programs, up to so many failures.
pub fn compare([seed, count, most]: [u64; 3], directory: &str, board: &str, simulate: &str) -> usize {
    let mut seen = Seen::default();
    let mut runs = Runs::new(seed, directory, board, simulate);
    println!("seed {seed}, {count} lists: {board} and {simulate}");
    runs.directed(most);
    runs.drawn(seed, count, most, &mut seen);
    if runs.failed == 0 {
        runs.long(seed, &mut seen);
    }
    let Runs { lists, events, histories, operations, printed, mut failed, .. } = runs;
    println!("met: {seen:?}\nand: {printed:?}");
    let missing = [seen.missing(), printed.missing()].concat();
    if failed == 0 && (events < 200_000 || !missing.is_empty()) {
        failed += 1;
        println!("FAILED: too few lists; never met: {missing:?}");
    }
    println!("{lists} lists, {events} events, {failed} failed");
    println!(
        "{histories} histories of {operations} operations searched for orders that fit and rise (C at most {SEARCHED})"
    );
    failed
}
