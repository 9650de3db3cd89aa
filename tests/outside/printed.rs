//! What the programs have printed, beyond what the maker of lists has seen.

use crate::common::never;
use crate::history::{History, search_rising_plain, told_by_length};
use crate::list::{List, head};
use crate::model::Config;
use crate::pairs::Pairs;
use crate::ties::mixed;

/// N and k of reads that count as large, at least.
const LARGE: (usize, usize) = (12, 8);

/// What the programs have printed that `Seen` doesn't count, in lines that were the model's.
#[derive(Default, Debug)]
pub struct Printed {
    /// By number.
    making_refused: [usize; 23],
    ranks_refused: RanksRefused,
    boards_refused: BoardsRefused,
    short: Short,
    /// Reads ended.
    large_reads: usize,
    /// Reads that only their length tells from a board written or the starting one.
    told_by_length: usize,
    by_rank: ByRank,
    pub pairs: Pairs,
}

/// Inputs cut short.
#[derive(Default, Debug)]
struct Short {
    header: usize,
    ranks: usize,
    /// With one above 3 among those that are there.
    ranks_too_high: usize,
    /// Of the number of boards.
    number: usize,
    shares: usize,
    /// With those that are there above M.
    shares_too_high: usize,
    /// In the first of several starting boards, or the only one, and in a later one.
    first_board: usize,
    later_board: usize,
    event_of_board: usize,
    event_of_simulate: usize,
}

impl Short {
    /// Notes a head that ends early.
    fn note(&mut self, list: &List) {
        let (length, config) = (list.input.len(), &list.config);
        let (ranks, boards) = (7 + config.c, head(config).len());
        if length < 7 {
            self.header += 1;
        } else if length < ranks {
            self.ranks += 1;
            self.ranks_too_high += list.input[7..].iter().any(|rank| *rank > 3) as usize;
        } else if length == ranks {
            self.number += 1;
        } else if length < boards {
            let there = list.input[ranks + 1..].chunks_exact(2);
            let sum: usize = there.map(|two| u16::from_le_bytes([two[0], two[1]]) as usize).sum();
            self.shares += 1;
            self.shares_too_high += (sum > config.m) as usize;
        } else {
            let later = length >= boards + config.v();
            *(if later { &mut self.later_board } else { &mut self.first_board }) += 1;
        }
    }

    fn missing(&self) -> Vec<&'static str> {
        never(&[
            ("short, a header", self.header),
            ("short, the ranks", self.ranks),
            ("short, the ranks, with one too high", self.ranks_too_high),
            ("short, the number of boards", self.number),
            ("short, the shares", self.shares),
            ("short, the shares, with too high ones", self.shares_too_high),
            ("short, the first starting board", self.first_board),
            ("short, a later starting board", self.later_board),
            ("short, an event of board", self.event_of_board),
            ("short, an event of simulate", self.event_of_simulate),
        ])
    }
}

/// Makings that got 21.
#[derive(Default, Debug)]
struct RanksRefused {
    /// For the rank of the first of several clients alone, and of the last alone.
    first: usize,
    last: usize,
    /// For rank 4 alone.
    four: usize,
    /// With nothing after the ranks.
    nothing_after: usize,
}

impl RanksRefused {
    fn note(&mut self, list: &List) {
        let Config { c, ranks, .. } = list.config;
        let high: Vec<usize> = (0..c).filter(|place| ranks[*place] > 3).collect();
        self.first += (c > 1 && high == [0]) as usize;
        self.last += (c > 1 && high == [c - 1]) as usize;
        self.four += high.iter().all(|place| ranks[*place] == 4) as usize;
        self.nothing_after += (list.input.len() == 7 + c) as usize;
    }

    fn missing(&self) -> Vec<&'static str> {
        never(&[
            ("21 of the first client", self.first),
            ("21 of the last client", self.last),
            ("21 of rank 4", self.four),
            ("21 with nothing after the ranks", self.nothing_after),
        ])
    }
}

/// Makings that got 22.
#[derive(Default, Debug)]
struct BoardsRefused {
    /// For no board, for 9, for more.
    none: usize,
    nine: usize,
    more: usize,
    /// For shares that add to M + 1, that add to more, and to at most M in 16 bits.
    one_above: usize,
    above: usize,
    small_in_16_bits: usize,
    /// For several shares of which each alone is at most M.
    each_at_most: usize,
    /// With nothing after the number, and with nothing after the shares.
    no_shares: usize,
    no_starting_board: usize,
}

impl BoardsRefused {
    fn note(&mut self, list: &List) {
        let Config { boards, m, shares, c, .. } = list.config;
        if list.config.ask_boards().is_err() {
            self.none += (boards == 0) as usize;
            self.nine += (boards == 9) as usize;
            self.more += (boards > 9) as usize;
            self.no_shares += (list.input.len() == 8 + c) as usize;
            return;
        }
        let sum = list.config.guaranteed();
        self.one_above += (sum == m + 1) as usize;
        self.above += (sum > m + 1) as usize;
        self.small_in_16_bits += (sum % 65536 <= m) as usize;
        self.each_at_most += shares[..boards].iter().all(|share| *share <= m) as usize;
        self.no_starting_board += (list.input.len() == head(&list.config).len()) as usize;
    }

    fn missing(&self) -> Vec<&'static str> {
        never(&[
            ("22 of no board", self.none),
            ("22 of 9 boards", self.nine),
            ("22 of more boards", self.more),
            ("22 of shares that add to M + 1", self.one_above),
            ("22 of shares that add to more", self.above),
            ("22 of shares that add to little in 16 bits", self.small_in_16_bits),
            ("22 of shares that are each at most M", self.each_at_most),
            ("22 with nothing after the number of boards", self.no_shares),
            ("22 with nothing after the shares", self.no_starting_board),
        ])
    }
}

/// What would be otherwise without ranks.
#[derive(Default, Debug)]
struct ByRank {
    /// Lists that would have other lines, and those in which the first such line is a read with another tag.
    lines: usize,
    read: usize,
    /// Histories in which the ended writes would rise in no order that fits.
    rise: usize,
}

impl ByRank {
    fn note(&mut self, list: &List, printed: &str) {
        let plain = list.at_rank(0).lines();
        let two = printed.lines().zip(plain.lines()).find(|(line, plain)| line != plain);
        let tag = |line: &str| line.split(' ').skip(1).take(3).collect::<Vec<_>>().join(" ");
        self.lines += (printed != plain) as usize;
        self.read += two.is_some_and(|(line, plain)| {
            let (tag, plain) = (tag(line), tag(plain));
            tag != plain && tag.starts_with("read") && plain.starts_with("read")
        }) as usize;
    }

    fn missing(&self) -> Vec<&'static str> {
        never(&[
            ("by rank: other lines", self.lines),
            ("by rank: first a read with another tag", self.read),
            ("by rank: writes that rise", self.rise),
        ])
    }
}

impl Printed {
    pub fn note(&mut self, list: &List, lines: &str) {
        let large = list.config.n >= LARGE.0 && list.config.k >= LARGE.1;
        for line in lines.lines() {
            let mut words = line.split(' ');
            match (words.next().unwrap(), words.next().unwrap()) {
                ("0", "no") => self.note_refused(list, words.next().unwrap().parse().unwrap()),
                ("0", _) => self.short.note(list),
                (_, "short") if list.general => self.short.event_of_simulate += 1,
                (_, "short") => self.short.event_of_board += 1,
                (_, "read") => self.large_reads += large as usize,
                _ => {}
            }
        }
        if mixed(&list.config) && !list.named.is_empty() {
            self.by_rank.note(list, lines);
        }
    }

    fn note_refused(&mut self, list: &List, number: usize) {
        self.making_refused[number] += 1;
        match number {
            21 => self.ranks_refused.note(list),
            22 => self.boards_refused.note(list),
            _ => {}
        }
    }

    pub fn note_history(&mut self, history: &History) {
        self.told_by_length += told_by_length(history);
        self.by_rank.rise += search_rising_plain(history).is_none() as usize;
    }

    /// What hasn't been printed.
    pub fn missing(&self) -> Vec<&'static str> {
        let counts = [
            ("1 at making", self.making_refused[1]),
            ("2 at making", self.making_refused[2]),
            ("3 at making", self.making_refused[3]),
            ("4 at making", self.making_refused[4]),
            ("5 at making", self.making_refused[5]),
            ("21 at making", self.making_refused[21]),
            ("22 at making", self.making_refused[22]),
            ("reads with large N and k", self.large_reads),
            ("reads told by their length alone", self.told_by_length),
        ];
        let refused = [self.ranks_refused.missing(), self.boards_refused.missing()].concat();
        [never(&counts), self.short.missing(), refused, self.by_rank.missing(), self.pairs.missing()].concat()
    }
}
