//! The search for an order that fits a history: whether one board in one place could have shown it.
//!
//! An order has each ended operation once and each unended write at most once; of two, one that ended before
//! the other began stands first; and each read shows the last write before it, or the starting board, bytes
//! and length. The search knows nothing of tags.

use crate::history::Operation;
use std::collections::{HashMap, HashSet};

/// What a search finds.
#[derive(Clone, Debug, PartialEq, Eq)]
pub enum Found {
    /// An order that fits, as places in the list of operations.
    Order(Vec<usize>),
    /// There is none.
    Nothing,
    /// So many ways were tried that the search gave up.
    Unknown,
}

/// Searches depth first, by at most so many steps. What has been tried, a set of operations done and the
/// board then, is not tried again. The operations stand in the order of their begins.
pub fn search(operations: &[Operation], start: &[u8], steps: usize) -> Found {
    let mut search = Search::new(operations, start);
    let mut choices = vec![search.choices()];
    for _ in 0..steps {
        if search.left == 0 {
            return Found::Order(search.order);
        }
        let Some(last) = choices.last_mut() else { return Found::Nothing };
        match last.pop() {
            Some(next) if search.put(next) => choices.push(search.choices()),
            Some(_) => search.take_back(),
            None => {
                choices.pop();
                search.take_back();
            }
        }
    }
    Found::Unknown
}

struct Search<'a> {
    operations: &'a [Operation],
    /// Each operation's board as a number; the starting board is 0.
    boards: Vec<usize>,
    /// Unended writes that no read shows. An order that fits with one fits without it too.
    unseen: Vec<bool>,
    /// One bit for each operation.
    done: Vec<u64>,
    /// Ended operations not done.
    left: usize,
    order: Vec<usize>,
    /// The board at first, and after each operation of the order.
    shown: Vec<usize>,
    tried: HashSet<(Vec<u64>, usize)>,
}

impl<'a> Search<'a> {
    fn new(operations: &'a [Operation], start: &'a [u8]) -> Search<'a> {
        let mut numbers = HashMap::from([(start, 0)]);
        let number = |operation: &'a Operation| {
            let next = numbers.len();
            *numbers.entry(&operation.board[..]).or_insert(next)
        };
        let boards: Vec<usize> = operations.iter().map(number).collect();
        let ended = |operation: &&Operation| operation.end.is_some();
        let read: HashSet<&[u8]> = operations.iter().filter(|o| !o.write).map(|o| &o.board[..]).collect();
        let unseen = operations.iter().map(|o| o.end.is_none() && !read.contains(&o.board[..])).collect();
        Search {
            operations,
            boards,
            unseen,
            done: vec![0; operations.len().div_ceil(64)],
            left: operations.iter().filter(ended).count(),
            order: vec![],
            shown: vec![0],
            tried: HashSet::new(),
        }
    }

    fn is_done(&self, place: usize) -> bool {
        self.done[place / 64] >> (place % 64) & 1 == 1
    }

    fn board(&self) -> usize {
        self.shown.last().copied().unwrap_or(0)
    }

    /// The operations that may stand next, best last. A read that shows the board as it is may stand before
    /// all others, so it is the only choice.
    fn choices(&self) -> Vec<usize> {
        let (mut ended, mut unended) = (vec![], vec![]);
        let mut earliest_end = usize::MAX;
        for (place, operation) in self.operations.iter().enumerate() {
            if operation.begin > earliest_end {
                break;
            }
            if self.is_done(place) || self.unseen[place] {
                continue;
            }
            earliest_end = earliest_end.min(operation.end.unwrap_or(usize::MAX));
            match operation.write {
                true if operation.end.is_some() => ended.push(place),
                true => unended.push(place),
                false if self.boards[place] == self.board() => return vec![place],
                false => {}
            }
        }
        unended.extend(ended);
        unended
    }

    /// Puts an operation next, and tells whether this is new.
    fn put(&mut self, next: usize) -> bool {
        self.done[next / 64] ^= 1 << (next % 64);
        self.left -= usize::from(self.operations[next].end.is_some());
        self.order.push(next);
        self.shown.push(self.boards[next]);
        self.tried.insert((self.done.clone(), self.board()))
    }

    fn take_back(&mut self) {
        if let Some(last) = self.order.pop() {
            self.done[last / 64] ^= 1 << (last % 64);
            self.left += usize::from(self.operations[last].end.is_some());
            self.shown.pop();
        }
    }
}

/// Whether an order fits, word by word.
pub fn fits(operations: &[Operation], start: &[u8], order: &[usize]) -> bool {
    let times = |place: usize| order.iter().filter(|other| **other == place).count();
    let each_once = operations.iter().enumerate().all(|(place, operation)| match operation.end {
        Some(_) => times(place) == 1,
        None => operation.write && times(place) <= 1,
    });
    let chosen: Vec<&Operation> = order.iter().filter_map(|place| operations.get(*place)).collect();
    let before = |a: &Operation, b: &Operation| a.end.is_some_and(|end| end < b.begin);
    let in_time = chosen
        .iter()
        .enumerate()
        .all(|(place, first)| !chosen[place..].iter().any(|later| before(later, first)));
    let mut board = start;
    let as_shown = chosen.iter().all(|operation| {
        if operation.write {
            board = &operation.board;
        }
        operation.board == board
    });
    each_once && in_time && as_shown && chosen.len() == order.len()
}

#[cfg(test)]
mod tests {
    use super::*;
    use crate::draws::Draws;
    use crate::history::{events, operations, Event};
    use coded_board::{Ended, Tag};

    const STEPS: usize = 100_000;

    /// The search of some lines, from the starting board `00`. An order that is found fits.
    fn found(lines: &[&str]) -> Found {
        let operations = operations(&events(&lines.join("\n")).unwrap()).unwrap();
        let found = search(&operations, &[0], STEPS);
        if let Found::Order(order) = &found {
            assert!(fits(&operations, &[0], order), "{order:?}");
        }
        found
    }

    #[test]
    fn good_histories_have_an_order() {
        let unended =
            ["begin 1 write 01", "begin 2 read", "end 2 read 0 0 00", "begin 2 read", "end 2 read 1 1 01"];
        let overlapping = [
            "begin 1 write 01",
            "begin 2 write 02",
            "begin 3 read",
            "end 1 written 1 1",
            "end 3 read 1 2 02",
            "end 2 written 1 2",
            "begin 3 read",
            "end 3 read 1 1 01",
        ];
        assert_eq!(found(&[]), Found::Order(vec![]));
        assert!(matches!(found(&unended), Found::Order(_)));
        assert!(matches!(found(&overlapping), Found::Order(_)));
    }

    #[test]
    fn a_stale_read_has_none() {
        let stale = ["begin 1 write 01", "end 1 written 1 1", "begin 2 read", "end 2 read 0 0 00"];
        assert_eq!(found(&stale), Found::Nothing);
    }

    #[test]
    fn a_read_of_what_nobody_wrote_has_none() {
        assert_eq!(found(&["begin 2 read", "end 2 read 1 1 07"]), Found::Nothing);
        let shorter = ["begin 1 write 0100", "end 1 written 1 1", "begin 2 read", "end 2 read 1 1 01"];
        assert_eq!(found(&shorter), Found::Nothing);
        let too_early = ["begin 2 read", "end 2 read 1 1 01", "begin 1 write 01", "end 1 written 1 1"];
        assert_eq!(found(&too_early), Found::Nothing);
    }

    #[test]
    fn new_then_old_has_none() {
        let turned = [
            "begin 1 write 01",
            "begin 2 read",
            "end 2 read 1 1 01",
            "begin 3 read",
            "end 3 read 0 0 00",
            "end 1 written 1 1",
        ];
        assert_eq!(found(&turned), Found::Nothing);
        assert_eq!(found(&turned[..5]), Found::Nothing);
    }

    #[test]
    fn an_unended_write_counts_once_at_most() {
        let twice = [
            "begin 1 write 01",
            "begin 2 read",
            "end 2 read 1 1 01",
            "begin 2 write 02",
            "end 2 written 2 2",
            "begin 2 read",
            "end 2 read 2 2 02",
            "begin 2 read",
            "end 2 read 1 1 01",
        ];
        assert_eq!(found(&twice), Found::Nothing);
    }

    /// A wrong end after many overlapping operations: the search must not try every order of them.
    #[test]
    fn a_wrong_read_after_many_is_found_out() {
        let mut lines = vec![];
        for round in 0..100 {
            (1..=3).for_each(|c| lines.push(format!("begin {c} write {round:02x}0{c}")));
            (1..=3).for_each(|c| lines.push(format!("end {c} written {} {c}", round + 1)));
        }
        lines.extend(["begin 1 read".to_string(), "end 1 read 99 1 6201".to_string()]);
        let lines: Vec<&str> = lines.iter().map(String::as_str).collect();
        assert_eq!(found(&lines), Found::Nothing);
    }

    /// Whether some order of some of these fits, by trying all.
    fn any_fits(operations: &[Operation], order: &mut Vec<usize>) -> bool {
        fits(operations, &[0], order)
            || (0..operations.len()).any(|next| {
                let tries = !order.contains(&next);
                order.push(next);
                let found = tries && any_fits(operations, order);
                order.pop();
                found
            })
    }

    /// A history of up to 5 operations of 3 clients, with boards that come more than once.
    fn drawn(draws: &mut Draws) -> Vec<Operation> {
        let (mut events, mut open) = (vec![], [None; 3]);
        for _ in 0..10 {
            let (place, board) = (draws.up_to(2) as usize, vec![draws.up_to(2) as u8]);
            let (client, tag) = (place as u8 + 1, Tag { number: 1, client: 1 });
            events.push(match open[place] {
                None if draws.percent(50) => Event::Write(client, board),
                None => Event::Read(client),
                Some(true) => Event::End(client, Ended::Written(tag)),
                Some(false) => Event::End(client, Ended::Read(tag, board)),
            });
            open[place] = match &events[events.len() - 1] {
                Event::End(..) => None,
                begun => Some(matches!(begun, Event::Write(..))),
            };
        }
        let mut drawn = operations(&events).unwrap();
        drawn.truncate(5);
        drawn
    }

    #[test]
    fn the_search_agrees_with_trying_all_orders() {
        let mut draws = Draws::new(7);
        let mut counts = [0, 0];
        for _ in 0..2000 {
            let operations = drawn(&mut draws);
            let found = search(&operations, &[0], STEPS);
            let any = any_fits(&operations, &mut vec![]);
            assert_eq!(matches!(found, Found::Order(_)), any, "{operations:?}");
            assert_ne!(found, Found::Unknown);
            counts[usize::from(any)] += 1;
        }
        assert!(counts.iter().all(|count| *count > 300), "{counts:?}");
    }

    #[test]
    fn a_search_without_steps_gives_up() {
        let operations = operations(&events("begin 1 write 01\nend 1 written 1 1").unwrap()).unwrap();
        assert_eq!(search(&operations, &[0], 0), Found::Unknown);
        assert!(
            !fits(&operations, &[0], &[])
                && !fits(&operations, &[0], &[0, 0])
                && !fits(&operations, &[0], &[7])
        );
    }
}
