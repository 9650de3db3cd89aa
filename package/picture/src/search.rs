//! The search for an order that fits. It goes through writes only: a read that may stand next and shows the board is
//! taken at once, since it changes nothing for those after it.

use crate::history::{Board, History, Key, Operation};
use std::collections::{HashMap, HashSet};

#[derive(Debug, PartialEq)]
pub enum Found {
    /// Places in the history, ended writes in rising tag order.
    Order(Vec<usize>),
    /// Orders fit, but in none of them do the ended writes rise.
    Unordered,
    /// No order fits.
    Nothing,
}

/// More operations make no picture.
const MOST_OPERATIONS: usize = 5000;

/// Sets of operations that the search starts from, at most.
const MOST_TRIED: usize = 100_000;

const ENDLESS: &str = "there are too many orders to try";

pub fn search(history: &History) -> Result<Found, String> {
    if history.operations.len() > MOST_OPERATIONS {
        return Err(format!("more than {MOST_OPERATIONS} operations"));
    }
    if let Some(order) = Search::new(history, true).run()? {
        return Ok(Found::Order(order));
    }
    // Where this takes too long, it stays unknown whether the order of tags is to blame.
    let any = Search::new(history, false).run().unwrap_or(None);
    Ok(any.map_or(Found::Nothing, |_| Found::Unordered))
}

/// An operation that an order may have.
struct Item {
    /// In the history.
    index: usize,
    write: bool,
    begin: usize,
    /// The largest number if it is unended.
    end: usize,
    /// Its board by number.
    board: usize,
    /// Among the ended writes, if these are to rise.
    place: Option<usize>,
    /// The tag, also that of an unended write if a read shows it. Writes are tried in this order.
    key: Option<Key>,
}

impl Item {
    fn ended(&self) -> bool {
        self.end != usize::MAX
    }
}

/// Where the search can go on in several ways.
struct Fork {
    /// Operations taken before it.
    taken: usize,
    /// Writes not yet tried, the last one first.
    choices: Vec<usize>,
}

struct Search {
    items: Vec<Item>,
    done: Vec<bool>,
    /// Everything before it is done.
    first: usize,
    /// The board, by number.
    state: usize,
    /// Ended writes done.
    written: usize,
    /// Ended operations not yet done.
    left: usize,
    order: Vec<usize>,
    /// What was done, with the board, where the search has been before.
    tried: HashSet<(Vec<u64>, usize)>,
}

impl Search {
    fn new(history: &History, rising: bool) -> Search {
        let items = items(history, rising);
        let (done, left) = (vec![false; items.len()], items.iter().filter(|item| item.ended()).count());
        let (order, tried) = (vec![], HashSet::new());
        Search { items, done, first: 0, state: 0, written: 0, left, order, tried }
    }

    fn run(mut self) -> Result<Option<Vec<usize>>, String> {
        let mut forks: Vec<Fork> = vec![];
        loop {
            self.take_reads();
            if self.left == 0 {
                return Ok(Some(self.order.iter().map(|i| self.items[*i].index).collect()));
            }
            let choices = if self.tried.insert(self.key()) { self.choices() } else { vec![] };
            if self.tried.len() > MOST_TRIED {
                return Err(ENDLESS.to_string());
            }
            forks.push(Fork { taken: self.order.len(), choices });
            if !self.go_on(&mut forks) {
                return Ok(None);
            }
        }
    }

    /// Takes the next choice of the latest fork that has one; false if there is none.
    fn go_on(&mut self, forks: &mut Vec<Fork>) -> bool {
        while let Some(fork) = forks.last_mut() {
            self.back_to(fork.taken);
            if let Some(choice) = fork.choices.pop() {
                self.take(choice);
                return true;
            }
            forks.pop();
        }
        false
    }

    fn take_reads(&mut self) {
        while let Some(read) = self.next().into_iter().find(|i| self.shows(*i)) {
            self.take(read);
        }
    }

    fn shows(&self, i: usize) -> bool {
        !self.items[i].write && self.items[i].board == self.state
    }

    /// Those that may stand next: no other that is left ended before they began.
    fn next(&self) -> Vec<usize> {
        let (mut found, mut earliest_end) = (vec![], usize::MAX);
        for (i, item) in self.items.iter().enumerate().skip(self.first) {
            if item.begin > earliest_end {
                break;
            }
            if !self.done[i] {
                found.push(i);
                earliest_end = earliest_end.min(item.end);
            }
        }
        found
    }

    /// Writes that may stand next, the one to be tried first at the end. An unended one serves only a read that
    /// shows it.
    fn choices(&self) -> Vec<usize> {
        let wanted: HashSet<usize> = (self.items.iter().zip(&self.done))
            .filter(|(item, done)| !item.write && !**done)
            .map(|(item, _)| item.board)
            .collect();
        let may = |item: &Item| match item.place {
            Some(place) => place == self.written,
            None => item.ended() || wanted.contains(&item.board),
        };
        let mut found = self.next();
        found.retain(|i| self.items[*i].write && may(&self.items[*i]));
        found.sort_by_key(|i| std::cmp::Reverse((self.items[*i].key.is_none(), self.items[*i].key)));
        found
    }

    fn take(&mut self, i: usize) {
        let item = &self.items[i];
        if item.write {
            self.state = item.board;
        }
        self.written += item.place.is_some() as usize;
        self.left -= item.ended() as usize;
        self.done[i] = true;
        self.order.push(i);
        while self.done.get(self.first) == Some(&true) {
            self.first += 1;
        }
    }

    /// So many are taken again. The board is left as it is: what is taken next is a write.
    fn back_to(&mut self, taken: usize) {
        for i in self.order.drain(taken..) {
            let item = &self.items[i];
            self.written -= item.place.is_some() as usize;
            self.left += item.ended() as usize;
            self.done[i] = false;
            self.first = self.first.min(i);
        }
    }

    /// What is done, in bits, and the board.
    fn key(&self) -> (Vec<u64>, usize) {
        let bits = |part: &[bool]| part.iter().fold(0, |bits, done| bits << 1 | *done as u64);
        (self.done.chunks(64).map(bits).collect(), self.state)
    }
}

fn items(history: &History, rising: bool) -> Vec<Item> {
    let keys = written_keys(history);
    let boards = numbered(history);
    let item = |((index, operation), board): ((usize, &Operation), usize)| Item {
        index,
        write: operation.is_write(),
        begin: operation.begin,
        end: operation.end.as_ref().map_or(usize::MAX, |end| end.time),
        board,
        place: if rising { place(history, operation, &keys) } else { None },
        key: key_of(history, operation).or_else(|| shown_key(history, operation, &keys)),
    };
    let all = history.operations.iter().enumerate().zip(boards);
    all.filter(|((_, operation), _)| operation.in_orders()).map(item).collect()
}

/// Each operation's board as a number. The starting board is number 0; an unknown one equals no board.
fn numbered(history: &History) -> Vec<usize> {
    let mut numbers: HashMap<Option<&Board>, usize> = HashMap::from([(history.start.as_ref(), 0)]);
    let mut number = |board| {
        let fresh = numbers.len();
        *numbers.entry(board).or_insert(fresh)
    };
    history.operations.iter().map(|operation| number(operation.board())).collect()
}

/// The tags of ended writes, rising.
fn written_keys(history: &History) -> Vec<Key> {
    let writes = history.operations.iter().filter(|operation| operation.is_write());
    let mut keys: Vec<Key> = writes.filter_map(|write| key_of(history, write)).collect();
    keys.sort();
    keys
}

fn key_of(history: &History, operation: &Operation) -> Option<Key> {
    operation.tag().map(|tag| history.key(tag))
}

/// Of an ended write: how many others have lower tags.
fn place(history: &History, operation: &Operation, keys: &[Key]) -> Option<usize> {
    let key = key_of(history, operation).filter(|_| operation.is_write());
    key.map(|key| keys.partition_point(|other| *other < key))
}

/// Of an unended write, the tag with which a read shows its board: one of its client that no ended write has.
fn shown_key(history: &History, write: &Operation, keys: &[Key]) -> Option<Key> {
    let shows =
        |o: &&Operation| o.tag().is_some_and(|tag| tag.client == write.client) && o.board() == write.board();
    let shown = history.operations.iter().filter(shows).filter_map(|o| key_of(history, o));
    shown.filter(|key| !keys.contains(key)).min()
}

#[cfg(test)]
mod tests {
    use super::*;
    use crate::fits::{fits, rises};
    use crate::host;
    use crate::samples::{any_record, board_record, Draws};

    fn found(record: &str, ranks: &[u8]) -> Found {
        let history = host::history(record, Some(vec![0]), ranks.to_vec()).unwrap();
        let found = search(&history).unwrap();
        if let Found::Order(order) = &found {
            assert!(fits(&history, order) && rises(&history, order), "{order:?}");
        }
        found
    }

    fn order(record: &str) -> Vec<usize> {
        match found(record, &[]) {
            Found::Order(order) => order,
            other => panic!("{other:?}: {record}"),
        }
    }

    #[test]
    fn nothing_and_one_after_the_other() {
        assert_eq!(order(""), [0; 0]);
        let record = "begin 1 read\nend 1 read 0 0 00\nbegin 1 write aa\nend 1 written 1 1\n\
                      begin 2 read\nend 2 read 1 1 aa\n";
        assert_eq!(order(record), [0, 1, 2]);
    }

    /// A write, and two reads beside it, one after the other, by one client.
    fn two_reads(first: &str, second: &str) -> String {
        format!(
            "begin 1 write aa\nbegin 2 read\nend 2 read {first}\nbegin 2 read\nend 2 read {second}\nend 1 written 1 1\n"
        )
    }

    #[test]
    fn reads_beside_a_write_may_show_either_board() {
        assert_eq!(order(&two_reads("1 1 aa", "1 1 aa")), [0, 1, 2]);
        assert_eq!(order(&two_reads("0 0 00", "1 1 aa")), [1, 0, 2]);
        assert_eq!(order(&two_reads("0 0 00", "0 0 00")), [1, 2, 0]);
    }

    #[test]
    fn a_new_board_before_an_old_one_is_refused() {
        let record = two_reads("1 1 aa", "0 0 00");
        assert_eq!(found(&record, &[]), Found::Nothing);
        // The same by two readers, one after the other.
        assert_eq!(
            found(&record.replace("begin 2 read\nend 2 read 0", "begin 3 read\nend 3 read 0"), &[]),
            Found::Nothing
        );
    }

    #[test]
    fn a_stale_read_is_refused() {
        let record = "begin 1 write aa\nend 1 written 1 1\nbegin 2 read\nend 2 read 0 0 00\n";
        assert_eq!(found(record, &[]), Found::Nothing);
    }

    #[test]
    fn a_board_never_written_is_refused() {
        assert_eq!(found("begin 2 read\nend 2 read 1 1 77\n", &[]), Found::Nothing);
        // One that is another write's but for its length, too.
        let record = "begin 1 write aa00\nend 1 written 1 1\nbegin 2 read\nend 2 read 1 1 aa\n";
        assert_eq!(found(record, &[]), Found::Nothing);
    }

    #[test]
    fn a_read_before_its_write_begins_is_refused() {
        assert_eq!(found("begin 2 read\nend 2 read 1 1 aa\nbegin 1 write aa\n", &[]), Found::Nothing);
    }

    #[test]
    fn an_unended_write_stands_where_a_read_shows_it_and_else_nowhere() {
        let begun = "begin 3 write cc\nbegin 1 write aa\nend 1 written 1 1\nbegin 2 read\n";
        assert_eq!(order(&(begun.to_string() + "end 2 read 2 3 cc\n")), [1, 0, 2]);
        assert_eq!(order(&(begun.to_string() + "end 2 read 1 1 aa\n")), [1, 2]);
        let twice = "end 2 read 2 3 cc\nbegin 2 read\nend 2 read 1 1 aa\n";
        assert_eq!(found(&(begun.to_string() + twice), &[]), Found::Nothing);
        // Its place is by the tag that the read shows.
        let beside =
            "begin 3 write cc\nbegin 1 write aa\nbegin 2 read\nend 2 read 1 3 cc\nend 1 written 2 1\n";
        assert_eq!(order(beside), [0, 2, 1]);
        assert_eq!(order(&beside.replace("1 3 cc", "3 3 cc")), [1, 0, 2]);
    }

    /// A client that begins again while its write is unended.
    #[test]
    fn a_write_that_is_left_behind_may_count_later() {
        let left = "begin 1 write aa\nbegin 1 write bb\nend 1 written 1 1\nbegin 2 read\n";
        assert_eq!(order(&(left.to_string() + "end 2 read 1 1 bb\n")), [1, 2]);
        assert_eq!(order(&(left.to_string() + "end 2 read 2 1 aa\n")), [1, 0, 2]);
        let three = "begin 1 write cc\nend 2 read 2 1 aa\nbegin 2 read\nend 2 read 3 1 cc\nbegin 2 read\n";
        let three = left.to_string() + three;
        assert_eq!(order(&(three.clone() + "end 2 read 3 1 cc\n")), [1, 0, 2, 3, 4, 5]);
        assert_eq!(found(&(three + "end 2 read 2 1 aa\n"), &[]), Found::Nothing);
    }

    #[test]
    fn spent_operations_are_in_no_order() {
        let record = "begin 1 write aa\nend 1 spent\nbegin 2 read\n";
        assert_eq!(order(&(record.to_string() + "end 2 read 0 0 00\n")), [1]);
        assert_eq!(found(&(record.to_string() + "end 2 read 1 1 aa\n"), &[]), Found::Nothing);
    }

    #[test]
    fn writes_rise_by_number_rank_and_client() {
        let two = "begin 1 write aa\nbegin 2 write bb\nend 1 written 1 1\nend 2 written 1 2\nbegin 3 read\n";
        let first = two.to_string() + "end 3 read 1 1 aa\n";
        let second = two.to_string() + "end 3 read 1 2 bb\n";
        assert_eq!(found(&second, &[]), Found::Order(vec![0, 1, 2]));
        assert_eq!(found(&first, &[]), Found::Unordered);
        assert_eq!(found(&first, &[1, 0]), Found::Order(vec![1, 0, 2]));
        assert_eq!(found(&second, &[1, 0]), Found::Unordered);
        assert_eq!(found(&first.replace("written 1 1", "written 2 1"), &[]), Found::Order(vec![1, 0, 2]));
        // Of two ended writes one tag is always the higher.
        let same = "begin 1 write aa\nend 1 written 1 1\nbegin 1 write bb\nend 1 written 1 1\n";
        assert_eq!(found(same, &[]), Found::Unordered);
    }

    /// Every order is tried of histories with few operations, drawn at random.
    #[test]
    fn the_search_finds_what_trying_all_finds() {
        let mut draws = Draws::new(1);
        let mut met = [0; 3];
        for _ in 0..1500 {
            let record = any_record(&mut draws);
            let history = host::history(&record, Some(vec![0]), vec![1, 0, 0]).unwrap();
            let (fit, rise) = all(&history);
            let due = [!fit, fit && !rise, rise].iter().position(|is| *is).unwrap();
            let number = match found(&record, &[1, 0, 0]) {
                Found::Nothing => 0,
                Found::Unordered => 1,
                Found::Order(_) => 2,
            };
            assert_eq!(number, due, "{record}");
            met[due] += 1;
        }
        assert!(met.iter().all(|met| *met > 30), "{met:?}");
    }

    /// Whether some order fits, and whether in some such order the writes rise.
    fn all(history: &History) -> (bool, bool) {
        let (mut fit, mut rise) = (false, false);
        let mut orders: Vec<Vec<usize>> = vec![vec![]];
        while let Some(order) = orders.pop() {
            if fits(history, &order) {
                fit = true;
                rise |= rises(history, &order);
            }
            let more = (0..history.operations.len()).filter(|i| !order.contains(i));
            orders.extend(more.map(|i| [&order[..], &[i]].concat()));
        }
        (fit, rise)
    }

    #[test]
    fn what_one_board_shows_has_an_order() {
        let mut draws = Draws::new(2);
        for _ in 0..60 {
            let clients = 1 + draws.next(8);
            order(&board_record(&mut draws, clients, 40));
        }
    }

    #[test]
    fn many_operations_take_a_moment_and_more_are_refused() {
        let one = |i: usize| {
            let board = format!("{:04x}", i);
            format!("begin 1 write {board}\nbegin 2 read\nend 1 written {i} 1\nend 2 read {i} 1 {board}\n")
        };
        let record: String = (1..=1500).map(one).collect();
        assert_eq!(order(&("begin 3 write ee\n".to_string() + &record)).len(), 3000);
        let record: String = (1..=2501).map(one).collect();
        assert!(search(&host::history(&record, None, vec![]).unwrap()).is_err());
    }
}
