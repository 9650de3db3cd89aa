//! Histories, from events and printed answers only, and the search for an order that fits (Wing and
//! Gong). The search knows operations, boards and times, and of tags only how those of ended writes rise.

use crate::list::List;
use crate::model::Event;
use std::collections::{HashMap, HashSet};

/// What the single board keeps and shows: a length and V bytes, zero past it.
pub type Board = (usize, Vec<u8>);

/// So many of the bytes, and zeros after, up to V.
pub fn board(length: usize, bytes: &[u8], v: usize) -> Board {
    let mut kept: Vec<u8> = bytes.iter().take(length).copied().collect();
    kept.resize(v, 0);
    (length, kept)
}

/// A printed tag, with the rank of its client: the number, the rank, the client number.
pub type Tag = (u32, u8, u8);

#[derive(Clone, Debug)]
pub struct Operation {
    pub write: bool,
    /// That handed in at a write's begin, or that a read shows.
    pub board: Board,
    pub begin: usize,
    pub end: Option<usize>,
    /// That of an ended write.
    pub tag: Option<Tag>,
}

/// Ended reads and writes and unended writes, by begin. Spent ones and unended reads are left out.
#[derive(Clone, Debug)]
pub struct History {
    pub start: Board,
    pub operations: Vec<Operation>,
}

/// That of one board, from the events that name it. The lines don't print the client whose operation ended, so `list`
/// names it.
pub fn history(list: &List, lines: &str, board: u8) -> Result<History, String> {
    let v = list.config.v();
    let mut operations: Vec<Operation> = vec![];
    let mut open: [Option<usize>; 17] = [None; 17];
    let mut left_out = vec![];
    for (time, event, line) in of_board(list, lines, board) {
        let words: Vec<&str> = line.split(' ').collect();
        let (code, client) = (event.code, list.named[time] as usize);
        if words[1] == "ok" && matches!(code, 1 | 2) {
            open[event.party as usize] = Some(operations.len());
            let board = if code == 1 { written(&event, v) } else { shown("", v) };
            operations.push(Operation { write: code == 1, board, begin: time, end: None, tag: None });
        } else if matches!(words[1], "written" | "spent" | "read") {
            let ended = open[client].take().ok_or(format!("nothing open for {client}: {line}"))?;
            let operation = &mut operations[ended];
            if words[1] != "spent" && operation.write == (words[1] == "read") {
                return Err(format!("not the operation begun: {line}"));
            }
            operation.end = Some(time);
            match words[1] {
                "read" => operation.board = shown(words.get(4).unwrap_or(&""), v),
                "written" if words[3] != client.to_string() => {
                    return Err(format!("not its own tag: {line}"));
                }
                "written" => operation.tag = Some(printed(words[2], list.config.ranks[client - 1], client)?),
                _ => left_out.push(ended),
            }
        }
    }
    let kept = operations.into_iter().enumerate();
    let kept = kept.filter(|(i, o)| !left_out.contains(i) && (o.write || o.end.is_some()));
    let start = self::board(v, list.start_of(board), v);
    Ok(History { start, operations: kept.map(|(_, o)| o).collect() })
}

/// The events that name a board, with their places in the list and their lines. A crash or a restart names none.
pub fn of_board<'a>(
    list: &'a List,
    lines: &'a str,
    board: u8,
) -> impl Iterator<Item = (usize, Event<'a>, &'a str)> {
    let all = list.events().zip(lines.lines()).enumerate();
    let all = all.map(|(time, (event, line))| (time, event, line));
    all.filter(move |(_, event, _)| (1..=5).contains(&event.code) && event.board == board)
}

fn printed(number: &str, rank: u8, client: usize) -> Result<Tag, String> {
    let number = number.parse().map_err(|_| format!("no number of a tag: {number}"))?;
    Ok((number, rank, client as u8))
}

/// The board that an event 1 hands in.
fn written(event: &Event, v: usize) -> Board {
    board(event.length, event.bytes, v)
}

/// The board of a read's digits; there are none if its length is 0.
fn shown(digits: &str, v: usize) -> Board {
    let pairs = digits.as_bytes().chunks(2);
    let bytes = pairs.map(|pair| u8::from_str_radix(std::str::from_utf8(pair).unwrap(), 16).unwrap());
    let bytes: Vec<u8> = bytes.collect();
    board(bytes.len(), &bytes, v)
}

/// Reads that differ by their length alone from a board written, or from the starting board.
pub fn told_by_length(history: &History) -> usize {
    let (start, operations) = (&history.start, &history.operations);
    let writes = operations.iter().filter(|o| o.write).map(|o| &o.board);
    let kept: Vec<&Board> = writes.chain([start]).collect();
    let alike = |a: &Board, b: &Board| a.1 == b.1 && a.0 != b.0;
    operations.iter().filter(|o| !o.write && kept.iter().any(|kept| alike(kept, &o.board))).count()
}

/// Document 01's own words on an order that fits.
pub fn fits(history: &History, order: &[usize]) -> bool {
    let operations = &history.operations;
    let mut times = vec![0; operations.len()];
    order.iter().for_each(|i| times[*i] += 1);
    let each_once = operations.iter().zip(&times).all(|(o, times)| match o.end {
        Some(_) => *times == 1,
        None => o.write && *times <= 1,
    });
    let ended_before = |a: usize, b: usize| operations[a].end.is_some_and(|end| end < operations[b].begin);
    let in_time =
        (0..order.len()).all(|p| order[p + 1..].iter().all(|later| !ended_before(*later, order[p])));
    let mut state = &history.start;
    let as_shown = order.iter().all(|i| {
        let o = &operations[*i];
        if o.write {
            state = &o.board;
        }
        o.write || *state == o.board
    });
    each_once && in_time && as_shown
}

/// Request L5's words: the ended writes stand in rising tag order.
pub fn rises(history: &History, order: &[usize]) -> bool {
    let tags: Vec<Tag> = order.iter().filter_map(|i| history.operations[*i].tag).collect();
    tags.windows(2).all(|two| two[0] < two[1])
}

struct Search<'a> {
    operations: &'a [Operation],
    /// Each operation's board as a number.
    boards: Vec<usize>,
    /// The place of each ended write among them, if they are to rise.
    places: Vec<Option<usize>>,
    /// Ended writes done.
    written: usize,
    /// Ended operations not yet done.
    left: usize,
    done: Vec<u64>,
    order: Vec<usize>,
    /// Sets of operations done, with the board's state, from which the search has gone on before.
    tried: HashSet<(Vec<u64>, usize)>,
}

/// An order that fits, if there is one.
pub fn search(history: &History) -> Option<Vec<usize>> {
    search_by(history, vec![None; history.operations.len()])
}

/// An order that fits with the ended writes in rising tag order, if there is one.
pub fn search_rising(history: &History) -> Option<Vec<usize>> {
    let mut tags: Vec<Tag> = history.operations.iter().filter_map(|o| o.tag).collect();
    tags.sort();
    let place = |tag: Tag| tags.partition_point(|other| *other < tag);
    search_by(history, history.operations.iter().map(|o| o.tag.map(place)).collect())
}

/// The same with ranks left out of the tags.
pub fn search_rising_plain(history: &History) -> Option<Vec<usize>> {
    let mut plain = history.clone();
    plain.operations.iter_mut().for_each(|o| o.tag = o.tag.map(|(number, _, client)| (number, 0, client)));
    search_rising(&plain)
}

fn search_by(history: &History, places: Vec<Option<usize>>) -> Option<Vec<usize>> {
    let operations = &history.operations;
    let mut numbers = HashMap::from([(&history.start, 0)]);
    let boards = operations.iter().map(|o| {
        let fresh = numbers.len();
        *numbers.entry(&o.board).or_insert(fresh)
    });
    let boards = boards.collect();
    let left = operations.iter().filter(|o| o.end.is_some()).count();
    let done = vec![0; operations.len().div_ceil(64)];
    let (order, tried) = (vec![], HashSet::new());
    let mut search = Search { operations, boards, places, written: 0, left, done, order, tried };
    search.go(0, 0).then_some(search.order)
}

impl Search<'_> {
    fn is_done(&self, i: usize) -> bool {
        self.done[i / 64] >> (i % 64) & 1 == 1
    }

    /// Operations that may stand next: none that isn't done ended before they began.
    fn next(&self, first: usize) -> Vec<usize> {
        let mut found = vec![];
        let mut earliest_end = usize::MAX;
        for i in first..self.operations.len() {
            let o = &self.operations[i];
            if o.begin > earliest_end {
                break;
            }
            if !self.is_done(i) {
                found.push(i);
                earliest_end = earliest_end.min(o.end.unwrap_or(usize::MAX));
            }
        }
        found
    }

    /// Everything before `first` is done.
    fn go(&mut self, mut first: usize, state: usize) -> bool {
        if self.left == 0 {
            return true;
        }
        if !self.tried.insert((self.done.clone(), state)) {
            return false;
        }
        while self.is_done(first) {
            first += 1;
        }
        for i in self.next(first) {
            let o = &self.operations[i];
            let stale = !o.write && self.boards[i] != state;
            if stale || self.places[i].is_some_and(|place| place != self.written) {
                continue;
            }
            let (ended, written) = (o.end.is_some() as usize, self.places[i].is_some() as usize);
            let after = if o.write { self.boards[i] } else { state };
            self.done[i / 64] ^= 1 << (i % 64);
            self.left -= ended;
            self.written += written;
            self.order.push(i);
            if self.go(first, after) {
                return true;
            }
            self.order.pop();
            self.written -= written;
            self.left += ended;
            self.done[i / 64] ^= 1 << (i % 64);
        }
        false
    }
}
