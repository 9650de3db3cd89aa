//! What lists meet of several boards.

use crate::common::never;
use crate::model::{Answer, Config, Event, Phase, Record, Rig, Tag};
use std::collections::{HashMap, HashSet};

/// What the lists made so far have met of them.
#[derive(Default, Debug)]
pub struct Shared {
    /// Lists of so many boards.
    lists: [usize; 9],
    /// Of several boards: without shares, with shares that add to M, with others.
    shares: [usize; 3],
    refused: NoBoard,
    room: Room,
    parties: Both,
    /// 8 for a position below the number in flight on all boards.
    position_of_others: usize,
    /// Reads that end, by board.
    reads: [usize; 9],
    /// Reads that show other bytes than a read on another board has shown under the same tag, and under (0, 0).
    one_tag: usize,
    starting_tag: usize,
}

/// Events with a board that isn't there.
#[derive(Default, Debug)]
struct NoBoard {
    /// 22 for board 0, for the one next to the last, for any other.
    zero: usize,
    next: usize,
    higher: usize,
    /// 22 with a length above V, with no such client, with a client that is down or busy, with no such position.
    before_19: usize,
    before_8: usize,
    before_9: usize,
    before_10: usize,
    no_position: usize,
    /// Events that name none: 7, a crash, a crash that gets 8, one that gets 9, and the same of restarts.
    unknown: usize,
    crash: usize,
    crash_8: usize,
    crash_9: usize,
    restart: usize,
    restart_8: usize,
    restart_9: usize,
}

/// 13 on one of several boards.
#[derive(Default, Debug)]
struct Room {
    /// With at most M in flight afterwards: at a begin, at a doubling, at handing over.
    by_shares: [usize; 3],
    /// With more than M.
    by_m: usize,
    /// Of a board without a share, where others have all the room that is free.
    nothing_left: usize,
    /// A board sends within its share, and one beyond its share, right after another has got 13.
    within_share: usize,
    beyond_share: usize,
}

/// One party on several boards.
#[derive(Default, Debug)]
struct Both {
    /// Begins after which a client has operations on two boards, and on more.
    open_on_two: usize,
    open_on_more: usize,
    /// Crashes of a client with operations on several boards, and of a server with messages to it on several.
    client_crashes: usize,
    server_crashes: usize,
    /// Crashed parties that messages to them are gone for on a second board; crashed clients that get 9 on one.
    gone_on_two: usize,
    refused_on_two: usize,
}

/// What is kept of one list for that.
#[derive(Default)]
pub struct Sharing {
    /// The board whose event was the last one and got 13.
    full: Option<u8>,
    /// The boards on which messages to a crashed server, or client, were gone since its crash.
    gone: HashMap<(bool, u8), HashSet<u8>>,
    /// The boards on which a crashed client got 9.
    refused: HashMap<u8, HashSet<u8>>,
    /// The board and the bytes that a tag was first shown with.
    shown: HashMap<(u32, u8), (u8, Vec<u8>)>,
}

/// The rig before an event: how many messages each board has, and all together.
pub struct Before {
    counts: Vec<usize>,
    all: usize,
}

impl Before {
    pub fn of(rig: &Rig) -> Before {
        let counts = (1..=rig.config.boards as u8).map(|board| rig.count(board)).collect();
        Before { counts, all: rig.flight.len() }
    }
}

fn busy(phase: Phase) -> bool {
    !matches!(phase, Phase::Idle | Phase::Down)
}

/// Phases of a client on each board.
fn phases(rig: &Rig, client: u8) -> impl Iterator<Item = Phase> {
    rig.parties
        .iter()
        .filter_map(move |parties| parties.clients.get((client as usize).checked_sub(1)?))
        .map(|c| c.phase)
}

impl Shared {
    pub fn missing(&self) -> Vec<&'static str> {
        const LISTS: [&str; 9] = [
            "",
            "lists of 1 board",
            "lists of 2 boards",
            "lists of 3 boards",
            "lists of 4 boards",
            "lists of 5 boards",
            "lists of 6 boards",
            "lists of 7 boards",
            "lists of 8 boards",
        ];
        let of_lists: Vec<_> = LISTS.into_iter().zip(self.lists).skip(1).collect();
        let least_reads = self.reads[1..].iter().copied().min().unwrap();
        let counts = [
            ("boards without shares", self.shares[0]),
            ("shares that add to M", self.shares[1]),
            ("other shares", self.shares[2]),
            ("8 for a position on another board", self.position_of_others),
            ("reads on each of 8 boards", least_reads),
            ("other bytes under one tag", self.one_tag),
            ("other bytes under the starting tag", self.starting_tag),
        ];
        [
            never(&of_lists),
            never(&counts),
            self.refused.missing(),
            self.room.missing(),
            self.parties.missing(),
        ]
        .concat()
    }

    pub fn note_list(&mut self, config: &Config) {
        self.lists[config.boards] += 1;
        if config.boards > 1 {
            let guaranteed = config.guaranteed();
            let sort = if guaranteed == 0 { 0 } else { 2 - (guaranteed == config.m) as usize };
            self.shares[sort] += 1;
        }
    }
}

impl NoBoard {
    fn missing(&self) -> Vec<&'static str> {
        never(&[
            ("22 of board 0", self.zero),
            ("22 of the board above the last", self.next),
            ("22 of a higher board", self.higher),
            ("22 with a length above V", self.before_19),
            ("22 of a client that isn't there", self.before_8),
            ("22 of a client that is down", self.before_9),
            ("22 of a client that is busy", self.before_10),
            ("22 of a position that isn't there", self.no_position),
            ("7 with a board that isn't there", self.unknown),
            ("a crash with a board that isn't there", self.crash),
            ("8 of a crash with a board that isn't there", self.crash_8),
            ("9 of a crash with a board that isn't there", self.crash_9),
            ("a restart with a board that isn't there", self.restart),
            ("8 of a restart with a board that isn't there", self.restart_8),
            ("9 of a restart with a board that isn't there", self.restart_9),
        ])
    }

    /// Notes an event whose board isn't there.
    fn note(&mut self, rig: &Rig, event: &Event, answer: &Result<Answer, u8>) {
        let Config { c, boards, .. } = rig.config;
        match (event.code, answer) {
            (1..=5, Err(22)) => {
                let board = event.board as usize;
                let which = if board == 0 { &mut self.zero } else { &mut self.higher };
                *(if board == boards + 1 { &mut self.next } else { which }) += 1;
                let begins = event.code <= 2;
                let is_client = (1..=c).contains(&(event.party as usize));
                self.before_19 += (event.code == 1 && event.length > rig.config.v()) as usize;
                self.before_8 += (begins && !is_client) as usize;
                self.before_9 += (begins && phases(rig, event.party).any(|p| p == Phase::Down)) as usize;
                self.before_10 += (begins && phases(rig, event.party).any(busy)) as usize;
                self.no_position += (!begins && event.position >= rig.flight.len()) as usize;
            }
            (6 | 7, Ok(_)) => self.crash += 1,
            (6 | 7, Err(8)) => self.crash_8 += 1,
            (6 | 7, Err(9)) => self.crash_9 += 1,
            (8, Ok(_)) => self.restart += 1,
            (8, Err(8)) => self.restart_8 += 1,
            (8, Err(9)) => self.restart_9 += 1,
            (_, Err(7)) => self.unknown += 1,
            _ => unreachable!("{event:?}: {answer:?}"),
        }
    }
}

impl Room {
    fn missing(&self) -> Vec<&'static str> {
        never(&[
            ("13 by shares at a begin", self.by_shares[0]),
            ("13 by shares at a doubling", self.by_shares[1]),
            ("13 by shares at handing over", self.by_shares[2]),
            ("13 by M on one of several boards", self.by_m),
            ("13 of a board with nothing left", self.nothing_left),
            ("a board that sends within its share while another gets 13", self.within_share),
            ("a board that sends beyond its share while another gets 13", self.beyond_share),
        ])
    }

    /// Notes a 13, by the rig, which is as it was.
    fn note_13(&mut self, rig: &Rig, event: &Event) {
        let Config { n, m, shares, .. } = rig.config;
        let (sort, more) = match event.code {
            1 | 2 => (0, n),
            5 => (1, 1),
            _ => (2, n - 1),
        };
        let by_shares = rig.flight.len() + more <= m;
        self.by_shares[sort] += by_shares as usize;
        self.by_m += !by_shares as usize;
        let free = m - rig.config.guaranteed();
        let no_share = shares[event.board as usize - 1] == 0 && rig.count(event.board) == 0;
        self.nothing_left += (no_share && rig.beyond(event.board, 0) == free) as usize;
    }

    /// Notes a board that sends after another's 13.
    fn note_sent(&mut self, rig: &Rig, board: u8) {
        let within = rig.count(board) <= rig.config.shares[board as usize - 1];
        self.within_share += within as usize;
        self.beyond_share += !within as usize;
    }
}

impl Both {
    fn missing(&self) -> Vec<&'static str> {
        never(&[
            ("a client's operations on two boards", self.open_on_two),
            ("a client's operations on more boards", self.open_on_more),
            ("a crash of a client with operations on several boards", self.client_crashes),
            ("a crash of a server with messages on several boards", self.server_crashes),
            ("messages to a crashed party on two boards", self.gone_on_two),
            ("9 of a crashed client on two boards", self.refused_on_two),
        ])
    }

    fn note_begun(&mut self, rig: &Rig, client: u8) {
        let open = phases(rig, client).filter(|phase| busy(*phase)).count();
        self.open_on_two += (open == 2) as usize;
        self.open_on_more += (open > 2) as usize;
    }
}

impl Sharing {
    /// Notes a crash that is to be accepted.
    pub fn note_crash(&self, met: &mut Shared, rig: &Rig, event: &Event) {
        if event.code == 7 {
            let open = phases(rig, event.party).filter(|phase| busy(*phase)).count();
            met.parties.client_crashes += (open > 1) as usize;
        }
        if event.code == 6 {
            let up = rig.on(1).servers.get((event.party as usize).wrapping_sub(1)).is_some_and(|s| s.up);
            let to_it = |r: &Record| up && r.for_server() && r.server == event.party;
            let with =
                rig.flight.iter().filter(|message| to_it(&message.record)).map(|message| message.board);
            met.parties.server_crashes += (with.collect::<HashSet<_>>().len() > 1) as usize;
        }
    }

    /// Notes what has become of an event.
    pub fn note(
        &mut self,
        met: &mut Shared,
        before: &Before,
        rig: &Rig,
        event: &Event,
        answer: &Result<Answer, u8>,
    ) {
        let board = event.board;
        if event.code == 8 && answer.is_ok() {
            self.gone.remove(&(true, event.party));
        }
        if rig.config.ask_board(board).is_err() {
            self.full = None;
            return met.refused.note(rig, event, answer);
        }
        if !(1..=5).contains(&event.code) || rig.config.boards == 1 {
            self.full = None;
            return;
        }
        match answer {
            Ok(Answer::Read(_, tag, shown)) => self.note_read(met, board, *tag, &shown.bytes),
            Ok(_) if event.code <= 2 => met.parties.note_begun(rig, event.party),
            Err(13) => met.room.note_13(rig, event),
            Err(9) => {
                met.parties.refused_on_two += second(self.refused.entry(event.party).or_default(), board)
            }
            Err(8) if event.code > 2 => met.position_of_others += (event.position < before.all) as usize,
            _ => {}
        }
        let sends = rig.count(board) > before.counts[board as usize - 1];
        if sends && self.full.is_some_and(|full| full != board) {
            met.room.note_sent(rig, board);
        }
        self.full = (*answer == Err(13)).then_some(board);
    }

    fn note_read(&mut self, met: &mut Shared, board: u8, tag: Tag, bytes: &[u8]) {
        met.reads[board as usize] += 1;
        let first = self.shown.entry((tag.number, tag.client)).or_insert((board, bytes.to_vec()));
        let other = first.0 != board && first.1 != bytes;
        met.one_tag += (other && tag.number > 0) as usize;
        met.starting_tag += (other && tag.number == 0) as usize;
    }

    /// Notes a message that was gone on a board.
    pub fn note_gone(&mut self, met: &mut Shared, r: &Record, board: u8) {
        let party = if r.for_server() { (true, r.server) } else { (false, r.client) };
        met.parties.gone_on_two += second(self.gone.entry(party).or_default(), board);
    }
}

/// Adds a board; 1 if it is the second one.
pub fn second(boards: &mut HashSet<u8>, board: u8) -> usize {
    (boards.insert(board) && boards.len() == 2) as usize
}
