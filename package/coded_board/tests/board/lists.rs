//! Random lists of events. The rig runs along, so that a draw can name what is in flight.

use crate::random::{config, made, Random};
use crate::rig::{line, Event, Rig};
use coded_board::{Config, Ended, Record};

/// Chances of 1000 for each event, and how messages are chosen.
#[derive(Clone, Copy)]
pub struct Mood {
    pub begin: usize,
    pub write: usize,
    pub lose: usize,
    pub double: usize,
    pub crash: usize,
    pub restart: usize,
    pub junk: usize,
    /// Each client's messages to and from a few servers, drawn now and then, go before all others.
    pub adverse: bool,
    /// In the order of sending.
    pub in_turn: bool,
    /// Fields that an event does not use are any.
    pub loose: bool,
}

/// What the lines of lists tell.
#[derive(Default, Debug)]
pub struct Met {
    pub events: usize,
    pub written: usize,
    pub read: usize,
    pub read_empty: usize,
    pub read_part: usize,
    /// With N at least 12 and k at least 8.
    pub read_wide: usize,
    pub restarted: usize,
    /// Restarts refused with 8: there is no such server.
    pub restart_of_none: usize,
    /// Restarts refused with 9: the server is up.
    pub restart_of_up: usize,
    /// By number.
    pub refused: [usize; 23],
}

pub struct Maker<'a> {
    pub random: &'a mut Random,
    pub rig: Rig,
    pub mood: Mood,
    pub met: &'a mut Met,
    /// What `simulate` is handed, and the lines due.
    pub input: Vec<u8>,
    pub lines: Vec<String>,
    /// The places among the lines of the events that several boards share.
    pub shared: Vec<usize>,
    /// The servers that go first, for each client, bit s for server s.
    quick: Vec<u32>,
}

impl<'a> Maker<'a> {
    pub fn new(random: &'a mut Random, met: &'a mut Met, mood: Mood, config: &Config, m: usize) -> Maker<'a> {
        let start = random.bytes(config.board_length());
        let rig = Rig::fresh(config, m, &start).expect("a fresh rig");
        let (numbers, ranks) = config.bytes()[..5 + usize::from(config.c())].split_at(5);
        // One board, with some share.
        let share = start.iter().map(|byte| usize::from(*byte)).sum::<usize>() * 7 % (m + 1);
        let [m_bytes, share] = [m, share].map(|number| (number as u16).to_le_bytes());
        let input = [numbers, &m_bytes, ranks, &[1], &share, &start].concat();
        let quick = vec![u32::MAX; config.c().into()];
        Maker { random, rig, mood, met, input, lines: vec![], shared: vec![], quick }
    }

    /// The next event. Now and then it stands twice, first with a board that isn't there.
    fn put(&mut self, event: Event) -> Result<Ended, u8> {
        let count = self.lines.len();
        if count.is_multiple_of(40) && (1..=5).contains(&event.code) {
            let on = [0, 2, 9, 255][count / 40 % 4];
            _ = self.run(Event { on, ..event.clone() });
        }
        self.run(event)
    }

    /// Runs an event and puts it to the input.
    fn run(&mut self, event: Event) -> Result<Ended, u8> {
        let answer = self.rig.event(&event);
        self.input.extend(event.bytes());
        self.lines.push(line(self.lines.len() + 1, &answer));
        self.met.events += 1;
        match (event.code, &answer) {
            (8, Ok(_)) => self.met.restarted += 1,
            (8, Err(8)) => self.met.restart_of_none += 1,
            (8, Err(9)) => self.met.restart_of_up += 1,
            _ => {}
        }
        match &answer {
            Ok(Ended::Written(_)) => self.met.written += 1,
            Ok(Ended::Read(_, board)) => {
                let (v, wide) =
                    (self.rig.config.board_length(), self.rig.config.n() >= 12 && self.rig.config.k() >= 8);
                self.met.read += 1;
                self.met.read_empty += usize::from(board.is_empty());
                self.met.read_part += usize::from(!board.is_empty() && board.len() < v);
                self.met.read_wide += usize::from(wide);
            }
            Ok(_) => {}
            Err(number) => self.met.refused[usize::from(*number)] += 1,
        }
        answer
    }

    /// An event that uses neither bytes nor length. A crash, a restart and an unknown event don't use the board's
    /// number either.
    fn short(&mut self, code: u8, party: u8, position: usize) -> Result<Ended, u8> {
        let v = self.rig.config.board_length();
        let (mut board, mut length) = (vec![0; v], 0);
        if self.mood.loose {
            (board, length) = (self.random.bytes(v), self.random.below(65536) as u16);
        }
        let on = if (1..=5).contains(&code) { 1 } else { board[0] };
        self.put(Event { code, party, position: position as u16, on, board, length })
    }

    fn party(&mut self, code: u8, party: u8) {
        let position = if self.mood.loose { self.random.below(600) } else { 0 };
        _ = self.short(code, party, position);
    }

    /// A crash or a restart that other boards have too.
    fn share(&mut self, (code, party): (u8, u8)) {
        self.shared.push(self.lines.len());
        self.party(code, party);
    }

    pub fn position(&mut self, code: u8, position: usize) -> Result<Ended, u8> {
        let party = if self.mood.loose { self.random.byte() } else { 0 };
        self.short(code, party, position)
    }

    pub fn write(&mut self, party: u8, length: usize) {
        let board = self.random.bytes(self.rig.config.board_length());
        let position = if self.mood.loose { self.random.below(600) as u16 } else { 0 };
        _ = self.put(Event { code: 1, party, position, on: 1, board, length: length as u16 });
    }

    pub fn begin(&mut self, party: u8, write: bool) {
        let length = self.random.length(self.rig.config.board_length());
        if write {
            self.write(party, length)
        } else {
            self.party(2, party)
        }
    }

    pub fn idle(&self) -> Vec<u8> {
        self.rig.clients.iter().filter(|client| client.is_idle()).map(|client| client.number()).collect()
    }

    fn ready(&self, record: &Record) -> bool {
        !self.mood.adverse || self.quick[usize::from(record.client()) - 1] >> record.server() & 1 == 1
    }

    /// Draws which servers go first for each client now and then, and for all where everything waits.
    fn draw_quick(&mut self) {
        let stuck = !self.rig.flight.iter().any(|record| self.ready(record));
        for place in 0..self.quick.len() {
            if stuck || self.random.chance(15) {
                self.quick[place] = (self.random.byte() as u32) << 9 | (self.random.byte() as u32) << 1;
            }
        }
    }

    /// Hands over, loses or doubles a message, one that goes first if there is any.
    fn message(&mut self, code: u8) -> Result<Ended, u8> {
        let flight = &self.rig.flight;
        let mut from: Vec<usize> = (0..flight.len()).filter(|p| self.ready(&flight[*p])).collect();
        if from.is_empty() {
            from = (0..flight.len()).collect();
        }
        let position = if self.mood.in_turn { from[0] } else { self.random.pick(&from) };
        self.position(code, position)
    }

    /// Codes, parties, positions and lengths that no sensible host names.
    fn junk(&mut self) {
        let (c, v) = (self.rig.config.c(), self.rig.config.board_length());
        let flight = self.rig.flight.len();
        match self.random.below(6) {
            0 => {
                let (code, party) = (self.random.pick(&[1, 2, 7]), self.random.pick(&[0, c + 1, 255]));
                if code == 1 {
                    self.begin(party, true)
                } else {
                    self.party(code, party)
                }
            }
            1 => self.junk_of_servers(),
            2 => {
                let party = self.random.within(0, usize::from(c) + 1) as u8;
                let length = self.random.pick(&[v + 1, v + 2, v + 256, 65535]);
                self.write(party, length);
            }
            3 => {
                let party = self.random.within(1, c.into()) as u8;
                let write = self.random.chance(500);
                self.begin(party, write);
            }
            4 => {
                let code = self.random.pick(&[0, 9, 10, 128, 255]);
                self.party(code, 1);
            }
            _ => {
                let (code, position) =
                    (self.random.pick(&[3, 4, 5]), self.random.pick(&[flight, flight + 1, 65535]));
                _ = self.position(code, position);
            }
        }
    }

    /// A crash or a restart of a server that is not there, or a restart of one that is up.
    fn junk_of_servers(&mut self) {
        let n = self.rig.config.n();
        let (code, none) = (self.random.pick(&[6, 8]), self.random.pick(&[0, n + 1, 255]));
        let up = self.some_server(true).filter(|_| code == 8 && self.random.chance(500));
        self.party(code, up.unwrap_or(none));
    }

    /// A server that is up, or else down, if there is any.
    fn some_server(&mut self, up: bool) -> Option<u8> {
        let servers: Vec<u8> = (1..).zip(&self.rig.up).filter(|(_, is)| **is == up).map(|(s, _)| s).collect();
        (!servers.is_empty()).then(|| self.random.pick(&servers))
    }

    /// Any event, as the mood has it.
    pub fn any(&mut self) {
        let mood = self.mood;
        if mood.adverse {
            self.draw_quick();
        }
        if self.random.chance(mood.junk) {
            return self.junk();
        }
        if self.random.chance(mood.crash) {
            let (server, client) = ((6, self.rig.config.n()), (7, self.rig.config.c()));
            let (code, most) = self.random.pick(&[server, server, client]);
            let party = self.random.within(1, most.into()) as u8;
            return self.party(code, party);
        }
        if let Some(party) = self.some_server(false).filter(|_| self.random.chance(mood.restart)) {
            return self.party(8, party);
        }
        let idle = self.idle();
        if !idle.is_empty() && (self.rig.flight.is_empty() || self.random.chance(mood.begin)) {
            let (party, write) = (self.random.pick(&idle), self.random.chance(mood.write));
            return self.begin(party, write);
        }
        if self.rig.flight.is_empty() {
            return self.junk();
        }
        let (lose, double) = (self.random.chance(mood.lose), self.random.chance(mood.double));
        _ = self.message(if lose { 4 } else { 3 + 2 * u8::from(double) });
    }

    /// All idle clients but one begin to write and have their queries answered before anything else, so that
    /// tags of one number come of it.
    pub fn tie(&mut self) {
        let writers = self.idle();
        let writers = &writers[..writers.len().saturating_sub(1).max(1).min(writers.len())];
        writers.iter().for_each(|client| self.begin(*client, true));
        for kind in [1, 2] {
            let theirs = |r: &Record| r.kind() == kind && writers.contains(&r.client());
            for _ in 0..self.rig.flight.len() {
                let Some(first) = self.rig.flight.iter().position(theirs) else { break };
                _ = self.position(3, first);
            }
        }
    }

    /// Every client begins, then messages are doubled till there is no room.
    pub fn fill(&mut self) {
        for client in self.idle() {
            let write = self.random.chance(self.mood.write);
            self.begin(client, write);
        }
        while !self.rig.flight.is_empty() && self.rig.flight.len() < self.rig.m {
            let position = self.random.below(self.rig.flight.len());
            _ = self.position(5, position);
        }
    }

    /// Everything is handed over, then each client that is idle reads.
    pub fn settle(&mut self) {
        self.mood.adverse = false;
        self.hand_over_all();
        for client in self.idle() {
            self.begin(client, false);
            self.hand_over_all();
        }
    }

    /// What finds no room is lost; so is everything in the end, as reads could ask for ever.
    fn hand_over_all(&mut self) {
        let mut left = 200 + 6 * self.rig.flight.len();
        while !self.rig.flight.is_empty() {
            let code = if left > 0 { 3 } else { 4 };
            if self.message(code) == Err(13) {
                _ = self.message(4);
            }
            left = left.saturating_sub(1);
        }
    }
}

pub const KINDS: u64 = 6;

/// List `number` of a seed: its input for `simulate` and the lines due. Of six in turn, one is calm, one has
/// faults, one is adverse, one clears elements that readers want, one has ties, and in one servers crash and come
/// back.
pub fn list<'a>(random: &'a mut Random, number: u64, met: &'a mut Met) -> Maker<'a> {
    let kind = number % KINDS;
    let config = match kind {
        0 | 1 => config(random),
        2 => small(random, [1, 4], [1, 4]),
        3 => small(random, [0, 1], [3, 5]),
        4 => small(random, [0, 2], [3, 6]),
        _ => small(random, [0, 2], [4, 8]),
    };
    let n = usize::from(config.n());
    let m = if random.chance(300) { random.within(n, 6 * n) } else { 512 };
    of_kind(random, kind, met, &config, m, &[])
}

/// A list of this kind. The codes and parties are of crashes and restarts that other boards share; they stand at
/// even distances.
pub fn of_kind<'a>(
    random: &'a mut Random,
    kind: u64,
    met: &'a mut Met,
    config: &Config,
    m: usize,
    shared: &[(u8, u8)],
) -> Maker<'a> {
    let (n, mood) = (usize::from(config.n()), mood(random, kind));
    let events = random.within(40, 80 + 60 * n).min(400_000 / config.board_length());
    let mut maker = Maker::new(random, met, mood, config, m);
    if kind == 1 && maker.random.chance(300) {
        maker.fill();
    }
    let part = events / (shared.len() + 1);
    for event in 0..events {
        if kind == 4 && event % (20 * n) == 0 {
            maker.tie();
        }
        if let Some(shared) = shared.get(event / part).filter(|_| event % part == part - 1) {
            maker.share(*shared);
        }
        maker.any();
    }
    if kind != 1 || maker.random.chance(700) {
        maker.settle();
    }
    maker
}

/// Few servers; D and C within these.
pub fn small(random: &mut Random, d: [usize; 2], c: [usize; 2]) -> Config {
    let n = random.within(3, 6);
    let (k, e) = (random.within(1, n - 2), random.within(1, 2));
    let (d, c) = (random.within(d[0], d[1]), random.within(c[0], c[1]));
    made(random, [n, k, d, e, c])
}

fn mood(random: &mut Random, kind: u64) -> Mood {
    let calm = Mood {
        begin: random.pick(&[20, 60, 150]),
        write: random.pick(&[300, 500, 700]),
        lose: 0,
        double: random.pick(&[0, 20]),
        crash: 0,
        restart: 0,
        junk: 20,
        adverse: kind >= 2 && random.chance(800),
        in_turn: random.chance(250),
        loose: random.chance(500),
    };
    match kind {
        1 => {
            let (lose, double) = (random.below(60), random.below(200));
            let (crash, restart) = (random.below(20), random.below(30));
            Mood { lose, double, crash, restart, junk: 100, adverse: random.chance(300), ..calm }
        }
        5 => Mood { crash: random.within(5, 20), restart: random.within(20, 80), ..calm },
        _ => calm,
    }
}
