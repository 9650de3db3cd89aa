//! Makes a list of events. The model runs along, so that a draw can name what is in flight.

use crate::common::never;
use crate::list::List;
use crate::model::{
    Answer, Board, CLEARED, Client, Config, Event, Parties, Phase, QUERY, READ_FINALISE, Record, Rig, START,
    Tag,
};
use crate::random::Random;
use crate::restarts::{Restarting, Restarts};
use crate::sharing::{Before, Shared, Sharing};
use crate::ties::{Ties, mixed, plain};
use std::collections::HashSet;

/// What the lists made so far have met.
#[derive(Default, Debug)]
pub struct Seen {
    pub ok: usize,
    pub written: usize,
    pub read: usize,
    /// By number.
    pub refused: [usize; 23],
    pub refused_13_at_handing_over: usize,
    pub refused_19_of_no_client: usize,
    /// Accepted, with bytes past their length that aren't 0.
    pub writes_with_more_bytes: usize,
    /// Accepted, with a number above V where a write has its length.
    pub begun_reads_with_a_length: usize,
    pub reads_of_length_0: usize,
    /// Neither 0 nor V.
    pub reads_of_a_part: usize,
    /// Of a part, longer than 255.
    pub reads_of_a_long_part: usize,
    pub handed_to_crashed: usize,
    pub not_awaited: usize,
    pub most_in_flight: usize,
    pub cleared: Cleared,
    pub ties: Ties,
    pub boards: Shared,
    pub restarts: Restarts,
}

/// What they have met of kind 9.
#[derive(Default, Debug)]
pub struct Cleared {
    pub sent: usize,
    /// How often reads asked again.
    pub askings: usize,
    /// Reads that asked again once at least, and twice at least.
    pub asked_again: usize,
    pub asked_twice: usize,
    /// Reads that ended after one asking again, and after more.
    pub ended_after_one: usize,
    pub ended_after_more: usize,
    /// Askings again with servers counted, with elements received and with k of them.
    pub with_counted: usize,
    pub with_elements: usize,
    pub with_k_elements: usize,
    /// Not awaited: late, handed over for the second time, of a server already counted.
    pub late: usize,
    pub doubled: usize,
    pub of_a_counted: usize,
    pub refused_13: usize,
    pub handed_to_crashed: usize,
}

impl Seen {
    /// What a list can meet and none has met.
    pub fn missing(&self) -> Vec<&'static str> {
        let counts = [
            ("ok", self.ok),
            ("written", self.written),
            ("read", self.read),
            ("7", self.refused[7]),
            ("8", self.refused[8]),
            ("9", self.refused[9]),
            ("10", self.refused[10]),
            ("13", self.refused[13]),
            ("13 at handing over", self.refused_13_at_handing_over),
            ("19", self.refused[19]),
            ("22", self.refused[22]),
            ("19 of a client that isn't there", self.refused_19_of_no_client),
            ("writes with bytes past their length", self.writes_with_more_bytes),
            ("reads begun with a length above V", self.begun_reads_with_a_length),
            ("reads of length 0", self.reads_of_length_0),
            ("reads of a length between 0 and V", self.reads_of_a_part),
            ("reads of a length between 255 and V", self.reads_of_a_long_part),
            ("handed to a crashed party", self.handed_to_crashed),
            ("not awaited (14)", self.not_awaited),
            ("512 in flight", (self.most_in_flight == 512) as usize),
        ];
        let others = [self.ties.missing(), self.boards.missing(), self.restarts.missing()].concat();
        [never(&counts), self.cleared.missing(), others].concat()
    }
}

impl Cleared {
    fn missing(&self) -> Vec<&'static str> {
        never(&[
            ("kind 9", self.sent),
            ("reads that ask again", self.asked_again),
            ("reads that ask again twice", self.asked_twice),
            ("reads that end after asking again once", self.ended_after_one),
            ("reads that end after asking again twice", self.ended_after_more),
            ("asking again with servers counted", self.with_counted),
            ("asking again with elements", self.with_elements),
            ("asking again with k elements", self.with_k_elements),
            ("a late kind 9", self.late),
            ("a doubled kind 9", self.doubled),
            ("kind 9 of a server already counted", self.of_a_counted),
            ("13 for kind 9", self.refused_13),
            ("kind 9 to a crashed client", self.handed_to_crashed),
        ])
    }
}

#[derive(Clone, Copy)]
pub enum Order {
    Any,
    First,
    Last,
}

/// Chances of 1000 for each event, and how clients and positions are chosen.
#[derive(Clone, Copy)]
pub struct Mood {
    pub begin: usize,
    pub write: usize,
    pub lose: usize,
    pub double: usize,
    pub crash_server: usize,
    pub crash_client: usize,
    /// Of a server that is down.
    pub restart: usize,
    pub junk: usize,
    /// Servers down at once, at most.
    pub crashes: usize,
    /// Chances of 1000 that messages to servers that are down wait for them; where all do, one is started again.
    pub wait: usize,
    /// Writes open at once, at most.
    pub writers: usize,
    /// One operation at a time, but for reads that have asked again twice.
    pub alone: bool,
    pub order: Order,
    /// Each phase gets its messages through to a few servers drawn for it, before all others.
    pub adverse: bool,
    /// A board's bytes are all one of so many, any past its length; 0: any bytes.
    pub boards: usize,
    /// Chances of 1000 that a write has length V; else its length is drawn.
    pub whole: usize,
    /// First the messages in flight are doubled up to about M.
    pub fill: bool,
    /// In the end everything is handed over and clients read.
    pub settle: bool,
    /// Chances of 1000 that an event is of the same board as the one before; else its board is drawn.
    pub stay: usize,
    /// No crash and no restart, not even one that is refused.
    pub no_crash: bool,
}

/// What is kept of one board's part of a list.
struct Part {
    /// For each client: its operation and phase, and the servers that are quick in it, as bits.
    quick: Vec<(u32, Phase, usize)>,
    /// How often each client's operation has asked again.
    again: Vec<usize>,
    /// Client, operation number and server of each kind 9 that made a read ask again.
    heeded: HashSet<(u8, u32, u8)>,
    /// For each client the highest tag of its latest asking, ranks left out.
    plain: Vec<Tag>,
}

impl Part {
    fn of(c: usize) -> Part {
        let quick = vec![(0, Phase::Idle, 0); c];
        Part { quick, again: vec![0; c], heeded: HashSet::new(), plain: vec![START; c] }
    }
}

pub struct Maker<'a> {
    pub random: &'a mut Random,
    pub seen: &'a mut Seen,
    pub mood: Mood,
    pub rig: Rig,
    pub list: List,
    /// The board that events name.
    pub on: u8,
    /// Fields that an event doesn't use are drawn; else they are 0.
    littered: bool,
    /// Those of boards 1, 2 and so on.
    parts: Vec<Part>,
    sharing: Sharing,
    restarting: Restarting,
    /// Clients differ in rank.
    mixed: bool,
}

impl<'a> Maker<'a> {
    pub fn new(
        random: &'a mut Random,
        seen: &'a mut Seen,
        mood: Mood,
        config: Config,
        general: bool,
    ) -> Self {
        let bytes = config.boards * config.v();
        let start = if general { random.bytes(bytes) } else { vec![0; bytes] };
        Maker::from(random, seen, mood, List::new(general, config, start))
    }

    /// Goes on from a list with no events.
    pub fn from(random: &'a mut Random, seen: &'a mut Seen, mood: Mood, list: List) -> Self {
        let config = list.config;
        let rig = Rig::make(config, &list.start).expect("a configuration in range");
        let littered = random.chance(500);
        let parts = (0..config.boards).map(|_| Part::of(config.c)).collect();
        seen.boards.note_list(&config);
        let (sharing, restarting, mixed) = (Sharing::default(), Restarting::default(), mixed(&config));
        Maker { random, seen, mood, rig, list, on: 1, littered, parts, sharing, restarting, mixed }
    }

    /// The parties as the board has them.
    fn here(&self) -> &Parties {
        self.rig.on(self.on)
    }

    fn part(&self) -> &Part {
        &self.parts[self.on as usize - 1]
    }

    fn part_mut(&mut self) -> &mut Part {
        &mut self.parts[self.on as usize - 1]
    }

    /// The board's messages.
    fn flight(&self) -> Vec<Record> {
        self.rig.of(self.on).copied().collect()
    }

    /// Puts an event in the list and has the model run it.
    pub fn put(&mut self, event: Event) {
        let names = (1..=5).contains(&event.code) && self.rig.config.ask_board(event.board).is_ok();
        self.on = if names { event.board } else { self.on };
        self.seen.most_in_flight = self.seen.most_in_flight.max(self.rig.flight.len());
        let handed = self.rig.of(self.on).nth(event.position).filter(|_| names && event.code == 3).copied();
        let client = handed.map(|r| self.here().clients[r.client as usize - 1].clone());
        if let Some(r) = handed.filter(|r| self.mixed && r.for_server()) {
            self.note_tie(&r);
        }
        let before = Before::of(&self.rig);
        self.sharing.note_crash(&mut self.seen.boards, &self.rig, &event);
        let answer = self.rig.event(event);
        self.sharing.note(&mut self.seen.boards, &before, &self.rig, &event, &answer);
        let restarts = self.seen.restarts.by(self.list.general);
        self.restarting.note(restarts, &self.rig, &event, &answer);
        if let (Some(r), Some(client)) = (handed, client) {
            self.note_handed_over(&r, &client, &answer);
        }
        self.note_answer(&event, &answer);
        let named = answer.map_or(0, |answer| answer.client());
        self.list.put(&event, named);
        if named > 0 {
            self.part_mut().again[named as usize - 1] = 0;
        }
    }

    fn note_answer(&mut self, event: &Event, answer: &Result<Answer, u8>) {
        let Event { code, party, bytes, length, .. } = *event;
        match code {
            1 => self.note_write(answer, party, &bytes[length.min(bytes.len())..]),
            2 => self.seen.begun_reads_with_a_length += (answer.is_ok() && length > bytes.len()) as usize,
            _ => self.note_read(answer),
        }
        let met = match answer {
            Ok(Answer::Nothing) => &mut self.seen.ok,
            Ok(Answer::Written(..)) => &mut self.seen.written,
            Ok(Answer::Read(..)) => &mut self.seen.read,
            Ok(Answer::Spent(_)) => unreachable!("no list is that long"),
            Err(number) => {
                self.seen.refused_13_at_handing_over += (code == 3 && *number == 13) as usize;
                &mut self.seen.refused[*number as usize]
            }
        };
        *met += 1;
    }

    /// Notes what a message has met and led to, by its client before it.
    fn note_handed_over(&mut self, r: &Record, client: &Client, answer: &Result<Answer, u8>) {
        let server_up = self.here().servers[r.server as usize - 1].up;
        let up = if r.for_server() { server_up } else { client.phase != Phase::Down };
        if !up {
            self.seen.handed_to_crashed += 1;
            self.sharing.note_gone(&mut self.seen.boards, r, self.on);
        }
        let restarts = self.seen.restarts.by(self.list.general);
        self.restarting.note_handed_over(restarts, &self.rig, (self.on, r), client, answer);
        self.seen.not_awaited += (up && !r.for_server() && !client.awaits(r)) as usize;
        match r.kind {
            READ_FINALISE if up => {
                let sent = self.rig.flight.last().map(|sent| sent.record.kind);
                self.seen.cleared.sent += (sent == Some(CLEARED)) as usize;
            }
            CLEARED => self.note_cleared(r, client, answer),
            2 if self.mixed && client.awaits(r) && answer.is_ok() => self.note_asked(r, client),
            _ => {}
        }
    }

    /// Notes what ranks will do with a message at a server that is up.
    fn note_tie(&mut self, r: &Record) {
        let server = &self.rig.on(self.on).servers[r.server as usize - 1];
        if server.up {
            self.seen.ties.at_server(&self.rig.config, server, r);
        }
    }

    /// Notes what ranks have done with an answer to a query, and with the tag of a read that has asked.
    fn note_asked(&mut self, r: &Record, client: &Client) {
        self.seen.ties.at_client(&self.rig.config, client.tag, r.tag);
        let place = client.number as usize - 1;
        let before = if client.counted.is_empty() { START } else { self.part().plain[place] };
        let highest = if plain(r.tag) > plain(before) { r.tag } else { before };
        self.part_mut().plain[place] = highest;
        let Client { phase, tag, .. } = self.here().clients[place];
        self.seen.ties.taken += (phase == Phase::FinalisingRead && tag != highest) as usize;
    }

    /// Notes what a kind 9 has met.
    fn note_cleared(&mut self, r: &Record, client: &Client, answer: &Result<Answer, u8>) {
        let told = (r.client, r.operation, r.server);
        let heeded = self.part().heeded.contains(&told);
        let met = &mut self.seen.cleared;
        if client.phase == Phase::Down {
            met.handed_to_crashed += 1;
        } else if client.awaits(r) && answer.is_ok() {
            self.part_mut().heeded.insert(told);
            self.note_again(client);
        } else if client.awaits(r) {
            met.refused_13 += 1;
        } else if client.phase == Phase::FinalisingRead && r.operation == client.operation {
            met.of_a_counted += 1;
        } else if heeded {
            met.doubled += 1;
        } else {
            met.late += 1;
        }
    }

    /// Notes that a read asks again.
    fn note_again(&mut self, client: &Client) {
        let again = &mut self.part_mut().again[client.number as usize - 1];
        *again += 1;
        let again = *again;
        let met = &mut self.seen.cleared;
        met.askings += 1;
        met.asked_again += (again == 1) as usize;
        met.asked_twice += (again == 2) as usize;
        met.with_counted += !client.counted.is_empty() as usize;
        met.with_elements += !client.pieces.is_empty() as usize;
        met.with_k_elements += (client.pieces.len() >= self.rig.config.k) as usize;
    }

    /// Notes the bytes past a write's length, or that 19 comes before 8.
    fn note_write(&mut self, answer: &Result<Answer, u8>, party: u8, past: &[u8]) {
        let exists = (1..=self.rig.config.c).contains(&(party as usize));
        self.seen.refused_19_of_no_client += (*answer == Err(19) && !exists) as usize;
        self.seen.writes_with_more_bytes += (answer.is_ok() && past.iter().any(|b| *b != 0)) as usize;
    }

    /// Notes the length of a read that ends, and whether it has asked again.
    fn note_read(&mut self, answer: &Result<Answer, u8>) {
        let Ok(Answer::Read(client, tag, Board { length, bytes })) = answer else { return };
        let Part { again, plain, .. } = self.part();
        let (again, plain) = (again[*client as usize - 1], plain[*client as usize - 1]);
        self.seen.ties.ended += (self.mixed && *tag != plain) as usize;
        self.seen.cleared.ended_after_one += (again == 1) as usize;
        self.seen.cleared.ended_after_more += (again > 1) as usize;
        self.seen.reads_of_length_0 += (*length == 0) as usize;
        self.seen.reads_of_a_part += (1..bytes.len()).contains(length) as usize;
        self.seen.reads_of_a_long_part += (256..bytes.len()).contains(length) as usize;
    }

    /// 0 or any number below `most`, for a field that isn't used.
    fn unused(&mut self, most: usize) -> usize {
        if self.littered { self.random.below(most) } else { 0 }
    }

    fn unused_bytes(&mut self) -> Vec<u8> {
        (0..self.rig.config.v()).map(|_| self.unused(256) as u8).collect()
    }

    /// The board's number in an event of this code; a crash, a restart and an unknown event don't use it.
    fn number(&mut self, code: u8) -> u8 {
        if (1..=5).contains(&code) || !self.list.general { self.on } else { self.unused(256) as u8 }
    }

    /// An event that names a party.
    pub fn party(&mut self, code: u8, party: u8) {
        if code == 1 {
            let length = self.length();
            return self.write(party, length);
        }
        let (position, bytes, length) = (self.unused(65536), self.unused_bytes(), self.unused(65536));
        let board = self.number(code);
        self.put(Event { code, party, position, board, bytes: &bytes, length });
    }

    /// An event that names a position.
    pub fn position(&mut self, code: u8, position: usize) {
        let (party, bytes, length) = (self.unused(256) as u8, self.unused_bytes(), self.unused(65536));
        let board = self.number(code);
        self.put(Event { code, party, position, board, bytes: &bytes, length });
    }

    pub fn begin(&mut self, client: u8, write: bool) {
        self.party(if write { 1 } else { 2 }, client);
    }

    /// A write's length: V as often as the mood has it, else 0, any up to V, and now and then more.
    fn length(&mut self) -> usize {
        let v = self.rig.config.v();
        if self.random.chance(self.mood.whole) {
            return v;
        }
        match self.random.below(30) {
            0 => self.length_above(),
            1..=7 => 0,
            _ => self.random.within(0, v),
        }
    }

    fn length_above(&mut self) -> usize {
        let v = self.rig.config.v();
        let any = self.random.within(v + 1, 65535);
        self.random.pick(&[v + 1, v + 1, v + 256, 32768, 65535, any])
    }

    fn write(&mut self, party: u8, length: usize) {
        let (position, bytes) = (self.unused(65536), self.bytes(length));
        self.put(Event { code: 1, party, position, board: self.on, bytes: &bytes, length });
    }

    /// The bytes of a write. Many are 0, so that some boards differ by their length alone.
    fn bytes(&mut self, length: usize) -> Vec<u8> {
        let v = self.rig.config.v();
        let any = (0..v).map(|_| if self.random.chance(250) { 0 } else { self.random.byte() });
        let mut bytes: Vec<u8> = any.collect();
        if self.mood.boards > 0 {
            bytes[..length.min(v)].fill(self.random.below(self.mood.boards) as u8);
        }
        bytes
    }

    fn clients(&self, fit: impl Fn(&Client) -> bool) -> Vec<u8> {
        self.here().clients.iter().filter(|client| fit(client)).map(|client| client.number).collect()
    }

    fn servers(&self, up: bool) -> Vec<u8> {
        (1..).zip(&self.here().servers).filter(|(_, server)| server.up == up).map(|(s, _)| s).collect()
    }

    /// Names one of the parties, if there are any.
    fn one_of(&mut self, code: u8, parties: &[u8]) -> bool {
        if !parties.is_empty() {
            let party = self.random.pick(parties);
            self.party(code, party);
        }
        !parties.is_empty()
    }

    /// Of its client's present phase, and to or from a server quick in it.
    fn ready(&self, r: &Record) -> bool {
        let phases = [Phase::Asking, Phase::PreWriting, Phase::FinalisingWrite, Phase::FinalisingRead];
        let (operation, phase, quick) = self.part().quick[r.client as usize - 1];
        let present = operation == r.operation && phase == phases[(r.kind as usize - 1).min(7) / 2];
        !self.mood.adverse || present && quick >> r.server & 1 == 1
    }

    fn any_ready(&self) -> bool {
        self.rig.of(self.on).any(|r| self.ready(r))
    }

    /// Draws the servers that are quick in a client's phase: a quorum, or often fewer.
    fn draw_quick(&mut self, client: usize) {
        let q = self.rig.config.q();
        let fewer = self.random.pick(&[1, 1, 1, q - 1]);
        let count = if self.random.chance(350) { fewer } else { q };
        let mut servers: Vec<usize> = (1..=self.rig.config.n).collect();
        while servers.len() > count {
            servers.remove(self.random.below(servers.len()));
        }
        let Client { operation, phase, .. } = self.here().clients[client];
        self.part_mut().quick[client] = (operation, phase, servers.iter().map(|s| 1 << s).sum());
    }

    /// Draws for phases just entered, for others now and then, and for anyone when all wait.
    fn draw_all_quick(&mut self) {
        for client in 0..self.rig.config.c {
            let (operation, phase, _) = self.part().quick[client];
            let now = &self.here().clients[client];
            if (now.operation, now.phase) != (operation, phase) || self.random.chance(5) {
                self.draw_quick(client);
            }
        }
        for _ in 0..8 {
            if self.any_ready() || !self.clients(|client| client.phase == Phase::Idle).is_empty() {
                break;
            }
            let client = self.random.below(self.rig.config.c);
            self.draw_quick(client);
        }
    }

    /// Whether a message isn't to a server that is down.
    fn reaches(&self, r: &Record) -> bool {
        !r.for_server() || self.here().servers[r.server as usize - 1].up
    }

    /// Hands over, loses or doubles a message, one that is ready if there is any. Where all wait for servers that are
    /// down, one of these is started again.
    fn message(&mut self, code: u8) {
        let (flight, wait) = (self.flight(), self.random.chance(self.mood.wait));
        let all: Vec<usize> = (0..flight.len()).filter(|p| !wait || self.reaches(&flight[*p])).collect();
        if all.is_empty() {
            self.one_of(8, &self.servers(false));
            return;
        }
        let mut from: Vec<usize> = all.iter().copied().filter(|p| self.ready(&flight[*p])).collect();
        if from.is_empty() || self.random.chance(20) {
            from = all;
        }
        let position = match self.mood.order {
            Order::First => from[0],
            Order::Last => from[from.len() - 1],
            Order::Any => self.random.pick(&from),
        };
        self.position(code, position);
    }

    /// A write of more than V bytes, by a client in any phase or by none.
    fn too_long(&mut self) {
        let (party, length) = (self.random.below(self.rig.config.c + 2) as u8, self.length_above());
        self.write(party, length);
    }

    /// An event of a board that isn't there, whatever else it names.
    fn no_board(&mut self) {
        let Config { c, boards, .. } = self.rig.config;
        let next = boards as u8 + 1;
        let board = self.random.pick(&[0, 0, next, next, next + 7, 255]);
        let (code, party) = (self.random.within(1, 5) as u8, self.random.below(c + 2) as u8);
        let position = self.random.pick(&[0, self.rig.flight.len(), 65535]);
        let length = if self.random.chance(700) { self.length() } else { self.length_above() };
        let bytes = self.bytes(length);
        self.put(Event { code, party, position, board, bytes: &bytes, length });
    }

    /// Codes, parties, positions, lengths and boards that no sensible host names.
    fn junk(&mut self) {
        match self.random.below(20) {
            0 | 1 => self.too_long(),
            2..=4 if self.list.general => self.no_board(),
            _ => self.no_such(),
        }
    }

    /// Codes, parties and positions that aren't there, and parties that are down or busy, or up at a restart. A restart
    /// of a crashed client's number may be one of a server.
    fn no_such(&mut self) {
        let Config { n, c, .. } = self.rig.config;
        let (flight, all) = (self.rig.count(self.on), self.rig.flight.len());
        let outside = |most: usize| [0, most as u8 + 1, most as u8 + 16, 255];
        let no_crash = self.mood.no_crash;
        let begin_or_crash = self.random.pick(if no_crash { &[1, 2] } else { &[1, 2, 7] });
        let made = match self.random.below(9) {
            0 => self.one_of(begin_or_crash, &outside(c)),
            1 if !no_crash => self.one_of(6, &outside(n)),
            2 => self.one_of(begin_or_crash.min(2), &self.clients(|client| client.phase != Phase::Idle)),
            3 if !no_crash => self.one_of(7, &self.clients(|client| client.phase == Phase::Down)),
            4 if !no_crash => self.one_of(6, &self.servers(false)),
            5 if !no_crash => self.one_of(8, &outside(n)),
            6 if !no_crash => self.one_of(8, &self.servers(true)),
            7 if !no_crash => self.one_of(8, &self.clients(|client| client.phase == Phase::Down)),
            _ => false,
        };
        let code = self.random.pick(&[0, 3, 4, 5, 9, 128, 255]);
        let last = all.max(flight + 1) - 1;
        let position = self.random.pick(&[flight, flight + 1, flight + 256, last, 512, 32768, 65535]);
        if !made {
            self.position(code, position);
        }
    }

    /// Any event of any board, as the mood has it.
    pub fn any(&mut self) {
        if !self.random.chance(self.mood.stay) {
            self.on = self.random.within(1, self.rig.config.boards) as u8;
        }
        self.any_here();
    }

    /// A server crashes or is started again, as the mood has it.
    fn crash_or_restart(&mut self) -> bool {
        let (mood, up) = (self.mood, self.servers(true));
        let may_crash = up.len() + mood.crashes > self.rig.config.n;
        may_crash && self.random.chance(mood.crash_server) && self.one_of(6, &up)
            || self.random.chance(mood.restart) && self.one_of(8, &self.servers(false))
    }

    /// Any event of the board.
    pub fn any_here(&mut self) {
        let mood = self.mood;
        if mood.adverse {
            self.draw_all_quick();
        }
        if self.random.chance(mood.junk) {
            return self.junk();
        }
        if self.crash_or_restart() {
            return;
        }
        let up = self.clients(|client| client.phase != Phase::Down);
        if self.random.chance(mood.crash_client) && self.one_of(7, &up) {
            return;
        }
        let idle = self.clients(|client| client.phase == Phase::Idle);
        let busy = |client: &Client| !matches!(client.phase, Phase::Idle | Phase::Down);
        let waits = |client: &Client| busy(client) && self.part().again[client.number as usize - 1] < 2;
        let may_begin = !idle.is_empty() && (!mood.alone || self.clients(waits).is_empty());
        if may_begin && (!self.any_ready() || self.random.chance(mood.begin)) {
            let writers = self.clients(|client| busy(client) && client.board.is_some());
            let write = writers.len() < mood.writers && self.random.chance(mood.write);
            let client = self.random.pick(&idle);
            return self.begin(client, write);
        }
        if self.rig.count(self.on) == 0 {
            return self.junk();
        }
        let lose = self.random.chance(mood.lose);
        let double = self.random.chance(mood.double);
        self.message(if lose { 4 } else { 3 + 2 * double as u8 });
    }

    /// Each client begins on each board, then messages are doubled, nearly to M or as far as shares have it.
    pub fn fill(&mut self) {
        let Config { n, c, m, boards, .. } = self.rig.config;
        for board in 1..=boards as u8 {
            self.on = board;
            for client in 1..=c as u8 {
                let write = self.random.chance(self.mood.write);
                self.begin(client, write);
            }
        }
        let most = m.saturating_sub(self.random.below(2 * n));
        for _ in 0..2 * m {
            self.on = self.random.within(1, boards) as u8;
            let count = self.rig.count(self.on);
            if count > 0 && self.rig.flight.len() < most {
                let position = self.random.below(count);
                self.position(5, position);
            }
        }
    }

    /// All that are idle but one begin to write. Each has its queries answered before anything else happens, so that
    /// tags of one number come of it.
    pub fn tie(&mut self) {
        let mut writers = self.clients(|client| client.phase == Phase::Idle);
        if writers.len() > 1 {
            writers.remove(self.random.below(writers.len()));
        }
        writers.iter().for_each(|client| self.begin(*client, true));
        for kind in [QUERY, QUERY + 1] {
            let theirs = |r: &&Record| r.kind == kind && writers.contains(&r.client);
            for _ in 0..self.rig.of(self.on).filter(theirs).count() {
                let first = self.rig.of(self.on).position(|r| theirs(&r));
                self.position(3, first.expect("one is left"));
            }
        }
    }

    /// Everything is handed over, then each client that is idle reads; where there are several boards, two of them on
    /// each. In half of the draws all servers are started again first.
    pub fn settle(&mut self) {
        self.mood.adverse = false;
        if self.random.chance(500) {
            while self.one_of(8, &self.servers(false)) {}
        }
        let Config { c, boards, .. } = self.rig.config;
        for board in 1..=boards as u8 {
            self.on = board;
            self.hand_over_all();
        }
        for board in 1..=boards as u8 {
            self.on = board;
            let idle = self.clients(|client| client.phase == Phase::Idle);
            for client in idle.into_iter().take(if boards == 1 { c } else { 2 }) {
                self.begin(client, false);
                self.hand_over_all();
            }
        }
    }

    /// What can't be handed over for lack of room is lost. So is everything once reads have asked again three times
    /// for each client: they could ask for ever.
    fn hand_over_all(&mut self) {
        let most = self.seen.cleared.askings + 3 * self.rig.config.c;
        while self.rig.count(self.on) > 0 {
            let refused = self.seen.refused_13_at_handing_over;
            self.message(if self.seen.cleared.askings < most { 3 } else { 4 });
            if self.seen.refused_13_at_handing_over > refused {
                self.message(4);
            }
        }
    }

    /// A record of any bytes, small ones mostly.
    pub fn noise(&mut self) {
        let mut byte =
            || if self.random.chance(950) { self.random.below(10) as u8 } else { self.random.byte() };
        let (code, party, low) = (byte(), byte(), byte());
        let high = if self.random.chance(950) { 0 } else { self.random.byte() };
        let position = u16::from_le_bytes([low, high]) as usize;
        let bytes = self.random.bytes(self.rig.config.v());
        let length = if self.random.chance(800) { self.length() } else { self.random.below(65536) };
        let any = self.random.below(self.rig.config.boards + 2) as u8;
        let board = if self.list.general { any } else { 1 };
        self.put(Event { code, party, position, board, bytes: &bytes, length });
    }
}
