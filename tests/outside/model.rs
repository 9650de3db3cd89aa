//! An independent model of document 01 and of requests L1, L2, L5, L6 and L7 of document 02, from their text alone:
//! field, code, tags, server, client, rig.
//! A refusal is `Err` with the number of the first question answered no.

use std::collections::BTreeMap;
use std::sync::OnceLock;

// Configuration

#[derive(Clone, Copy, Debug, PartialEq)]
pub struct Config {
    pub n: usize,
    pub k: usize,
    pub d: usize,
    pub e: usize,
    pub c: usize,
    pub m: usize,
    /// Those of clients 1 to C, in this order.
    pub ranks: [u8; 16],
    /// Their number.
    pub boards: usize,
    /// The guaranteed messages of boards 1, 2 and so on.
    pub shares: [usize; 8],
}

pub fn ask(yes: bool, number: u8) -> Result<(), u8> {
    if yes { Ok(()) } else { Err(number) }
}

impl Config {
    /// Questions 1 to 5, 21 and 22, as the rig puts them.
    pub fn ask(&self) -> Result<(), u8> {
        self.ask_numbers()?;
        self.ask_ranks()?;
        self.ask_boards()?;
        self.ask_shares()
    }

    /// Questions 1 to 5.
    pub fn ask_numbers(&self) -> Result<(), u8> {
        ask((1..=16).contains(&self.n), 1)?;
        ask((1..=self.n).contains(&self.k), 2)?;
        ask(self.d <= 7, 3)?;
        ask((1..=64).contains(&self.e), 4)?;
        ask((1..=16).contains(&self.c) && (1..=512).contains(&self.m), 5)
    }

    /// Question 21.
    pub fn ask_ranks(&self) -> Result<(), u8> {
        ask(self.ranks[..self.c].iter().all(|rank| *rank <= 3), 21)
    }

    /// Question 22, of the number of boards.
    pub fn ask_boards(&self) -> Result<(), u8> {
        ask((1..=8).contains(&self.boards), 22)
    }

    /// Question 22, of their shares.
    pub fn ask_shares(&self) -> Result<(), u8> {
        ask(self.guaranteed() <= self.m, 22)
    }

    /// Question 22, of the board that an event names.
    pub fn ask_board(&self, board: u8) -> Result<(), u8> {
        ask((1..=self.boards).contains(&(board as usize)), 22)
    }

    /// The shares' sum.
    pub fn guaranteed(&self) -> usize {
        self.shares.iter().take(self.boards).sum()
    }

    /// Bytes in a board.
    pub fn v(&self) -> usize {
        self.k * self.e
    }

    /// Servers in a quorum.
    pub fn q(&self) -> usize {
        (self.n + self.k).div_ceil(2)
    }

    /// That of the starting tag, and of a number that no client has, is 0.
    pub fn rank(&self, client: u8) -> u8 {
        let place = (client as usize).checked_sub(1);
        place.filter(|place| *place < self.c).map_or(0, |place| self.ranks[place])
    }

    /// What tags compare by: the number, then the rank of the tag's client, then the client number.
    pub fn key(&self, t: Tag) -> impl Ord + use<> {
        (t.number, self.rank(t.client), t.client)
    }

    pub fn higher(&self, a: Tag, b: Tag) -> Tag {
        if self.key(a) > self.key(b) { a } else { b }
    }
}

// Boards

/// A length, 0 to V, and V bytes, zero past it.
#[derive(Clone, Debug, PartialEq)]
pub struct Board {
    pub length: usize,
    pub bytes: Vec<u8>,
}

impl Board {
    /// Zeros after so many of V bytes.
    pub fn cut(bytes: &[u8], length: usize) -> Board {
        let mut bytes = bytes.to_vec();
        bytes[length..].fill(0);
        Board { length, bytes }
    }
}

// Field and code

/// Polynomials modulo hexadecimal 11D, by shift and add.
pub fn product(a: u8, b: u8) -> u8 {
    let (mut shifted, mut sum) = (a as u16, 0);
    for i in 0..8 {
        if b >> i & 1 == 1 {
            sum ^= shifted;
        }
        shifted <<= 1;
        if shifted > 255 {
            shifted ^= 0x11D;
        }
    }
    sum as u8
}

/// The products of a factor and each byte; worked out when they are first used.
fn products(factor: u8) -> &'static [u8; 256] {
    static ROWS: [OnceLock<[u8; 256]>; 256] = [const { OnceLock::new() }; 256];
    ROWS[factor as usize].get_or_init(|| std::array::from_fn(|b| product(factor, b as u8)))
}

/// Zero past E.
pub type Element = [u8; 64];

/// An element, and beside it the length of its board.
#[derive(Clone, Copy, Debug, PartialEq)]
pub struct Piece {
    pub length: u16,
    pub element: Element,
}

impl Piece {
    /// That of server s.
    pub fn of(config: &Config, board: &Board, s: u8) -> Piece {
        Piece { length: board.length as u16, element: encode(config, &board.bytes, s) }
    }
}

/// Adds `factor` times each byte of `from` to `to`.
fn add_times(to: &mut [u8], factor: u8, from: &[u8]) {
    let products = products(factor);
    for (t, f) in to.iter_mut().zip(from) {
        *t ^= products[*f as usize];
    }
}

/// 1, s, s squared and so on, k of them.
fn powers(s: u8, k: usize) -> Vec<u8> {
    std::iter::successors(Some(1), |p| Some(product(*p, s))).take(k).collect()
}

pub fn encode(config: &Config, board: &[u8], s: u8) -> Element {
    let mut element = [0; 64];
    for (part, power) in board.chunks(config.e).zip(powers(s, config.k)) {
        add_times(&mut element[..config.e], power, part);
    }
    element
}

/// Solves the square of powers for the first k parts, whose server numbers rise strictly.
pub fn decode(config: &Config, parts: &[(u8, Element)]) -> Vec<u8> {
    // A row is the powers of a server number, then its element.
    let mut rows: Vec<Vec<u8>> = parts[..config.k]
        .iter()
        .map(|(s, element)| [&powers(*s, config.k), &element[..config.e]].concat())
        .collect();
    for i in 0..config.k {
        let inverse = products(rows[i][i]).iter().position(|p| *p == 1).unwrap();
        let mut row = vec![0; rows[i].len()];
        add_times(&mut row, inverse as u8, &rows[i]);
        for (j, other) in rows.iter_mut().enumerate() {
            if j != i {
                let factor = other[i];
                add_times(other, factor, &row);
            }
        }
        rows[i] = row;
    }
    rows.iter().flat_map(|row| &row[config.k..]).copied().collect()
}

// Tags and records

/// Tags are compared by the configuration, which has the ranks.
#[derive(Clone, Copy, Debug, PartialEq)]
pub struct Tag {
    pub number: u32,
    pub client: u8,
}

pub const START: Tag = Tag { number: 0, client: 0 };

pub const QUERY: u8 = 1;
pub const PRE_WRITE: u8 = 3;
pub const WRITE_FINALISE: u8 = 5;
pub const READ_FINALISE: u8 = 7;
/// Answers a read finalise whose element was cleared.
pub const CLEARED: u8 = 9;

/// The kind of any other answer is 1 above that of what it answers.
#[derive(Clone, Copy, Debug)]
pub struct Record {
    pub kind: u8,
    pub client: u8,
    pub server: u8,
    pub operation: u32,
    pub tag: Tag,
    /// The element, if present, and the length at offsets 13 and 14, which are zero without one.
    pub piece: Option<Piece>,
}

impl Record {
    pub fn well_formed(&self, config: &Config) -> bool {
        (1..=9).contains(&self.kind)
            && (1..=config.c).contains(&(self.client as usize))
            && (1..=config.n).contains(&(self.server as usize))
            && self.operation >= 1
            && self.tag.client as usize <= config.c
            && (self.tag.number == 0) == (self.tag.client == 0)
            && (self.kind != QUERY || self.tag == START)
            && (!(3..=6).contains(&self.kind) || self.tag.client == self.client)
            && (self.kind == 8 || self.piece.is_some() == (self.kind == PRE_WRITE))
            && self.piece.is_none_or(|piece| piece.length as usize <= config.v())
            && self.piece.is_none_or(|piece| piece.element[config.e..].iter().all(|b| *b == 0))
    }

    pub fn for_server(&self) -> bool {
        matches!(self.kind, QUERY | PRE_WRITE | WRITE_FINALISE | READ_FINALISE)
    }
}

// Server

#[derive(Clone, Debug)]
pub struct Server {
    pub up: bool,
    pub highest: Tag,
    pub floor: Option<Tag>,
    pub stored: Vec<(Tag, Piece)>,
}

impl Server {
    pub fn fresh(piece: Piece) -> Server {
        Server { up: true, highest: START, floor: None, stored: vec![(START, piece)] }
    }

    fn stored(&self, t: Tag) -> Option<Piece> {
        self.stored.iter().find(|(tag, _)| *tag == t).map(|(_, piece)| *piece)
    }

    fn at_or_below_floor(&self, config: &Config, t: Tag) -> bool {
        self.floor.is_some_and(|floor| config.key(t) <= config.key(floor))
    }

    /// Question 6, of the stored tags: each once and above the floor, exactly D + 1 where there is one.
    pub fn in_limits(&self, config: &Config) -> bool {
        let (count, most) = (self.stored.len(), config.d + 1);
        let tags = || self.stored.iter().map(|(tag, _)| *tag);
        let once = |t| tags().filter(|other| *other == t).count() == 1;
        count <= most
            && (self.floor.is_none() || count == most)
            && tags().all(|t| once(t) && !self.at_or_below_floor(config, t))
    }

    /// The answer.
    pub fn step(&mut self, config: &Config, r: &Record) -> Record {
        let mut answer = Record { kind: r.kind + 1, piece: None, ..*r };
        if matches!(r.kind, WRITE_FINALISE | READ_FINALISE) {
            self.highest = config.higher(self.highest, r.tag);
        }
        match r.kind {
            QUERY => answer.tag = self.highest,
            PRE_WRITE => self.pre_write(config, r.tag, r.piece.unwrap()),
            READ_FINALISE => {
                answer.piece = self.stored(r.tag);
                if answer.piece.is_none() && self.at_or_below_floor(config, r.tag) {
                    answer.kind = CLEARED;
                }
            }
            _ => {}
        }
        answer
    }

    fn pre_write(&mut self, config: &Config, t: Tag, piece: Piece) {
        if self.stored(t).is_some() || self.at_or_below_floor(config, t) {
            return;
        }
        self.stored.push((t, piece));
        if self.stored.len() > config.d + 1 {
            let tags = self.stored.iter().map(|(tag, _)| *tag);
            let smallest = tags.min_by_key(|tag| config.key(*tag)).unwrap();
            self.stored.retain(|(tag, _)| *tag != smallest);
            self.floor = Some(smallest);
        }
    }
}

// Client

#[derive(Clone, Copy, Debug, PartialEq)]
pub enum Phase {
    Idle,
    Asking,
    PreWriting,
    FinalisingWrite,
    FinalisingRead,
    Down,
}

/// What an answer leads to.
pub enum Next {
    NotAwaited,
    Count,
    Send(Phase, Tag),
    AskAgain,
    End(Answer),
}

#[derive(Clone, Debug)]
pub struct Client {
    pub number: u8,
    pub phase: Phase,
    pub operation: u32,
    /// What to write; none in a read.
    pub board: Option<Board>,
    /// Asking: the highest tag answered so far. Afterwards the operation's tag.
    pub tag: Tag,
    /// Servers counted in this phase.
    pub counted: Vec<u8>,
    /// What was received with an element, by server.
    pub pieces: BTreeMap<u8, Piece>,
}

impl Client {
    pub fn fresh(number: u8) -> Client {
        let (phase, operation) = (Phase::Idle, 0);
        Client { number, phase, operation, board: None, tag: START, counted: vec![], pieces: BTreeMap::new() }
    }

    /// Question 14. Kind 9 is judged as a kind 8 is.
    pub fn awaits(&self, r: &Record) -> bool {
        let kind = match self.phase {
            Phase::Asking => 2,
            Phase::PreWriting => 4,
            Phase::FinalisingWrite => 6,
            Phase::FinalisingRead => 8,
            Phase::Idle | Phase::Down => return false,
        };
        let judged = match r.kind {
            CLEARED => 8,
            other => other,
        };
        judged == kind
            && r.operation == self.operation
            && !self.counted.contains(&r.server)
            && (kind == 2 || r.tag == self.tag)
    }

    pub fn next(&self, config: &Config, r: &Record) -> Next {
        if !self.awaits(r) {
            return Next::NotAwaited;
        }
        if r.kind == CLEARED {
            return self.next_of_cleared();
        }
        if self.counted.len() + 1 < config.q() {
            return Next::Count;
        }
        match self.phase {
            Phase::Asking => {
                let highest = self.highest(config, r);
                if self.board.is_none() {
                    Next::Send(Phase::FinalisingRead, highest)
                } else if highest.number == u32::MAX {
                    Next::End(Answer::Spent(self.number))
                } else {
                    let tag = Tag { number: highest.number + 1, client: self.number };
                    Next::Send(Phase::PreWriting, tag)
                }
            }
            Phase::PreWriting => Next::Send(Phase::FinalisingWrite, self.tag),
            Phase::FinalisingWrite => Next::End(Answer::Written(self.number, self.tag)),
            _ => self.next_of_read(config, r),
        }
    }

    /// Asking: the highest tag with this answer's.
    fn highest(&self, config: &Config, r: &Record) -> Tag {
        config.higher(self.tag, r.tag)
    }

    fn next_of_cleared(&self) -> Next {
        if self.operation == u32::MAX { Next::End(Answer::Spent(self.number)) } else { Next::AskAgain }
    }

    /// The length is that sent with the lowest server's element.
    fn next_of_read(&self, config: &Config, r: &Record) -> Next {
        let mut pieces = self.pieces.clone();
        pieces.extend(r.piece.map(|piece| (r.server, piece)));
        if pieces.len() < config.k {
            return Next::Count;
        }
        let parts: Vec<_> = pieces.iter().map(|(server, piece)| (*server, piece.element)).collect();
        let length = pieces[&parts[0].0].length as usize;
        Next::End(Answer::Read(self.number, self.tag, Board::cut(&decode(config, &parts), length)))
    }

    fn count(&mut self, config: &Config, r: &Record) {
        self.counted.push(r.server);
        self.pieces.extend(r.piece.map(|piece| (r.server, piece)));
        if self.phase == Phase::Asking {
            self.tag = self.highest(config, r);
        }
    }

    /// Queries under the next operation number, at a begin and when a read asks again.
    fn query(&mut self, config: &Config, sent: &mut Vec<Record>) {
        self.operation += 1;
        self.pieces.clear();
        self.enter(config, Phase::Asking, START, sent);
    }

    /// Enters a phase and sends its records, in server order.
    fn enter(&mut self, config: &Config, phase: Phase, tag: Tag, sent: &mut Vec<Record>) {
        self.counted.clear();
        (self.phase, self.tag) = (phase, tag);
        let kind = match phase {
            Phase::Asking => QUERY,
            Phase::PreWriting => PRE_WRITE,
            Phase::FinalisingWrite => WRITE_FINALISE,
            _ => READ_FINALISE,
        };
        let (client, operation) = (self.number, self.operation);
        for server in 1..=config.n as u8 {
            let board = self.board.as_ref().filter(|_| kind == PRE_WRITE);
            let piece = board.map(|board| Piece::of(config, board, server));
            sent.push(Record { kind, client, server, operation, tag, piece });
        }
    }
}

// Rig

/// Each answer but the first names the client whose operation ended.
#[derive(Clone, Debug, PartialEq)]
pub enum Answer {
    Nothing,
    Written(u8, Tag),
    Spent(u8),
    Read(u8, Tag, Board),
}

impl Answer {
    /// The client named, or 0.
    pub fn client(&self) -> u8 {
        match self {
            Answer::Nothing => 0,
            Answer::Written(client, _) | Answer::Spent(client) | Answer::Read(client, ..) => *client,
        }
    }
}

/// An event as a host names it. Only a begin of a write looks at the bytes and at the length, and only events 1 to 5 at
/// the board.
#[derive(Clone, Copy, Debug)]
pub struct Event<'a> {
    pub code: u8,
    pub party: u8,
    pub position: usize,
    pub board: u8,
    pub bytes: &'a [u8],
    pub length: usize,
}

/// A message in flight: its record, and beside it its board.
#[derive(Clone, Copy, Debug)]
pub struct Message {
    pub board: u8,
    pub record: Record,
}

/// The parties as they are on one board. Whether one is down is the same on all boards.
#[derive(Clone, Debug)]
pub struct Parties {
    pub servers: Vec<Server>,
    pub clients: Vec<Client>,
}

impl Parties {
    /// The starting board has length V.
    fn fresh(config: &Config, bytes: &[u8]) -> Parties {
        let board = Board { length: config.v(), bytes: bytes.to_vec() };
        let servers = (1..=config.n as u8).map(|s| Server::fresh(Piece::of(config, &board, s)));
        let clients = (1..=config.c as u8).map(Client::fresh);
        Parties { servers: servers.collect(), clients: clients.collect() }
    }
}

#[derive(Clone, Debug)]
pub struct Rig {
    pub config: Config,
    /// For boards 1, 2 and so on.
    pub parties: Vec<Parties>,
    /// The messages of all boards, in order of sending.
    pub flight: Vec<Message>,
}

impl Rig {
    /// Starting boards come joined, board by board.
    pub fn make(config: Config, bytes: &[u8]) -> Result<Rig, u8> {
        config.ask()?;
        ask(bytes.len() == config.boards * config.v(), 6)?;
        let parties = bytes.chunks(config.v()).map(|start| Parties::fresh(&config, start));
        Ok(Rig { config, parties: parties.collect(), flight: vec![] })
    }

    /// The parties as this board has them.
    pub fn on(&self, board: u8) -> &Parties {
        &self.parties[board as usize - 1]
    }

    fn on_mut(&mut self, board: u8) -> &mut Parties {
        &mut self.parties[board as usize - 1]
    }

    /// This board's messages, in order of sending.
    pub fn of(&self, board: u8) -> impl Iterator<Item = &Record> {
        self.flight.iter().filter(move |message| message.board == board).map(|message| &message.record)
    }

    /// How many messages this board has in flight.
    pub fn count(&self, board: u8) -> usize {
        self.of(board).count()
    }

    /// 22 comes before all else that is asked of an event. A crash, a restart and an unknown event name no board.
    pub fn event(&mut self, event: Event) -> Result<Answer, u8> {
        let Event { code, party, position, board, bytes, length } = event;
        if (1..=5).contains(&code) {
            self.config.ask_board(board)?;
        }
        match code {
            1 => self.begin_write(board, party, bytes, length),
            2 => self.begin(board, party, None),
            3 => self.hand_over(board, position),
            4 => self.lose(board, position),
            5 => self.double(board, position),
            6 => self.crash_server(party),
            7 => self.crash_client(party),
            8 => self.restart_server(party),
            _ => Err(7),
        }
    }

    /// Question 8 of a position, which counts this board's messages only: the message's place among all in flight.
    fn place(&self, board: u8, position: usize) -> Result<usize, u8> {
        let all = self.flight.iter().enumerate();
        let of_board = all.filter(|(_, message)| message.board == board);
        of_board.map(|(place, _)| place).nth(position).ok_or(8)
    }

    /// How many messages are beyond the shares, summed over all boards, if this board has so many.
    pub fn beyond(&self, board: u8, count: usize) -> usize {
        let beyond = |other: u8| {
            let count = if other == board { count } else { self.count(other) };
            count.saturating_sub(self.config.shares[other as usize - 1])
        };
        (1..=self.config.boards as u8).map(beyond).sum()
    }

    /// Question 13, where this board would have so many in flight afterwards.
    fn ask_room(&self, board: u8, count: usize) -> Result<(), u8> {
        ask(self.beyond(board, count) <= self.config.m - self.config.guaranteed(), 13)
    }

    /// What is sent is of the board whose event sends it.
    fn send(&mut self, board: u8, sent: Vec<Record>) {
        self.flight.extend(sent.into_iter().map(|record| Message { board, record }));
    }

    fn take(&mut self, place: usize) -> Message {
        self.flight.remove(place)
    }

    /// 19 comes before 8.
    fn begin_write(&mut self, board: u8, party: u8, bytes: &[u8], length: usize) -> Result<Answer, u8> {
        ask(length <= self.config.v(), 19)?;
        self.begin(board, party, Some((bytes, length)))
    }

    fn begin(&mut self, board: u8, party: u8, write: Option<(&[u8], usize)>) -> Result<Answer, u8> {
        ask((1..=self.config.c).contains(&(party as usize)), 8)?;
        let client = &self.on(board).clients[party as usize - 1];
        let up = client.phase != Phase::Down;
        ask(up, 9)?;
        ask(client.phase == Phase::Idle, 10)?;
        ask(client.operation < u32::MAX, 11)?;
        self.ask_room(board, self.count(board) + self.config.n)?;
        let (config, mut sent) = (self.config, vec![]);
        let client = &mut self.on_mut(board).clients[party as usize - 1];
        client.board = write.map(|(bytes, length)| Board::cut(bytes, length));
        client.query(&config, &mut sent);
        self.send(board, sent);
        Ok(Answer::Nothing)
    }

    fn hand_over(&mut self, board: u8, position: usize) -> Result<Answer, u8> {
        let place = self.place(board, position)?;
        let r = self.flight[place].record;
        ask(r.well_formed(&self.config), 12)?;
        if r.for_server() { self.to_server(board, place, r) } else { self.to_client(board, place, r) }
    }

    /// One leaves and at most one comes, so 13 is never due.
    fn to_server(&mut self, board: u8, place: usize, r: Record) -> Result<Answer, u8> {
        let (config, mut sent) = (self.config, vec![]);
        self.take(place);
        let server = &mut self.on_mut(board).servers[r.server as usize - 1];
        if server.up {
            sent.push(server.step(&config, &r));
        }
        self.send(board, sent);
        Ok(Answer::Nothing)
    }

    fn to_client(&mut self, board: u8, place: usize, r: Record) -> Result<Answer, u8> {
        let (config, mut sent) = (self.config, vec![]);
        let next = self.on(board).clients[r.client as usize - 1].next(&config, &r);
        let sends = if matches!(next, Next::Send(..) | Next::AskAgain) { config.n } else { 0 };
        self.ask_room(board, self.count(board) - 1 + sends)?;
        self.take(place);
        let client = &mut self.on_mut(board).clients[r.client as usize - 1];
        let mut answer = Answer::Nothing;
        match next {
            Next::NotAwaited => {}
            Next::Count => client.count(&config, &r),
            Next::Send(phase, tag) => client.enter(&config, phase, tag, &mut sent),
            Next::AskAgain => client.query(&config, &mut sent),
            Next::End(ended) => (client.phase, answer) = (Phase::Idle, ended),
        }
        self.send(board, sent);
        Ok(answer)
    }

    fn lose(&mut self, board: u8, position: usize) -> Result<Answer, u8> {
        let place = self.place(board, position)?;
        self.take(place);
        Ok(Answer::Nothing)
    }

    fn double(&mut self, board: u8, position: usize) -> Result<Answer, u8> {
        let place = self.place(board, position)?;
        self.ask_room(board, self.count(board) + 1)?;
        self.flight.push(self.flight[place]);
        Ok(Answer::Nothing)
    }

    /// Question 8 of a server: its place.
    fn server(&self, party: u8) -> Result<usize, u8> {
        ask((1..=self.config.n).contains(&(party as usize)), 8)?;
        Ok(party as usize - 1)
    }

    /// On all boards.
    fn crash_server(&mut self, party: u8) -> Result<Answer, u8> {
        let place = self.server(party)?;
        ask(self.parties[0].servers[place].up, 9)?;
        self.parties.iter_mut().for_each(|parties| parties.servers[place].up = false);
        Ok(Answer::Nothing)
    }

    /// On all boards, with store, highest finalised tag and floor as they stood at the crash.
    fn restart_server(&mut self, party: u8) -> Result<Answer, u8> {
        let place = self.server(party)?;
        let down = !self.parties[0].servers[place].up;
        ask(down, 9)?;
        self.parties.iter_mut().for_each(|parties| parties.servers[place].up = true);
        Ok(Answer::Nothing)
    }

    /// On all boards.
    fn crash_client(&mut self, party: u8) -> Result<Answer, u8> {
        ask((1..=self.config.c).contains(&(party as usize)), 8)?;
        let place = party as usize - 1;
        ask(self.parties[0].clients[place].phase != Phase::Down, 9)?;
        self.parties.iter_mut().for_each(|parties| parties.clients[place].phase = Phase::Down);
        Ok(Answer::Nothing)
    }

    /// Question 6, of stored tags, of each message's board, of the room and of who is down.
    pub fn in_limits(&self) -> bool {
        let down = |parties: &Parties| -> (Vec<bool>, Vec<bool>) {
            let clients = parties.clients.iter().map(|client| client.phase == Phase::Down);
            (parties.servers.iter().map(|server| !server.up).collect(), clients.collect())
        };
        let alike = |parties: &Parties| down(parties) == down(&self.parties[0]);
        let stored = |parties: &Parties| parties.servers.iter().all(|server| server.in_limits(&self.config));
        self.parties.iter().all(|parties| alike(parties) && stored(parties))
            && self.flight.iter().all(|message| self.config.ask_board(message.board).is_ok())
            && self.ask_room(1, self.count(1)).is_ok()
    }
}
