//! A rig over the crate with one board: servers, clients, and at most M messages between them, in order of sending.
//! It asks what the documents have a rig ask, and leaves all else to the steps.

use coded_board::{Client, Config, Ended, Record, Refusal, Server};

#[derive(Clone)]
pub struct Event {
    pub code: u8,
    pub party: u8,
    pub position: u16,
    /// The board's number, which is 1 where there is such a board.
    pub on: u8,
    pub board: Vec<u8>,
    pub length: u16,
}

impl Event {
    /// As `simulate` is handed it.
    pub fn bytes(&self) -> Vec<u8> {
        let [low, high] = self.position.to_le_bytes();
        [&[self.code, self.party, low, high, self.on], &self.board[..], &self.length.to_le_bytes()].concat()
    }
}

/// What happened that no line tells.
#[derive(Default, Debug)]
pub struct Unseen {
    pub not_awaited: usize,
    pub to_crashed: usize,
    /// Reads that ask again.
    pub asked_again: usize,
    /// Answers of servers that came back which a fresh one in their place would not give.
    pub remembered: usize,
    /// Operations that end by an answer of a server that came back.
    pub ended_by_restarted: usize,
    pub most_in_flight: usize,
}

pub struct Rig {
    pub config: Config,
    pub m: usize,
    start: Vec<u8>,
    pub servers: Vec<Server>,
    pub up: Vec<bool>,
    /// For each server that came back, what one started afresh then would be now.
    afresh: Vec<Option<Server>>,
    pub clients: Vec<Client>,
    pub flight: Vec<Record>,
    pub unseen: Unseen,
}

impl Rig {
    pub fn fresh(config: &Config, m: usize, start: &[u8]) -> Result<Rig, Refusal> {
        let servers =
            (1..=config.n()).map(|s| Server::fresh(config, s, start)).collect::<Result<Vec<_>, _>>()?;
        let clients = (1..=config.c()).map(|c| Client::fresh(config, c)).collect::<Result<Vec<_>, _>>()?;
        let (up, afresh) = servers.iter().map(|_| (true, None)).unzip();
        let (config, start, flight, unseen) = (config.clone(), start.to_vec(), vec![], Unseen::default());
        Ok(Rig { config, m, start, servers, up, afresh, clients, flight, unseen })
    }

    /// How an operation ended, if one did, or the number of the first question answered no.
    pub fn event(&mut self, event: &Event) -> Result<Ended, u8> {
        let (position, length) = (event.position.into(), event.length.into());
        let ended = match event.code {
            1..=5 if event.on != 1 => Err(22),
            1 if length > self.config.board_length() => self.too_long(event.party, length),
            1 => self.begin(event.party, |client| client.write(&event.board[..length])),
            2 => self.begin(event.party, Client::read),
            3 => self.hand_over(position),
            4 => self.taken(position).map(|_| Ended::Nothing),
            5 => self.double(position),
            6 => self.crash_server(event.party),
            7 => self.crash_client(event.party),
            8 => self.restart_server(event.party),
            _ => Err(7),
        };
        self.unseen.most_in_flight = self.unseen.most_in_flight.max(self.flight.len());
        ended
    }

    /// Question 19 is the rig's, as it comes before 8; a client that is there asks it too, before all others.
    fn too_long(&mut self, party: u8, length: usize) -> Result<Ended, u8> {
        if let Some(client) = place(party).and_then(|place| self.clients.get_mut(place)) {
            assert_eq!(client.write(&vec![1; length]).map_err(Refusal::number), Err(19));
        }
        Err(19)
    }

    /// Works on a copy, which is dropped where there is no room.
    fn begin(
        &mut self,
        party: u8,
        begins: impl Fn(&mut Client) -> Result<Vec<Record>, Refusal>,
    ) -> Result<Ended, u8> {
        let place = place(party).filter(|place| *place < self.clients.len()).ok_or(8)?;
        let mut client = copy(&self.config, &self.clients[place]);
        let sends = begins(&mut client).map_err(Refusal::number)?;
        self.room(self.flight.len() + sends.len())?;
        self.clients[place] = client;
        self.flight.extend(sends);
        Ok(Ended::Nothing)
    }

    fn hand_over(&mut self, position: usize) -> Result<Ended, u8> {
        let record = *self.flight.get(position).ok_or(8)?;
        match record.kind() {
            1 | 3 | 5 | 7 => self.server_takes(position, record),
            _ => self.client_takes(position, record),
        }
    }

    fn server_takes(&mut self, position: usize, record: Record) -> Result<Ended, u8> {
        let place = place(record.server()).ok_or(12)?;
        if !self.up[place] {
            self.unseen.to_crashed += 1;
            return self.taken(position).map(|_| Ended::Nothing);
        }
        let answer = self.servers[place].step(&record).map_err(Refusal::number)?;
        if let Some(fresh) = &mut self.afresh[place] {
            self.unseen.remembered += usize::from(fresh.step(&record) != Ok(answer));
        }
        self.taken(position)?;
        self.flight.push(answer);
        Ok(Ended::Nothing)
    }

    /// A client that is down awaits nothing, so 14 stands for a message that is gone.
    fn client_takes(&mut self, position: usize, record: Record) -> Result<Ended, u8> {
        let place = place(record.client()).ok_or(12)?;
        let mut client = copy(&self.config, &self.clients[place]);
        let step = match client.step(&record) {
            Ok(step) => step,
            Err(no) if no.number() == 14 => {
                let down = self.clients[place].state()[1] == 5;
                *(if down { &mut self.unseen.to_crashed } else { &mut self.unseen.not_awaited }) += 1;
                return self.taken(position).map(|_| Ended::Nothing);
            }
            Err(no) => return Err(no.number()),
        };
        self.room(self.flight.len() - 1 + step.sends.len())?;
        self.unseen.asked_again += usize::from(record.kind() == 9);
        let came_back = self.afresh[usize::from(record.server()) - 1].is_some();
        self.unseen.ended_by_restarted += usize::from(came_back && step.ended != Ended::Nothing);
        self.taken(position)?;
        self.clients[place] = client;
        self.flight.extend(step.sends);
        Ok(step.ended)
    }

    /// Question 13.
    fn room(&self, count: usize) -> Result<(), u8> {
        if count > self.m {
            Err(13)
        } else {
            Ok(())
        }
    }

    fn taken(&mut self, position: usize) -> Result<Record, u8> {
        if position < self.flight.len() {
            Ok(self.flight.remove(position))
        } else {
            Err(8)
        }
    }

    fn double(&mut self, position: usize) -> Result<Ended, u8> {
        let record = *self.flight.get(position).ok_or(8)?;
        self.room(self.flight.len() + 1)?;
        self.flight.push(record);
        Ok(Ended::Nothing)
    }

    /// Questions 8 and 9: the place of a server that has to be up, or else down.
    fn server(&self, party: u8, up: bool) -> Result<usize, u8> {
        let place = place(party).filter(|place| *place < self.up.len()).ok_or(8)?;
        if self.up[place] == up {
            Ok(place)
        } else {
            Err(9)
        }
    }

    fn crash_server(&mut self, party: u8) -> Result<Ended, u8> {
        let place = self.server(party, true)?;
        self.up[place] = false;
        Ok(Ended::Nothing)
    }

    /// It goes on from the very bytes that it had at the crash, as that of a host does which kept them.
    fn restart_server(&mut self, party: u8) -> Result<Ended, u8> {
        let place = self.server(party, false)?;
        self.servers[place] = copy_server(&self.config, &self.servers[place]);
        self.afresh[place] = Some(Server::fresh(&self.config, party, &self.start).map_err(Refusal::number)?);
        self.up[place] = true;
        Ok(Ended::Nothing)
    }

    /// Its state gets the host's mark: phase 5, the operation number, and zeros after it.
    fn crash_client(&mut self, party: u8) -> Result<Ended, u8> {
        let client = place(party).and_then(|place| self.clients.get_mut(place)).ok_or(8)?;
        if client.state()[1] == 5 {
            return Err(9);
        }
        let mut state = *client.state();
        state[1..4].copy_from_slice(&[5, 0, 0]);
        state[8..].fill(0);
        let down = Client::from_parts(&self.config, &state, client.kept(), client.elements());
        *client = down.map_err(Refusal::number)?;
        Ok(Ended::Nothing)
    }
}

/// A party's place in its list.
fn place(party: u8) -> Option<usize> {
    usize::from(party).checked_sub(1)
}

/// The client again, from its bytes.
pub fn copy(config: &Config, client: &Client) -> Client {
    Client::from_parts(config, client.state(), client.kept(), client.elements())
        .expect("a client's own bytes")
}

/// The server again, from its bytes.
pub fn copy_server(config: &Config, server: &Server) -> Server {
    Server::from_parts(config, server.state(), server.store()).expect("a server's own bytes")
}

/// An event's line, as the programs print it.
pub fn line(count: usize, answer: &Result<Ended, u8>) -> String {
    match answer {
        Ok(Ended::Nothing) => format!("{count} ok"),
        Ok(Ended::Written(tag)) => format!("{count} written {} {}", tag.number, tag.client),
        Ok(Ended::Spent) => format!("{count} spent"),
        Ok(Ended::Read(tag, board)) => {
            let digits: String = board.iter().map(|byte| format!("{byte:02x}")).collect();
            let blank = if board.is_empty() { "" } else { " " };
            format!("{count} read {} {}{blank}{digits}", tag.number, tag.client)
        }
        Err(number) => format!("{count} no {number}"),
    }
}
