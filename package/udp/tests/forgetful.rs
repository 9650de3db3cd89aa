//! Why servers and clients must keep what they keep: the steps in memory, with a party that comes back fresh.

use board_udp::history::{operations, Event};
use board_udp::search::{search, Found};
use coded_board::{Client, Config, Ended, Record, Server, Step};

const START: [u8; 2] = *b"--";

struct Board {
    config: Config,
    servers: Vec<Server>,
    clients: Vec<Client>,
    events: Vec<Event>,
}

impl Board {
    /// Three servers, of which any two make a quorum, and two clients. An element is a whole board.
    fn new() -> Board {
        let config = Config::new(3, 1, 1, 2, 2, &[]).unwrap();
        let servers = (1..=3).map(|s| Server::fresh(&config, s, &START).unwrap()).collect();
        let clients = (1..=2).map(|c| Client::fresh(&config, c).unwrap()).collect();
        Board { config, servers, clients, events: vec![] }
    }

    fn forget_server(&mut self, s: u8) {
        self.servers[usize::from(s) - 1] = Server::fresh(&self.config, s, &START).unwrap();
    }

    fn forget_client(&mut self, c: u8) {
        self.clients[usize::from(c) - 1] = Client::fresh(&self.config, c).unwrap();
    }

    fn begin(&mut self, c: u8, board: Option<&[u8]>) -> Vec<Record> {
        let client = &mut self.clients[usize::from(c) - 1];
        self.events.push(board.map_or(Event::Read(c), |board| Event::Write(c, board.to_vec())));
        match board {
            Some(board) => client.write(board).unwrap(),
            None => client.read().unwrap(),
        }
    }

    /// One phase, whose records reach these servers alone.
    fn phase(&mut self, sends: &[Record], reached: &[u8]) -> Step {
        let mut last = Step { sends: vec![], ended: Ended::Nothing };
        for record in sends.iter().filter(|record| reached.contains(&record.server())) {
            let answer = self.servers[usize::from(record.server()) - 1].step(record).unwrap();
            if let Ok(step) = self.clients[usize::from(record.client()) - 1].step(&answer) {
                last = step;
            }
        }
        last
    }

    /// All phases, to the end.
    fn end(&mut self, c: u8, mut sends: Vec<Record>, reached: &[u8]) -> Ended {
        while !sends.is_empty() {
            let step = self.phase(&sends, reached);
            if step.ended != Ended::Nothing {
                self.events.push(Event::End(c, step.ended.clone()));
                return step.ended;
            }
            sends = step.sends;
        }
        panic!("too few servers are reached");
    }

    fn operation(&mut self, c: u8, board: Option<&[u8]>, reached: &[u8]) -> Ended {
        let sends = self.begin(c, board);
        self.end(c, sends, reached)
    }

    fn has_an_order(&self) -> bool {
        match search(&operations(&self.events).unwrap(), &START, 10_000) {
            Found::Order(_) => true,
            Found::Nothing => false,
            Found::Unknown => panic!("the search gave up"),
        }
    }
}

#[test]
fn a_server_that_comes_back_fresh_loses_the_board() {
    for forgets in [false, true] {
        let mut board = Board::new();
        board.operation(1, Some(b"ab"), &[1, 2]);
        if forgets {
            board.forget_server(2);
        }
        let ended = board.operation(2, None, &[2, 3]);
        let shown: &[u8] = if forgets { &START } else { b"ab" };
        assert!(matches!(ended, Ended::Read(_, read) if read == shown));
        assert_eq!(board.has_an_order(), !forgets);
    }
}

#[test]
fn a_client_that_comes_back_fresh_gives_two_boards_one_tag() {
    for forgets in [false, true] {
        let mut board = Board::new();
        let queries = board.begin(1, Some(b"ab"));
        let writes = board.phase(&queries, &[1, 2]).sends;
        assert!(board.phase(&writes, &[1]).sends.is_empty());
        if forgets {
            board.forget_client(1);
        } else {
            board.end(1, writes.clone(), &[1, 2]);
        }
        let Ended::Written(tag) = board.operation(1, Some(b"cd"), &[1, 2]) else { panic!("not written") };
        assert_eq!(tag == writes[0].tag(), forgets);
        board.operation(2, None, &[1, 3]);
        board.operation(2, None, &[2, 3]);
        assert_eq!(board.has_an_order(), !forgets);
    }
}
