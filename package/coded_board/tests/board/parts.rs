//! Parties from their bytes: each is what it was, and goes on as it would have.

use crate::lists::{list, Met};
use crate::random::{config, Random};
use crate::rig::{copy, copy_server};
use coded_board::{Client, Config, Ended, Record, Refusal, Server, Tag};
use std::fmt::Debug;

/// The same parties twice. Those of the second are made again from their bytes before each step.
struct Twice {
    config: Config,
    servers: [Vec<Server>; 2],
    clients: [Vec<Client>; 2],
    flight: Vec<Record>,
    ended: usize,
}

impl Twice {
    fn fresh(config: &Config, start: &[u8]) -> Twice {
        let servers =
            || (1..=config.n()).map(|s| Server::fresh(config, s, start).expect("a server")).collect();
        let clients = || (1..=config.c()).map(|c| Client::fresh(config, c).expect("a client")).collect();
        let (servers, clients) = ([servers(), servers()], [clients(), clients()]);
        Twice { config: config.clone(), servers, clients, flight: vec![], ended: 0 }
    }

    /// Both servers take a record alike.
    fn server(&mut self, record: &Record) {
        let [a, b] = self.servers.each_mut().map(|all| &mut all[usize::from(record.server()) - 1]);
        *b = copy_server(&self.config, b);
        let answer = a.step(record);
        assert_eq!(b.step(record), answer);
        assert_eq!((a.state(), a.store(), a.number()), (b.state(), b.store(), b.number()));
        self.flight.extend(answer);
    }

    /// Both clients do something alike.
    fn client<T: PartialEq + Debug>(&mut self, number: u8, does: impl Fn(&mut Client) -> T) -> T {
        let [a, b] = self.clients.each_mut().map(|all| &mut all[usize::from(number) - 1]);
        *b = copy(&self.config, b);
        let done = does(a);
        assert_eq!(does(b), done);
        assert_eq!((a.state(), a.kept(), a.elements()), (b.state(), b.kept(), b.elements()));
        assert_eq!((a.number(), a.operation(), a.is_idle()), (b.number(), b.operation(), b.is_idle()));
        done
    }

    /// A client begins, or a message is handed over.
    fn any(&mut self, random: &mut Random) {
        let number = random.within(1, self.config.c().into()) as u8;
        if self.flight.is_empty() || random.chance(80) {
            let length = random.length(self.config.board_length());
            let board = random.bytes(length);
            let write = random.chance(500);
            let sends =
                self.client(number, |client| if write { client.write(&board) } else { client.read() });
            return self.flight.extend(sends.unwrap_or_default());
        }
        let record = self.flight.remove(random.below(self.flight.len()));
        if matches!(record.kind(), 1 | 3 | 5 | 7) {
            return self.server(&record);
        }
        if let Ok(step) = self.client(record.client(), |client| client.step(&record)) {
            self.flight.extend(step.sends);
            self.ended += usize::from(step.ended != Ended::Nothing);
        }
    }
}

#[test]
fn parties_go_on_from_their_bytes() {
    let mut ended = 0;
    for number in 0..150 {
        let random = &mut Random::new(56_088, number);
        let config = config(random);
        let start = random.bytes(config.board_length());
        let mut twice = Twice::fresh(&config, &start);
        (0..60 * usize::from(config.n())).for_each(|_| twice.any(random));
        ended += twice.ended;
    }
    assert!(ended > 500, "{ended} operations ended");
}

/// The element of a tag, at the place that the state tells.
#[test]
fn stored_elements() {
    let mut met = Met::default();
    let mut stored = 0;
    for number in 0..300 {
        let random = &mut Random::new(72, number);
        let rig = list(random, number, &mut met).rig;
        for server in &rig.servers {
            let e = usize::from(rig.config.e());
            let count = usize::from(server.state()[1]);
            let rows = server.state()[24..].chunks(8).take(count);
            for (row, part) in rows.zip(server.store().chunks(e)) {
                let tag =
                    Tag { number: u32::from_le_bytes([row[0], row[1], row[2], row[3]]), client: row[4] };
                assert_eq!(server.element(tag), Some(part));
                stored += 1;
            }
            assert_eq!(server.element(Tag { number: 9, client: 200 }), None);
        }
    }
    assert!(stored > 1000);
}

/// Bytes of another configuration, or of another length, are not taken.
#[test]
fn parts_of_others() {
    let config = Config::new(5, 3, 1, 2, 2, &[]).expect("numbers in range");
    let other = Config::new(5, 3, 1, 3, 2, &[]).expect("numbers in range");
    let fewer = Config::new(3, 3, 1, 2, 1, &[]).expect("numbers in range");
    let server = Server::fresh(&config, 4, &[1; 6]).expect("a fresh server");
    let client = Client::fresh(&config, 2).expect("a fresh client");
    let (state, store) = (server.state(), server.store());
    let refused = |result: Result<Server, Refusal>| result.err().map(|no| no.number());
    assert_eq!(refused(Server::from_parts(&other, state, store)), Some(6));
    assert_eq!(refused(Server::from_parts(&fewer, state, store)), Some(6));
    assert_eq!(refused(Server::from_parts(&config, &state[1..], store)), Some(6));
    assert_eq!(refused(Server::from_parts(&config, state, &store[1..])), Some(6));
    let (state, kept, elements) = (client.state(), client.kept(), client.elements());
    let refused = |result: Result<Client, Refusal>| result.err().map(|no| no.number());
    assert_eq!(refused(Client::from_parts(&other, state, kept, elements)), Some(6));
    assert_eq!(refused(Client::from_parts(&fewer, state, kept, elements)), Some(6));
    assert_eq!(refused(Client::from_parts(&config, &state[1..], kept, elements)), Some(6));
    assert_eq!(refused(Client::from_parts(&config, state, &kept[1..], elements)), Some(6));
    assert_eq!(refused(Client::from_parts(&config, state, kept, &elements[1..])), Some(6));
}

#[test]
fn configurations_from_their_bytes() {
    let random = &mut Random::new(21, 21);
    for _ in 0..500 {
        let config = config(random);
        let mut bytes = *config.bytes();
        assert_eq!(Config::from_bytes(&bytes), Ok(config.clone()));
        bytes[5 + usize::from(config.c())..].fill(9);
        assert_eq!(Config::from_bytes(&bytes), Ok(config.clone()), "ranks past C are not looked at");
        assert!((1..=config.c()).all(|c| config.rank(c) == bytes[4 + usize::from(c)]));
        assert_eq!((config.rank(0), config.rank(config.c() + 1), config.rank(255)), (0, 0, 0));
    }
}
