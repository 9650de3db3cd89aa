//! Calls as hosts make them, taken from random runs: states of all phases, servers with and without a floor,
//! records in flight.

use crate::call::{Call, Which};
use crate::lists::{Maker, Met, Mood};
use crate::random::{made, Random};
use crate::rig::Rig;
use coded_board::{encode, Config, Record};

/// Many ends, many open operations, some crashes and restarts.
const MOOD: Mood = Mood {
    begin: 60,
    write: 500,
    lose: 0,
    double: 30,
    crash: 12,
    restart: 6,
    junk: 0,
    adverse: true,
    in_turn: false,
    loose: false,
};

/// So many rounds of the eleven calls, from one run.
pub fn samples(random: &mut Random, config: &Config, rounds: usize) -> Vec<Call> {
    let mut met = Met::default();
    let n = usize::from(config.n());
    let mut maker = Maker::new(random, &mut met, MOOD, config, 512);
    let mut calls = vec![];
    for _ in 0..rounds {
        let events = maker.random.within(1, 6 * n);
        (0..events).for_each(|_| maker.any());
        calls.extend(of_rig(maker.random, &maker.rig));
    }
    calls
}

/// A small configuration with room for a floor.
pub fn small(random: &mut Random) -> Config {
    let n = random.within(2, 5);
    let (k, d, e, c) = (random.within(1, n), random.below(3), random.within(1, 3), random.within(2, 4));
    made(random, [n, k, d, e, c])
}

/// The eleven calls, of some server and some client of a rig, with records in flight for them if there are any.
fn of_rig(random: &mut Random, rig: &Rig) -> Vec<Call> {
    let calls = [server_calls(random, rig), client_calls(random, rig), code_calls(random, &rig.config)];
    calls.concat()
}

fn server_calls(random: &mut Random, rig: &Rig) -> Vec<Call> {
    let config = rig.config.bytes();
    let server = &rig.servers[random.below(rig.servers.len())];
    let theirs = |r: &&Record| r.server() == server.number() && matches!(r.kind(), 1 | 3 | 5 | 7);
    let message = one(random, &rig.flight.iter().filter(theirs).collect::<Vec<_>>());
    let tag = 24 + 8 * random.below(8);
    let row = &server.state()[tag..tag + 8];
    let number = u32::from_le_bytes([row[0], row[1], row[2], row[3]]);
    let (state, store) = (server.state(), server.store());
    let (element, room) = (random.bytes(rig.config.e().into()), random.bytes(88));
    let fresh = random.bytes(store.len());
    vec![
        Call::new(Which::Lengths, &[config], 0, 0),
        Call::new(Which::ServerFresh, &[config, &element, &room, &fresh], server.number(), 0),
        Call::new(Which::ServerStep, &[config, state, &message, store, &room[..80]], 0, 0),
        Call::new(Which::ServerElement, &[config, state, store], row[4], number),
    ]
}

fn client_calls(random: &mut Random, rig: &Rig) -> Vec<Call> {
    let config = rig.config.bytes();
    let client = &rig.clients[random.below(rig.clients.len())];
    let answers =
        rig.flight.iter().filter(|r| r.client() == client.number() && matches!(r.kind(), 2 | 4 | 6 | 8 | 9));
    // Of the open operation, if there are any.
    let (now, late): (Vec<&Record>, Vec<&Record>) =
        answers.partition(|r| r.operation() == client.operation());
    let message = one(random, if now.is_empty() { &late } else { &now });
    let (v, n) = (rig.config.board_length(), usize::from(rig.config.n()));
    let (state, kept, elements) = (client.state(), client.kept(), client.elements());
    let (fresh, board, sends) = (random.bytes(56), random.bytes(v), random.bytes(80 * n));
    let outcome = random.bytes(12);
    let length = random.length(v) as u32;
    vec![
        Call::new(Which::ClientFresh, &[config, &fresh], client.number(), 0),
        Call::new(Which::ClientWrite, &[config, state, &board, kept, &sends], 0, length),
        Call::new(Which::ClientRead, &[config, state, &sends], 0, 0),
        Call::new(
            Which::ClientStep,
            &[config, state, &message, kept, elements, &sends, &board, &outcome],
            0,
            0,
        ),
    ]
}

fn code_calls(random: &mut Random, config: &Config) -> Vec<Call> {
    let (board, other) = (random.bytes(config.board_length()), random.bytes(config.board_length()));
    let element = random.bytes(config.e().into());
    let s = random.within(1, config.n().into()) as u8;
    let mut servers: Vec<u8> = (1..=config.n()).collect();
    while servers.len() > config.k().into() && random.chance(700) {
        servers.remove(random.below(servers.len()));
    }
    let elements: Vec<u8> = servers.iter().flat_map(|s| element_of(config, &board, *s)).collect();
    let places = places(random, config);
    let records = random.bytes(places[1] * usize::from(config.n()));
    vec![
        Call::new(Which::Encode, &[config.bytes(), &board, &element], s, 0),
        Call { places, ..Call::new(Which::EncodeAll, &[config.bytes(), &board, &records], 0, 0) },
        Call::new(Which::Decode, &[config.bytes(), &servers, &elements, &other], 0, 0),
    ]
}

/// An offset and a distance for all elements: those of records, of elements joined, or others.
pub fn places(random: &mut Random, config: &Config) -> [usize; 2] {
    let e = usize::from(config.e());
    let (before, after) = (random.below(9), random.below(9));
    random.pick(&[[16, 80], [0, e], [before, before + e], [before, before + e + after]])
}

pub fn element_of(config: &Config, board: &[u8], s: u8) -> Vec<u8> {
    let mut element = vec![0; config.e().into()];
    encode(config, board, s, &mut element).expect("a board and a server");
    element
}

/// One of these, or any bytes where there is none.
fn one(random: &mut Random, from: &[&Record]) -> Vec<u8> {
    if from.is_empty() {
        return random.bytes(80);
    }
    random.pick(from).bytes().to_vec()
}
