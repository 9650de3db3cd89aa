//! Each number of the header's table by a call that is due it, through the crate.

use crate::samples::element_of;
use coded_board::{calls, decode, encode, encode_all, Client, Config, Ended, Record, Refusal, Server, Tag};

/// N 5, k 3, D 1, E 2, C 2, client 1 of rank 1; V is 6.
fn config() -> Config {
    Config::new(5, 3, 1, 2, 2, &[1, 0]).expect("numbers in range")
}

fn no<T>(result: Result<T, Refusal>) -> u8 {
    result.err().map_or(0, Refusal::number)
}

/// A record of these bytes from offset 0 on, zeros after them.
fn record(bytes: &[u8]) -> Record {
    let mut whole = [0; 80];
    whole[..bytes.len()].copy_from_slice(bytes);
    Record::from_bytes(&whole).expect("80 bytes")
}

/// An answer of kind 2 to operation 1 of client 1, with a tag of this number and of client 2.
fn answer(server: u8, number: u32) -> Record {
    let [a, b, c, d] = number.to_le_bytes();
    record(&[2, 1, server, 0, 1, 0, 0, 0, a, b, c, d, if number == 0 { 0 } else { 2 }])
}

/// A client's state with another operation number.
fn with_operation(client: &Client, operation: u32) -> [u8; 56] {
    let mut state = *client.state();
    state[4..8].copy_from_slice(&operation.to_le_bytes());
    state
}

/// The same client with another state.
fn again(client: &Client, state: &[u8]) -> Result<Client, Refusal> {
    Client::from_parts(&config(), state, client.kept(), client.elements())
}

/// 1 to 5 and 21 are asked in this order, and the length of all before them.
#[test]
fn of_the_configuration() {
    assert_eq!(no(Config::new(0, 9, 8, 65, 0, &[])), 1);
    assert_eq!(no(Config::new(17, 1, 0, 1, 1, &[])), 1);
    assert_eq!(no(Config::new(5, 6, 8, 65, 0, &[])), 2);
    assert_eq!(no(Config::new(5, 0, 0, 1, 1, &[])), 2);
    assert_eq!(no(Config::new(5, 5, 8, 65, 0, &[])), 3);
    assert_eq!(no(Config::new(5, 5, 7, 65, 0, &[])), 4);
    assert_eq!(no(Config::new(5, 5, 7, 0, 0, &[])), 4);
    assert_eq!(no(Config::new(5, 5, 7, 64, 0, &[])), 5);
    assert_eq!(no(Config::new(5, 5, 7, 64, 17, &[4])), 5);
    assert_eq!(no(Config::new(5, 5, 7, 64, 2, &[4, 0])), 21);
    assert_eq!(no(Config::new(5, 5, 7, 64, 2, &[0, 255])), 21);
    assert_eq!(no(Config::new(16, 16, 7, 64, 16, &[3; 16])), 0);
    assert_eq!(no(Config::from_bytes(&[0; 20])), 6);
    assert_eq!(no(Config::from_bytes(&[0; 22])), 6);
    assert_eq!(no(Config::from_bytes(&[0; 21])), 1);
}

/// 6 of a state: what the phase has no use for is zero, and so is what stands past the stored tags.
#[test]
fn of_a_state_that_keeps_more_than_it_has() {
    let config = config();
    let server = Server::fresh(&config, 2, &[7; 6]).expect("a fresh server");
    for at in (3..8).chain(13..24).chain([31]).chain(32..88) {
        let mut state = *server.state();
        state[at] = 1;
        assert_eq!(no(Server::from_parts(&config, &state, server.store())), 6, "offset {at}");
    }
    let client = Client::fresh(&config, 1).expect("a fresh client");
    for at in [2, 3].into_iter().chain(8..56) {
        let mut state = *client.state();
        state[at] = 1;
        assert_eq!(no(again(&client, &state)), 6, "offset {at}");
    }
}

/// 6 of lengths, and 8 after it.
#[test]
fn of_fresh_parties() {
    let config = config();
    assert_eq!(no(Server::fresh(&config, 9, &[0; 5])), 6);
    assert_eq!(no(Server::fresh(&config, 0, &[0; 6])), 8);
    assert_eq!(no(Server::fresh(&config, 6, &[0; 6])), 8);
    assert_eq!(no(Client::fresh(&config, 0)), 8);
    assert_eq!(no(Client::fresh(&config, 3)), 8);
    assert_eq!(no(Record::from_bytes(&[0; 79])), 6);
    assert_eq!(no(Record::from_bytes(&[0; 81])), 6);
    let mut state = [3; 88];
    assert_eq!(calls::server_fresh(config.bytes(), 1, &[0; 2], &mut state[..87], &mut [0; 4]), 6);
    assert_eq!(state, [3; 88]);
}

/// 19, then 9, 10 and 11.
#[test]
fn of_beginnings() {
    let mut client = Client::fresh(&config(), 1).expect("a fresh client");
    assert_eq!(no(client.write(&[1; 7])), 19);
    assert_eq!(no(client.write(&[1; 70_000])), 19);
    assert_eq!(no(client.write(&[1; 6])), 0);
    assert_eq!(no(client.write(&[1; 7])), 19);
    assert_eq!(no(client.write(&[1; 6])), 10);
    assert_eq!(no(client.read()), 10);
    let mut down = Client::fresh(&config(), 1).expect("a fresh client").state().to_owned();
    down[1] = 5;
    let mut client = again(&client, &down).expect("a client that is down");
    assert_eq!(no(client.write(&[1; 7])), 19);
    assert_eq!(no(client.write(&[])), 9);
    assert_eq!(no(client.read()), 9);
    let idle = Client::fresh(&config(), 2).expect("a fresh client");
    let mut last = again(&idle, &with_operation(&idle, u32::MAX)).expect("operation numbers used up");
    assert_eq!(no(last.write(&[1; 7])), 19);
    assert_eq!(no(last.write(&[])), 11);
    assert_eq!(no(last.read()), 11);
    let mut one_left = again(&idle, &with_operation(&idle, u32::MAX - 1)).expect("one number left");
    assert_eq!(no(one_left.read()), 0);
    assert_eq!(one_left.operation(), u32::MAX);
}

/// 12, then 16, then 14.
#[test]
fn of_steps() {
    let config = config();
    let mut server = Server::fresh(&config, 2, &[7; 6]).expect("a fresh server");
    let mut client = Client::fresh(&config, 1).expect("a fresh client");
    let sends = client.read().expect("a read begins");
    let answered = server.step(&sends[1]).expect("an answer");
    assert_eq!(no(server.step(&record(&[]))), 12);
    assert_eq!(no(server.step(&record(&[10, 1, 2, 0, 1]))), 12);
    assert_eq!(no(server.step(&sends[0])), 16);
    assert_eq!(no(server.step(&answered)), 16);
    assert_eq!(no(client.step(&record(&[]))), 12);
    assert_eq!(no(client.step(&sends[1])), 16);
    assert_eq!(no(client.step(&record(&[2, 2, 2, 0, 1]))), 16);
    assert_eq!(no(client.step(&record(&[2, 1, 2, 0, 2]))), 14);
    assert_eq!(no(client.step(&record(&[4, 1, 2, 0, 1, 0, 0, 0, 1, 0, 0, 0, 1]))), 14);
    assert_eq!(no(client.step(&answered)), 0);
    assert_eq!(no(client.step(&answered)), 14);
}

/// 6, then 17, then 18.
#[test]
fn of_the_code() {
    let config = config();
    let (board, mut element) = ([1, 2, 3, 4, 5, 6], [9; 2]);
    assert_eq!(no(encode(&config, &board[..5], 0, &mut element)), 6);
    assert_eq!(no(encode(&config, &board, 0, &mut element)), 18);
    assert_eq!(no(encode(&config, &board, 6, &mut element)), 18);
    assert_eq!(element, [9; 2]);
    let mut records = [9; 21];
    assert_eq!(no(encode_all(&config, &board[..5], 1, 4, &mut records[..20])), 6);
    assert_eq!(no(encode_all(&config, &board, 1, 4, &mut records)), 6);
    assert_eq!(no(encode_all(&config, &board, 1, 4, &mut records[..19])), 6);
    assert_eq!(no(encode_all(&config, &board, 3, 4, &mut records[..20])), 6);
    assert_eq!(no(encode_all(&config, &board, usize::MAX, 4, &mut records[..20])), 6);
    assert_eq!(no(encode_all(&config, &board, 0, usize::MAX, &mut records[..20])), 6);
    assert_eq!(no(encode_all(&config, &board, usize::MAX, usize::MAX, &mut records[..20])), 6);
    assert_eq!(no(encode_all(&config, &board, 0, 0, &mut [])), 6);
    assert_eq!(records, [9; 21]);
    assert_eq!(no(encode_all(&config, &board, 2, 4, &mut records[..20])), 0);
    let elements: Vec<u8> = (1..=5).flat_map(|s| element_of(&config, &board, s)).collect();
    let mut read = [9; 6];
    assert_eq!(no(decode(&config, &[1, 2, 3], &elements, &mut read)), 6);
    assert_eq!(no(decode(&config, &[1, 2, 3], &elements[..6], &mut read[..5])), 6);
    assert_eq!(no(decode(&config, &[], &[], &mut read)), 18);
    assert_eq!(no(decode(&config, &[1, 2], &elements[..4], &mut read)), 18);
    assert_eq!(no(decode(&config, &[2, 1], &elements[..4], &mut read)), 17);
    assert_eq!(no(decode(&config, &[1, 1, 2], &elements[..6], &mut read)), 17);
    assert_eq!(no(decode(&config, &[0, 1, 2], &elements[..6], &mut read)), 17);
    assert_eq!(no(decode(&config, &[1, 2, 6], &elements[..6], &mut read)), 17);
    assert_eq!(no(decode(&config, &[1; 20], &[0; 40], &mut read)), 17);
    assert_eq!(read, [9; 6]);
}

/// A write that is told of the last tag number has no next one, and ends spent.
#[test]
fn a_write_ends_spent_at_the_last_tag() {
    let mut client = Client::fresh(&config(), 1).expect("a fresh client");
    client.write(b"a").expect("a write begins");
    for (server, number) in [(1, 0), (2, u32::MAX), (3, 5)] {
        assert_eq!(client.step(&answer(server, number)).map(|step| step.ended), Ok(Ended::Nothing));
    }
    let step = client.step(&answer(4, 0)).expect("awaited");
    assert_eq!((step.ended, step.sends.len()), (Ended::Spent, 0));
    assert!(client.is_idle());
}

/// A read whose element was cleared asks again, under the next operation number; after the last there is
/// none, and it ends spent.
#[test]
fn a_read_asks_again_or_ends_spent() {
    let config = config();
    let mut client = Client::fresh(&config, 1).expect("a fresh client");
    client.read().expect("a read begins");
    let sends = (1..=4).flat_map(|s| client.step(&answer(s, 3)).expect("awaited").sends).collect::<Vec<_>>();
    assert_eq!(sends.len(), 5);
    assert!(sends.iter().all(|r| r.kind() == 7 && r.tag() == Tag { number: 3, client: 2 }));
    let last = with_operation(&client, u32::MAX);
    let cleared = record(&[9, 1, 3, 0, 1, 0, 0, 0, 3, 0, 0, 0, 2]);
    let step = client.step(&cleared).expect("awaited");
    assert_eq!(step.ended, Ended::Nothing);
    assert!(step.sends.iter().all(|r| r.kind() == 1 && r.operation() == 2));
    assert_eq!((step.sends.len(), client.operation()), (5, 2));
    let mut client = again(&client, &last).expect("the last operation number");
    let cleared = record(&[9, 1, 3, 0, 255, 255, 255, 255, 3, 0, 0, 0, 2]);
    let step = client.step(&cleared).expect("awaited");
    assert_eq!((step.ended, step.sends.len()), (Ended::Spent, 0));
    assert!(client.is_idle());
}

/// Of two tags of one number, that of the higher rank is the later one: client 1's is stored, client 2's is
/// dropped and becomes the floor, and is told to a reader as cleared.
#[test]
fn rank_decides_what_is_dropped() {
    let config = Config::new(1, 1, 0, 1, 2, &[1, 0]).expect("numbers in range");
    let mut server = Server::fresh(&config, 1, &[7]).expect("a fresh server");
    for client in [1, 2] {
        let mut bytes = [0; 80];
        bytes[..17].copy_from_slice(&[3, client, 1, 1, 1, 0, 0, 0, 4, 0, 0, 0, client, 1, 0, 0, 40 + client]);
        server.step(&Record::from_bytes(&bytes).expect("80 bytes")).expect("a pre-write");
    }
    assert_eq!(server.element(Tag { number: 4, client: 1 }), Some(&[41][..]));
    assert_eq!(server.element(Tag { number: 4, client: 2 }), None);
    assert_eq!(server.element(Tag { number: 0, client: 0 }), None);
    let answered = server.step(&record(&[7, 1, 1, 0, 1, 0, 0, 0, 4, 0, 0, 0, 2])).expect("a read finalise");
    assert_eq!((answered.kind(), answered.tag()), (9, Tag { number: 4, client: 2 }));
}
