//! Nothing leaves a party before what it tells of is kept: a party whose disk is gone falls silent, and
//! stops.

mod common;

use board_udp::shared::Shared;
use coded_board::{Client, Record};
use common::servers::Servers;
use common::{said, Place};
use std::fs;
use std::net::UdpSocket;
use std::process::Stdio;
use std::time::{Duration, Instant};

/// Sends a record to a server and waits for the answer.
fn answer(place: &Place, socket: &UdpSocket, record: &Record) -> Option<Record> {
    socket.send_to(record.bytes(), place.ports.server(record.server())).unwrap();
    let mut room = [0; 100];
    let (length, _) = socket.recv_from(&mut room).ok()?;
    Some(Record::from_bytes(&room[..length]).unwrap())
}

#[test]
fn a_server_that_cannot_keep_does_not_answer() {
    let place = Place::with_board("server-disk");
    let mut servers = place.start_all();
    let socket = UdpSocket::bind("127.0.0.1:0").unwrap();
    socket.set_read_timeout(Some(Duration::from_secs(5))).unwrap();
    let shared = Shared::read(&place.board_folder().join("config")).unwrap();
    let mut client = Client::fresh(&shared.config, 1).unwrap();
    let queries = client.write(b"text").unwrap();
    let answers = queries.iter().map(|query| answer(&place, &socket, query).unwrap());
    let steps: Vec<_> = answers.flat_map(|answer| client.step(&answer)).collect();
    let writes = &steps.last().unwrap().sends;
    fs::remove_dir_all(place.disk(1)).unwrap();
    assert_eq!(answer(&place, &socket, &queries[0]).unwrap().kind(), 2, "what changes nothing is answered");
    assert_eq!(answer(&place, &socket, &writes[1]).unwrap().kind(), 4);
    socket.set_read_timeout(Some(Duration::from_millis(500))).unwrap();
    assert!(answer(&place, &socket, &writes[0]).is_none());
    let until = Instant::now() + Duration::from_secs(5);
    while servers[0].runs() && Instant::now() < until {}
    assert!(!servers[0].runs() && servers[1].runs());
}

#[test]
fn a_client_that_cannot_keep_sends_nothing() {
    for (command, rest, before, kind) in
        [("put", "1 text", 1, 3), ("put", "1 text", 3, 5), ("get", "1", 1, 7)]
    {
        let place = Place::with_board(&format!("client-disk-{kind}"));
        let mut servers = Servers::new(&place);
        let mut call = place.client(command, rest).stderr(Stdio::piped()).spawn().unwrap();
        servers.wait_for(before);
        fs::remove_dir_all(place.of_client(1, "")).unwrap();
        let until = Instant::now() + Duration::from_secs(10);
        while call.try_wait().unwrap().is_none() && Instant::now() < until {
            assert_eq!(servers.answer_but(kind), []);
        }
        assert_eq!(servers.answer_but(kind), []);
        let (success, text) = said(call.wait_with_output().unwrap());
        assert!(!success && text.contains("No such file"), "{text}");
    }
}
