//! What must be refused: broken and missing files, a second process, other addresses; and datagrams that are
//! no records.

mod common;

use common::{said, Place};
use std::fs;
use std::net::UdpSocket;
use std::time::{Duration, Instant};

/// Fails, in words that hold this one, and without a panic.
fn refused(answer: (bool, String), word: &str) {
    let (success, text) = answer;
    assert!(!success && text.contains(word) && !text.contains("panicked"), "{word}: {text}");
}

#[test]
fn a_client_without_its_file_never_starts_afresh() {
    let place = Place::with_board("missing");
    let _servers = place.start_all();
    assert_eq!(place.said("put", "1 first"), (true, "written (1, 1)\n".to_string()));
    fs::remove_file(place.of_client(1, "kept")).unwrap();
    for command in ["put 1 again", "get 1", "finish 1"] {
        let (command, rest) = command.split_once(' ').unwrap();
        refused(place.said(command, rest), "No such file");
        assert!(!place.of_client(1, "kept").exists());
    }
    fs::remove_dir_all(place.of_client(2, "")).unwrap();
    refused(place.said("get", "2"), "No such file");
    refused(place.said("get", "4"), "No such file");
    assert_eq!(place.said("get", "3"), (true, "read (1, 1): \"first\"\n".to_string()));
}

#[test]
fn a_client_with_a_torn_file_is_refused() {
    let place = Place::with_board("torn");
    let file = place.of_client(1, "kept");
    let whole = fs::read(&file).unwrap();
    for length in [0, 10, 24, whole.len() / 2, whole.len() - 1] {
        fs::write(&file, &whole[..length]).unwrap();
        refused(place.said("put", "1 text"), "broken");
    }
    let mut turned = whole.clone();
    turned[100] ^= 1;
    fs::write(&file, &turned).unwrap();
    refused(place.said("get", "1"), "checksum");
    fs::write(&file, vec![0; 1 << 20]).unwrap();
    refused(place.said("get", "1"), "broken");
    fs::copy(place.of_client(2, "kept"), &file).unwrap();
    refused(place.said("get", "1"), "not of client 1");
    fs::write(&file, &whole).unwrap();
    refused(place.said("put", "1 text --seconds 1 --rounds 2 --wait 1"), "gave up");
}

#[test]
fn a_server_with_a_broken_or_missing_file_does_not_start() {
    let place = Place::with_board("broken");
    place.start(1, "").kill();
    let (file, refusal) = (place.disk(1).join("kept"), || said(place.server(1, "").output().unwrap()));
    let whole = fs::read(&file).unwrap();
    fs::write(&file, &whole[..whole.len() - 3]).unwrap();
    refused(refusal(), "broken");
    let mut turned = whole.clone();
    turned[30] ^= 4;
    fs::write(&file, &turned).unwrap();
    refused(refusal(), "checksum");
    fs::remove_file(&file).unwrap();
    refused(refusal(), "No such file");
    fs::remove_dir_all(place.disk(1)).unwrap();
    refused(refusal(), "has started before");
    place.start(2, "").kill();
    fs::create_dir(place.disk(1)).unwrap();
    fs::copy(place.disk(2).join("kept"), &file).unwrap();
    refused(refusal(), "not of server 1");
    fs::write(&file, &whole).unwrap();
    assert!(place.start(1, "").runs());
}

#[test]
fn a_file_of_another_board_is_refused() {
    let (one, other) = (Place::with_board("one"), Place::new("other"));
    let made =
        other.init("--servers 5 --threshold 3 --depth 2 --width 8 --clients 3 --ranks 0,0,1 --start start");
    assert!(made.status.success());
    fs::copy(one.of_client(1, "kept"), other.of_client(1, "kept")).unwrap();
    refused(other.said("get", "1"), "of this board");
    one.start(1, "").kill();
    fs::rename(one.disk(1), other.disk(1)).unwrap();
    refused(said(other.server(1, "").output().unwrap()), "of this board");
}

#[test]
fn one_process_has_a_party() {
    let place = Place::with_board("locked");
    let fresh = fs::read(place.of_client(1, "kept")).unwrap();
    let mut open = place.client("put", "1 slow --seconds 20").spawn().unwrap();
    let until = Instant::now() + Duration::from_secs(5);
    while fs::read(place.of_client(1, "kept")).unwrap() == fresh && Instant::now() < until {}
    refused(place.said("get", "1"), "in use");
    open.kill().unwrap();
    open.wait().unwrap();
    refused(place.said("get", "1 --rounds 1"), "gave up");
    let _first = place.start(1, "");
    refused(said(place.server(1, "").output().unwrap()), "in use");
}

#[test]
fn wrong_words_are_refused() {
    let place = Place::with_board("words");
    refused(said(place.init("--servers 5 --threshold 3 --depth 2 --width 8 --clients 3")), "already");
    refused(place.said("put", "1 a-text-of-more-than-twenty-four-bytes"), "too long");
    refused(place.said("put", "1 text --loss 101"), "0 to 100");
    refused(place.said("put", "1"), "TEXT is missing");
    refused(place.said("get", "x"), "not such a number");
    refused(place.said("get", "1 2"), "too many");
    refused(place.said("fetch", "1"), "no such command");
    let mut server = place.server(6, "");
    refused(said(server.output().unwrap()), "there is no server 6");
    let new = Place::new("sizes");
    for (sizes, word) in
        [("17 3 2 8 3", "16"), ("5 6 2 8 3", "k is"), ("5 3 8 8 3", "D is"), ("5 3 2 x 3", "small number")]
    {
        let names = ["--servers", "--threshold", "--depth", "--width", "--clients"];
        let sizes: Vec<&str> =
            names.into_iter().zip(sizes.split(' ')).flat_map(|(name, size)| [name, size]).collect();
        refused(said(new.init(&sizes.join(" "))), word);
        assert!(!new.board_folder().exists());
    }
}

#[test]
fn the_loopback_alone_is_bound() {
    let place = Place::with_board("loopback");
    for wrong in ["0.0.0.0:21000", "192.168.0.1:21000", "[::]:21000"] {
        let mut server = std::process::Command::new(env!("CARGO_BIN_EXE_board-server"));
        server.arg(place.disk(1)).arg("1").arg(place.board_folder().join("config")).arg(wrong);
        refused(said(server.output().unwrap()), "127.0.0.1 alone");
    }
}

#[test]
fn datagrams_that_are_no_records_are_dropped() {
    let place = Place::with_board("datagrams");
    let mut servers = place.start_all();
    let socket = UdpSocket::bind("127.0.0.1:0").unwrap();
    socket.set_read_timeout(Some(Duration::from_secs(5))).unwrap();
    for length in [0, 1, 79, 80, 81, 160, 60_000] {
        for byte in [0, 1, 255] {
            socket.send_to(&vec![byte; length], place.ports.server(1)).unwrap();
        }
    }
    for (server, operation) in [(2, 1), (1, 2)] {
        let mut query = [0; 80];
        query[..8].copy_from_slice(&[1, 1, server, 0, operation, 0, 0, 0]);
        socket.send_to(&query, place.ports.server(1)).unwrap();
    }
    let mut answer = [0; 100];
    assert_eq!(socket.recv_from(&mut answer).unwrap(), (80, place.ports.server(1)));
    assert_eq!(
        answer[..8],
        [2, 1, 1, 0, 2, 0, 0, 0],
        "the first answer is to the one query that is server 1's"
    );
    assert!(servers.iter_mut().all(|server| server.runs()));
}
