//! Operations that a process leaves open, and a later one goes on with.

mod common;

use board_udp::history::{events, operations};
use coded_board::Record;
use common::servers::Servers;
use common::{said, Place, Running};
use std::fs;
use std::process::Stdio;
use std::time::{Duration, Instant};

#[test]
fn a_call_gives_up_and_a_later_one_goes_on() {
    let place = Place::with_board("patience");
    let history = format!("--history {}", place.folder.join("history").display());
    let (success, text) = place.said("put", &format!("1 hello {history} --seconds 1 --wait 20"));
    assert!(!success && text.contains("gave up") && text.contains("stays open"), "{text}");
    let (success, text) = place.said("get", &format!("1 {history} --rounds 3 --wait 20"));
    assert!(!success && text.contains("gave up"), "{text}");
    let servers: Vec<Running> = (1..=4).map(|server| place.start(server, "")).collect();
    let expected = "the operation left open: written (1, 1)\nread (1, 1): \"hello\"\n";
    assert_eq!(place.said("get", &format!("1 {history}")), (true, expected.to_string()));
    assert_eq!(place.said("finish", &format!("1 {history}")), (true, String::new()));
    let lines = "begin 1 write 68656c6c6f\nend 1 written 1 1\nbegin 1 read\nend 1 read 1 1 68656c6c6f\n";
    assert_eq!(fs::read_to_string(place.folder.join("history")).unwrap(), lines);
    drop(servers);
}

#[test]
fn an_end_that_nobody_was_told_is_told_later_and_recorded_once() {
    let place = Place::with_board("untold");
    let _servers = place.start_all();
    let path = place.folder.join("history");
    let history = format!("--history {}", path.display());
    // With its output closed a call can keep and record the end, and not tell it.
    let (reader, writer) = std::io::pipe().unwrap();
    drop(reader);
    let mut call = place.client("put", &format!("1 text {history}"));
    let status = call.stdout(writer).stderr(Stdio::null()).status().unwrap();
    drop(call);
    assert!(!status.success());
    assert!(place.said("finish", &format!("1 {history}")).1.contains("left open: written (1, 1)"));
    assert_eq!(place.said("finish", "1"), (true, String::new()));
    assert_eq!(fs::read_to_string(&path).unwrap(), "begin 1 write 74657874\nend 1 written 1 1\n");
    assert_eq!(operations(&events(&fs::read_to_string(&path).unwrap()).unwrap()).unwrap().len(), 1);
}

#[test]
fn a_write_that_finds_no_number_left_ends_spent() {
    let place = Place::with_board("spent");
    let mut servers = Servers::new(&place);
    servers.at_the_last_number();
    let path = place.folder.join("history");
    let mut call = place.client("put", &format!("1 text --history {}", path.display()));
    let call = call.stdout(Stdio::piped()).stderr(Stdio::piped()).spawn().unwrap();
    let until = Instant::now() + Duration::from_secs(10);
    while !fs::read_to_string(&path).unwrap_or_default().contains("end") && Instant::now() < until {
        servers.answer_but(0);
    }
    let (success, text) = said(call.wait_with_output().unwrap());
    assert!(!success && text.starts_with("spent"), "{text}");
    assert_eq!(fs::read_to_string(&path).unwrap(), "begin 1 write 74657874\nend 1 spent\n");
    assert_eq!(place.said("finish", "1"), (true, String::new()));
}

/// The records of a phase, and the first records after a kill in it.
fn sent_before_and_after_a_kill(name: &str, command: &str, rest: &str, kind: u8) -> [Vec<Record>; 2] {
    let place = Place::with_board(name);
    let mut servers = Servers::new(&place);
    let mut first = place.client(command, rest).stdout(Stdio::null()).spawn().unwrap();
    let before = servers.wait_for(kind);
    first.kill().unwrap();
    first.wait().unwrap();
    servers.clear();
    let mut second = place.client("finish", "1").stdout(Stdio::null()).spawn().unwrap();
    let after = servers.first();
    second.kill().unwrap();
    second.wait().unwrap();
    [before, after]
}

#[test]
fn the_very_records_that_were_kept_are_sent_again() {
    for (command, rest, kind) in
        [("put", "1 text", 1), ("put", "1 text", 3), ("put", "1 text", 5), ("get", "1", 7)]
    {
        let [before, after] = sent_before_and_after_a_kill(&format!("kept-{kind}"), command, rest, kind);
        assert_eq!(before.len(), 5, "kind {kind}");
        assert_eq!(before, after, "kind {kind}");
    }
}
