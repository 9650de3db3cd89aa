//! Directed lists about servers that are started again, where N is 3, k 1 and E 1, so q is 2.

use crate::list::shared;
use crate::model::{CLEARED, Config, Event, PRE_WRITE, QUERY, READ_FINALISE, WRITE_FINALISE};
use crate::programs::PROGRAM;
use crate::script::{Directed, Script};

/// Two boards.
fn two() -> Config {
    shared(PROGRAM, &[0, 0])
}

pub fn all() -> Vec<Directed> {
    vec![
        figure().named("the figure of request L7"),
        figure_of_two().named("the figure of request L7 on two boards"),
        questions(PROGRAM).named("questions of a restart, by board"),
        questions(two()).named("questions of a restart, by simulate"),
        clients().named("a crashed client isn't started again"),
        floor(PROGRAM, 1).named("a floor kept over a crash"),
        floor(two(), 2).named("a floor kept over a crash on board 2"),
        highest(PROGRAM, 1).named("H kept over a crash"),
        highest(two(), 2).named("H kept over a crash on board 2"),
        elements().named("each element kept over a crash"),
        gone().named("messages gone while a server is down"),
        pre_write_gone().named("a pre-write gone while a server is down"),
        finalise_gone().named("a finalise gone while a server is down"),
        in_flight().named("messages in flight over a crash"),
        stalled().named("operations that stall and go on"),
        in_turn().named("crashes and restarts in turn"),
        all_down().named("all servers down and up again"),
    ]
}

/// Hands over what is at these positions; the last one has this line.
fn at(s: &mut Script, positions: &[u8], due: &str) {
    let (last, others) = positions.split_last().expect("positions");
    others.iter().for_each(|position| s.event([3, 0, *position, 0], "ok"));
    s.event([3, 0, *last, 0], due);
}

/// Client 1 writes a byte by servers 1 and 2.
fn write_of_figure(s: &mut Script, byte: u8) {
    s.write(1, byte);
    at(s, &[0, 0, 1, 1, 1, 1, 2, 2, 2, 2, 3, 3], "written 1 1");
}

/// Client 2 reads by servers 1 and 3.
fn read_of_figure(s: &mut Script, due: &str) {
    s.read(2);
    at(s, &[3, 4, 4, 4, 4, 5, 5, 5], due);
}

pub fn figure() -> Script {
    let mut s = Script::new(PROGRAM);
    write_of_figure(&mut s, 0x11);
    s.crash(&[1]);
    s.restart(&[1]);
    read_of_figure(&mut s, "read 1 1 11");
    s
}

/// Server 1 answers on each board with what it kept there.
fn figure_of_two() -> Script {
    let mut s = Script::new(two());
    for (board, byte) in [(1, 0x11), (2, 0x22)] {
        s.on = board;
        write_of_figure(&mut s, byte);
    }
    s.crash(&[1]);
    s.restart(&[1]);
    for (board, due) in [(1, "read 1 1 11"), (2, "read 1 1 22")] {
        s.on = board;
        read_of_figure(&mut s, due);
    }
    s
}

/// 7, then 8, then 9, whatever the fields that a restart doesn't use.
fn questions(config: Config) -> Script {
    let mut s = Script::new(config);
    for (board, position, length) in [(1, 0, 0), (0, 65535, 65535), (2, 64, 2), (3, 1, 256), (255, 512, 1)] {
        let mut put = |code, party, due: &str| {
            s.put(Event { code, party, position, board, bytes: &[9], length }, due);
        };
        [0, 1, 4, 255].iter().for_each(|party| put(9, *party, "no 7"));
        [0, 4, 5, 16, 255].iter().for_each(|party| put(8, *party, "no 8"));
        (1..=3).for_each(|party| put(8, party, "no 9"));
        put(6, 2, "ok");
        put(6, 2, "no 9");
        [1, 3].iter().for_each(|party| put(8, *party, "no 9"));
        [0, 4].iter().for_each(|party| put(8, *party, "no 8"));
        put(9, 2, "no 7");
        put(8, 2, "ok");
        put(8, 2, "no 9");
    }
    s
}

/// Clients 1, 2 and 4 are down. A restart is of the server of that number, if there is one.
fn clients() -> Script {
    let mut s = Script::new(Config { c: 4, ..PROGRAM });
    s.read(1);
    [1, 2, 4].iter().for_each(|client| s.event([7, *client, 0, 0], "ok"));
    s.crash(&[1]);
    s.restart(&[1]);
    s.event([8, 1, 0, 0], "no 9");
    s.event([8, 2, 0, 0], "no 9");
    s.event([8, 4, 0, 0], "no 8");
    for client in [1, 2, 4] {
        s.event([2, client, 0, 0], "no 9");
        s.event([7, client, 0, 0], "no 9");
    }
    s.answered(1, QUERY, &[1, 2]);
    s.in_flight(1);
    read(&mut s, 3, [1, 2], "read 0 0 00");
    s
}

/// Client 2 writes a byte by these servers.
fn write(s: &mut Script, byte: u8, [one, two]: [u8; 2], due: &str) {
    s.write(2, byte);
    s.answered(2, QUERY, &[one, two]);
    s.answered(2, PRE_WRITE, &[one, two]);
    s.answered(2, WRITE_FINALISE, &[one]);
    s.hand(2, WRITE_FINALISE, &[two]);
    s.due(2, WRITE_FINALISE + 1, two, due);
}

/// A client reads by these servers.
fn read(s: &mut Script, client: u8, [one, two]: [u8; 2], due: &str) {
    s.read(client);
    s.answered(client, QUERY, &[one, two]);
    shows(s, client, [one, two], due);
}

/// A read that has asked ends by these servers.
fn shows(s: &mut Script, client: u8, [one, two]: [u8; 2], due: &str) {
    s.answered(client, READ_FINALISE, &[one]);
    s.hand(client, READ_FINALISE, &[two]);
    s.due(client, READ_FINALISE + 1, two, due);
}

/// The read takes (0, 0), which is the floor of server 1 at its crash. So it asks again.
fn floor(config: Config, board: u8) -> Script {
    let mut s = Script::new(config);
    s.on = board;
    s.read(1);
    s.answered(1, QUERY, &[1, 2]);
    s.pre_written(&[1, 2]);
    s.crash(&[1]);
    s.restart(&[1]);
    s.hand(1, READ_FINALISE, &[1]);
    s.in_flight(8);
    s.hand(1, CLEARED, &[1]);
    s.in_flight(10);
    s.written();
    s.answered(1, QUERY, &[1, 2]);
    s.shows(1, "read 1 2 ab");
    s
}

/// Server 3 knows of no write, and of servers 1 and 2 it is the restarted one that tells of it.
fn highest(config: Config, board: u8) -> Script {
    let mut s = Script::new(config);
    s.on = board;
    write(&mut s, 0xab, [1, 2], "written 1 2");
    s.crash(&[1, 2]);
    s.restart(&[2]);
    read(&mut s, 1, [2, 3], "read 1 2 ab");
    s.restart(&[1]);
    s.crash(&[2]);
    write(&mut s, 0xcd, [1, 3], "written 2 2");
    s
}

/// D 2: clients 1 and 3 take (0, 0) and (1, 2) and read them when (2, 2) is written and servers 1 and 2 have been down.
fn elements() -> Script {
    let mut s = Script::new(Config { d: 2, c: 3, ..PROGRAM });
    s.read(1);
    s.answered(1, QUERY, &[1, 2]);
    write(&mut s, 0xab, [1, 2], "written 1 2");
    s.read(3);
    s.answered(3, QUERY, &[1, 2]);
    write(&mut s, 0xcd, [1, 2], "written 2 2");
    s.crash(&[1, 2]);
    s.restart(&[2, 1]);
    s.shows(1, "read 0 0 00");
    s.shows(3, "read 1 2 ab");
    read(&mut s, 2, [1, 3], "read 2 2 cd");
    s
}

/// A query to server 1 is gone and doesn't come back; its copy is answered.
fn gone() -> Script {
    let mut s = Script::new(PROGRAM);
    s.read(1);
    s.double(1, QUERY, 1);
    s.crash(&[1]);
    s.hand(1, QUERY, &[1]);
    s.in_flight(3);
    s.restart(&[1]);
    s.in_flight(3);
    s.answered(1, QUERY, &[1]);
    s.in_flight(2);
    s.answered(1, QUERY, &[2]);
    s.shows(1, "read 0 0 00");
    s
}

/// Server 1 has the element that the read has taken, for the pre-write that would have it dropped is gone.
fn pre_write_gone() -> Script {
    let mut s = Script::new(PROGRAM);
    s.read(1);
    s.answered(1, QUERY, &[1, 2]);
    s.asked(2, 0xab);
    s.crash(&[1]);
    s.hand(2, PRE_WRITE, &[1]);
    s.restart(&[1]);
    shows(&mut s, 1, [1, 3], "read 0 0 00");
    s
}

/// D 1: the only finalise handed over so far is gone, so the read finds no tag but (0, 0).
fn finalise_gone() -> Script {
    let mut s = Script::new(Config { d: 1, ..PROGRAM });
    s.asked(2, 0xab);
    s.answered(2, PRE_WRITE, &[2, 3]);
    s.crash(&[1]);
    s.hand(2, WRITE_FINALISE, &[1]);
    s.restart(&[1]);
    read(&mut s, 1, [1, 2], "read 0 0 00");
    s.answered(2, WRITE_FINALISE, &[2]);
    s.hand(2, WRITE_FINALISE, &[3]);
    s.due(2, WRITE_FINALISE + 1, 3, "written 1 2");
    read(&mut s, 1, [1, 2], "read 1 2 ab");
    s
}

/// What is in flight at the crash stays, to the server and from it.
fn in_flight() -> Script {
    let mut s = Script::new(PROGRAM);
    s.write(2, 0xab);
    s.hand(2, QUERY, &[1]);
    s.crash(&[1, 2]);
    s.in_flight(3);
    s.hand(2, QUERY + 1, &[1]);
    s.restart(&[1, 2]);
    s.in_flight(2);
    s.answered(2, QUERY, &[2]);
    s.crash(&[2]);
    s.hand(2, PRE_WRITE, &[1]);
    s.restart(&[2]);
    s.hand(2, PRE_WRITE, &[2]);
    s.crash(&[1]);
    s.restart(&[1]);
    s.written();
    read(&mut s, 1, [1, 3], "read 1 2 ab");
    s
}

/// Two of three servers are down, so that a write and a read wait; then one is up again, and they end.
fn stalled() -> Script {
    let mut s = Script::new(PROGRAM);
    write(&mut s, 0xab, [1, 2], "written 1 2");
    s.read(1);
    s.write(2, 0xcd);
    s.crash(&[1, 2]);
    s.answered(1, QUERY, &[3]);
    s.answered(2, QUERY, &[3]);
    s.restart(&[2]);
    s.answered(2, QUERY, &[2]);
    s.answered(1, QUERY, &[2]);
    shows(&mut s, 1, [2, 3], "read 1 2 ab");
    s.answered(2, PRE_WRITE, &[2, 3]);
    s.answered(2, WRITE_FINALISE, &[3]);
    s.hand(2, WRITE_FINALISE, &[2]);
    s.due(2, WRITE_FINALISE + 1, 2, "written 2 2");
    s
}

/// In each round two servers take a write, crash and are started again; one of them and the third show it.
fn in_turn() -> Script {
    let mut s = Script::new(PROGRAM);
    for (round, [one, two, third]) in (1..).zip([[1, 2, 3], [2, 3, 1], [3, 1, 2], [1, 3, 2], [2, 1, 3]]) {
        write(&mut s, round, [one, two], &format!("written {round} 2"));
        s.crash(&[one, two]);
        s.restart(&[two, one]);
        read(&mut s, 1, [third, one], &format!("read {round} 2 {round:02x}"));
    }
    s
}

/// Nobody answers; then a write and a read end by servers that have all been down.
fn all_down() -> Script {
    let mut s = Script::new(PROGRAM);
    write(&mut s, 0xab, [2, 3], "written 1 2");
    s.crash(&[3, 1, 2]);
    s.read(1);
    s.write(2, 0xcd);
    s.hand(1, QUERY, &[1]);
    s.hand(2, QUERY, &[3]);
    s.restart(&[1, 2, 3]);
    s.answered(1, QUERY, &[2, 3]);
    s.answered(2, QUERY, &[1, 2]);
    shows(&mut s, 1, [2, 3], "read 1 2 ab");
    s.answered(2, PRE_WRITE, &[1, 2]);
    s.answered(2, WRITE_FINALISE, &[1]);
    s.hand(2, WRITE_FINALISE, &[2]);
    s.due(2, WRITE_FINALISE + 1, 2, "written 2 2");
    s
}
