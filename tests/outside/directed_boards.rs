//! Directed lists about several boards, where N is 3, k 1, D 0 and E 1, so q is 2.

use crate::directed::making;
use crate::list::{head, ranked, ranks_head, shared};
use crate::model::{CLEARED, Config, Event, PRE_WRITE, QUERY, READ_FINALISE};
use crate::programs::PROGRAM;
use crate::script::{Directed, Script};

pub fn all() -> Vec<Directed> {
    let made = vec![
        figure().named("the figure of request L6"),
        not_there().named("boards that aren't there"),
        begins_full().named("13 by shares at a begin"),
        handed_over_full().named("13 by shares at handing over"),
        nothing_left().named("13 with nothing left"),
        own_excess().named("a board's own excess counts once"),
        full_shares().named("shares that add to M"),
        moved_up().named("messages keep their boards"),
        at_once().named("one client on two boards"),
        server_down().named("a server down on all boards"),
        client_down().named("a client down on all boards"),
        starts().named("a starting board each"),
        apart().named("a cleared element on one board"),
    ];
    [made, makings()].into_iter().flatten().collect()
}

/// With as many boards as there are shares.
fn of(m: usize, shares: &[usize]) -> Config {
    shared(Config { m, ..PROGRAM }, shares)
}

/// Code, party, position, board, and the line due.
fn named(s: &mut Script, [code, party, position, board]: [u8; 4], due: &str) {
    s.put(Event { code, party, position: position as usize, board, bytes: &[0], length: 0 }, due);
}

fn figure() -> Script {
    let mut s = Script::new(of(8, &[3, 3]));
    let events = [
        ([2, 1, 0, 1], "ok"),
        ([2, 2, 0, 1], "no 13"),
        ([2, 1, 0, 2], "ok"),
        ([2, 2, 0, 2], "no 13"),
        ([5, 0, 0, 1], "ok"),
        ([5, 0, 0, 2], "ok"),
        ([5, 0, 0, 1], "no 13"),
        ([4, 0, 4, 2], "no 8"),
        ([4, 0, 3, 2], "ok"),
        ([5, 0, 0, 1], "ok"),
        ([2, 1, 0, 3], "no 22"),
        ([11, 0, 0, 9], "no 7"),
        ([6, 4, 0, 9], "no 8"),
        ([6, 3, 0, 9], "ok"),
        ([1, 1, 0, 0], "no 22"),
    ];
    events.iter().for_each(|(event, due)| named(&mut s, *event, due));
    s
}

/// 22 comes before 19, 8, 9, 10 and 13, and isn't asked of events that name no board.
fn not_there() -> Script {
    let mut s = Script::new(of(6, &[0, 0]));
    let write = |s: &mut Script, party, board, length, due: &str| {
        s.put(Event { code: 1, party, position: 0, board, bytes: &[7], length }, due);
    };
    for board in [0, 3, 8, 9, 255] {
        write(&mut s, 1, board, 2, "no 22");
        write(&mut s, 9, board, 1, "no 22");
        (2..=5).for_each(|code| named(&mut s, [code, 9, 9, board], "no 22"));
        [0, 9, 255].iter().for_each(|code| named(&mut s, [*code, 9, 9, board], "no 7"));
        [6, 7, 8].iter().for_each(|code| named(&mut s, [*code, 9, 9, board], "no 8"));
    }
    write(&mut s, 1, 2, 2, "no 19");
    write(&mut s, 9, 2, 2, "no 19");
    write(&mut s, 9, 2, 1, "no 8");
    s.read(1);
    named(&mut s, [2, 1, 0, 0], "no 22");
    named(&mut s, [2, 1, 0, 1], "no 10");
    named(&mut s, [7, 2, 0, 0], "ok");
    named(&mut s, [7, 2, 0, 255], "no 9");
    named(&mut s, [6, 1, 0, 3], "ok");
    named(&mut s, [6, 1, 0, 2], "no 9");
    named(&mut s, [8, 2, 0, 3], "no 9");
    named(&mut s, [8, 1, 0, 255], "ok");
    named(&mut s, [2, 2, 0, 3], "no 22");
    named(&mut s, [2, 2, 0, 2], "no 9");
    s.on = 2;
    s.read(1);
    named(&mut s, [5, 0, 0, 3], "no 22");
    named(&mut s, [5, 0, 0, 2], "no 13");
    s
}

/// M 12, of which 6 are guaranteed to board 2. Board 1 has room for 6, and board 2 for 6 whatever the others have.
fn begins_full() -> Script {
    let mut s = Script::new(Config { c: 4, ..of(12, &[0, 6, 0]) });
    s.read(1);
    s.read(2);
    named(&mut s, [2, 3, 0, 1], "no 13");
    named(&mut s, [5, 0, 0, 1], "no 13");
    named(&mut s, [2, 1, 0, 3], "no 13");
    s.on = 2;
    s.read(3);
    s.read(4);
    named(&mut s, [2, 1, 0, 2], "no 13");
    named(&mut s, [5, 0, 5, 2], "no 13");
    named(&mut s, [4, 0, 0, 2], "ok");
    named(&mut s, [5, 0, 0, 1], "no 13");
    named(&mut s, [5, 0, 0, 2], "ok");
    named(&mut s, [4, 0, 5, 1], "ok");
    named(&mut s, [5, 0, 0, 2], "ok");
    named(&mut s, [5, 0, 0, 1], "no 13");
    s
}

/// M 9, and 3 are guaranteed to board 2. A quorum's last answer on board 1 sends 3 where 1 leaves: there is room once
/// board 1 has 4.
fn handed_over_full() -> Script {
    let mut s = Script::new(of(9, &[0, 3]));
    s.read(1);
    s.hand(1, QUERY, &[1, 2]);
    s.hand(1, QUERY + 1, &[1]);
    (0..3).for_each(|_| s.double(1, QUERY, 3));
    s.due(1, QUERY + 1, 2, "no 13");
    s.on = 2;
    s.read(1);
    s.hand(1, QUERY, &[1, 2, 3]);
    s.hand(1, QUERY + 1, &[1, 2]);
    s.on = 1;
    s.due(1, QUERY + 1, 2, "no 13");
    s.lose(1, QUERY, 3);
    s.due(1, QUERY + 1, 2, "no 13");
    s.on = 2;
    s.lose(1, QUERY + 1, 3);
    s.on = 1;
    s.hand(1, QUERY + 1, &[2]);
    s.event([5, 0, 0, 0], "no 13");
    s
}

/// M 4: board 1 has the 4 that are free, and board 2 has no share.
fn nothing_left() -> Script {
    let mut s = Script::new(of(4, &[0, 0]));
    s.read(1);
    s.double(1, QUERY, 1);
    named(&mut s, [2, 1, 0, 2], "no 13");
    s.lose(1, QUERY, 1);
    named(&mut s, [2, 1, 0, 2], "no 13");
    named(&mut s, [4, 0, 0, 2], "no 8");
    s
}

/// M 12 and shares of 1: board 1 may have 1 + 10.
fn own_excess() -> Script {
    let mut s = Script::new(of(12, &[1, 1]));
    s.read(1);
    s.read(2);
    (0..5).for_each(|_| s.double(1, QUERY, 1));
    s.event([5, 0, 0, 0], "no 13");
    named(&mut s, [2, 1, 0, 2], "no 13");
    (0..2).for_each(|_| s.lose(1, QUERY, 1));
    s.on = 2;
    s.read(1);
    s.event([5, 0, 0, 0], "no 13");
    s
}

/// Shares 3, 2 and 4 of M 9: board 2 can't begin, and nobody takes what others leave.
fn full_shares() -> Script {
    let mut s = Script::new(of(9, &[3, 2, 4]));
    s.read(1);
    s.event([2, 2, 0, 0], "no 13");
    s.event([5, 0, 0, 0], "no 13");
    s.on = 2;
    s.event([2, 1, 0, 0], "no 13");
    s.on = 3;
    s.read(1);
    s.event([5, 0, 0, 0], "ok");
    s.event([5, 0, 0, 0], "no 13");
    s
}

/// Messages of two boards in turn; some leave, and the others are where they were on their own board.
fn moved_up() -> Script {
    let mut s = Script::from(of(64, &[5, 5]), &[1, 2]);
    for client in [1, 2] {
        for board in [1, 2] {
            s.on = board;
            s.read(client);
        }
    }
    s.on = 1;
    s.lose(1, QUERY, 1);
    s.hand(2, QUERY, &[2]);
    for (board, count) in [(1, 5), (2, 6)] {
        s.on = board;
        s.in_flight(count);
    }
    s.lose(1, QUERY, 3);
    s.answered(2, QUERY, &[1, 2]);
    s.shows(2, "read 0 0 02");
    s.on = 1;
    s.answered(2, QUERY, &[1]);
    s.hand(2, QUERY + 1, &[2]);
    s.shows(2, "read 0 0 01");
    s.in_flight(4);
    s
}

/// Client 1 writes on board 1 and on board 2 at once, by turns, and reads on board 2 while it writes on board 1. Each
/// board has operation numbers of its own, and tags.
fn at_once() -> Script {
    let mut s = Script::new(of(64, &[0, 0]));
    let on = |s: &mut Script, board: u8| s.on = board;
    s.write(1, 0x11);
    s.hand(1, QUERY, &[1, 2]);
    on(&mut s, 2);
    s.asked(1, 0x21);
    on(&mut s, 1);
    s.hand(1, QUERY + 1, &[1, 2]);
    s.hand(1, PRE_WRITE, &[1, 2]);
    on(&mut s, 2);
    s.hand(1, PRE_WRITE, &[1, 2]);
    s.ends(1, "written 1 1");
    s.read(1);
    s.answered(1, QUERY, &[1, 2]);
    s.shows(1, "read 1 1 21");
    s.asked(1, 0x22);
    s.hand(1, PRE_WRITE, &[1, 2]);
    s.ends(1, "written 2 1");
    on(&mut s, 1);
    s.event([2, 1, 0, 0], "no 10");
    s.ends(1, "written 1 1");
    for (board, due) in [(1, "read 1 1 11"), (2, "read 2 1 22")] {
        on(&mut s, board);
        s.read(2);
        s.answered(2, QUERY, &[1, 2]);
        s.shows(2, due);
    }
    s
}

/// The crash names no board, and board 1 and 2 see it.
fn server_down() -> Script {
    let mut s = Script::from(of(64, &[0, 0]), &[1, 2]);
    for board in [1, 2] {
        s.on = board;
        s.read(1);
    }
    named(&mut s, [6, 1, 0, 2], "ok");
    for (board, due) in [(1, "read 0 0 01"), (2, "read 0 0 02")] {
        s.on = board;
        s.hand(1, QUERY, &[1]);
        s.in_flight(2);
        s.answered(1, QUERY, &[2, 3]);
        s.answered(1, READ_FINALISE, &[2]);
        s.hand(1, READ_FINALISE, &[3]);
        s.due(1, READ_FINALISE + 1, 3, due);
    }
    s
}

/// Client 1 has an operation on two of three boards.
fn client_down() -> Script {
    let mut s = Script::new(of(64, &[0, 0, 0]));
    for board in [1, 2] {
        s.on = board;
        s.read(1);
        s.hand(1, QUERY, &[1, 2]);
    }
    named(&mut s, [7, 1, 0, 1], "ok");
    for board in [1, 2] {
        s.on = board;
        s.event([2, 1, 0, 0], "no 9");
        s.hand(1, QUERY + 1, &[1, 2]);
        s.in_flight(1);
    }
    s.on = 3;
    s.event([1, 1, 0, 5], "no 9");
    s.read(2);
    s
}

/// Each of 8 boards shows its own.
fn starts() -> Script {
    let mut s = Script::from(of(512, &[0; 8]), &[1, 2, 3, 4, 5, 6, 7, 8]);
    for board in (1..=8).rev() {
        s.on = board;
        s.read(1);
        s.answered(1, QUERY, &[1, 2]);
        s.shows(1, &format!("read 0 0 {board:02x}"));
    }
    s
}

/// A write on board 1 clears the starting element there alone: a read on board 2 has it.
fn apart() -> Script {
    let mut s = Script::from(of(64, &[0, 0]), &[1, 2]);
    for board in [1, 2] {
        s.on = board;
        s.read(1);
        s.answered(1, QUERY, &[1, 2]);
    }
    s.on = 1;
    s.pre_written(&[1, 2]);
    s.on = 2;
    s.shows(1, "read 0 0 02");
    s.on = 1;
    s.hand(1, READ_FINALISE, &[1]);
    s.hand(1, CLEARED, &[1]);
    s.written();
    s.answered(1, QUERY, &[1, 2]);
    s.shows(1, "read 1 2 ab");
    s
}

/// 22, where it stands among the questions, and the number of boards or shares cut short. The rest of each input is
/// zeros, if it isn't cut.
fn makings() -> Vec<Directed> {
    let whole = |name, config: Config, due| making(name, config, &[head(&config), vec![0; 80]].concat(), due);
    let number = |boards| Config { boards, ..PROGRAM };
    let cut = |name, config: Config, more: &[u8], due| {
        making(name, config, &[&ranks_head(&config)[..], more].concat(), due)
    };
    vec![
        whole("no board", number(0), "no 22"),
        whole("9 boards", number(9), "no 22"),
        whole("255 boards", number(255), "no 22"),
        whole("a share above M", of(64, &[65]), "no 22"),
        whole("shares that add to M + 1", of(64, &[32, 33]), "no 22"),
        whole("eight shares that add to M + 1", of(64, &[8, 8, 8, 8, 8, 8, 8, 9]), "no 22"),
        whole("shares that add to 65,536", of(64, &[65535, 1]), "no 22"),
        whole("shares that add to 131,072 and 3", of(64, &[65535, 65535, 5]), "no 22"),
        whole("a share of 256", of(64, &[256]), "no 22"),
        whole("no board and rank 4", ranked(number(0), &[4, 0]), "no 21"),
        whole("shares above M and rank 4", ranked(of(64, &[65]), &[0, 4]), "no 21"),
        whole("no board and M 513", Config { m: 513, ..number(0) }, "no 5"),
        cut("no number of boards", PROGRAM, &[], "short"),
        cut("no board, and nothing after it", PROGRAM, &[0], "no 22"),
        cut("9 boards, and nothing after it", PROGRAM, &[9], "no 22"),
        cut("no shares", PROGRAM, &[1], "short"),
        cut("half a share", PROGRAM, &[1, 255], "short"),
        cut("a share too high and none after it", PROGRAM, &[2, 255, 255], "short"),
        cut("shares too high and no starting board", PROGRAM, &[2, 64, 0, 1, 0], "no 22"),
        cut("shares and no starting board", PROGRAM, &[1, 64, 0], "short"),
        cut("one starting board of two", PROGRAM, &[2, 0, 0, 0, 0, 7], "short"),
    ]
}
