//! Checks of the model and of the search themselves.

use crate::board_checks;
use crate::common::{Checks, tell};
use crate::directed;
use crate::history::{self, History, Operation, fits, history, rises, search, search_rising};
use crate::list::{List, head};
use crate::model::*;
use crate::programs;
use crate::random::Random;
use crate::rank_checks;
use crate::restart_checks;

/// All checks; the number that failed.
pub fn all() -> usize {
    let sections = [
        figures(),
        code(),
        server(),
        client(),
        rig(),
        lines(),
        cut_boards(),
        asked_lengths(),
        lowest_length(),
        lines_of_lengths(),
        directed(),
        cleared_record(),
        cleared_awaited(),
        asked_again(),
        spent(),
        spent_read(),
        histories(),
        histories_of_reads(),
        histories_of_lengths(),
        orders(),
        orders_of_lengths(),
        small_histories(),
        rank_checks::all(),
        board_checks::all(),
        restart_checks::all(),
    ];
    tell("model and search", &sections.concat())
}

/// With ranks 0 and one board, whose share is 0.
pub fn config(n: usize, k: usize, d: usize, e: usize, c: usize, m: usize) -> Config {
    Config { n, k, d, e, c, m, ..programs::PROGRAM }
}

pub fn tag(number: u32, client: u8) -> Tag {
    Tag { number, client }
}

fn figures() -> Checks {
    let q = |n, k| config(n, k, 0, 1, 1, 1).q();
    let quorums = [q(5, 3), q(5, 5), q(6, 3), q(16, 1)];
    let of = |config: &Config, board: &[u8]| -> Vec<u8> {
        (1..=config.n as u8).map(|s| encode(config, board, s)[0]).collect()
    };
    let five = config(5, 3, 0, 1, 1, 1);
    let elements = of(&five, &[10, 20, 30]);
    let given = [2, 4, 5].map(|s| (s, encode(&five, &[10, 20, 30], s)));
    let mut powers = vec![1u8];
    while powers.len() < 510 {
        let last = *powers.last().unwrap();
        powers.push(product(last, 2));
    }
    let exponent = |a: u8| powers.iter().position(|p| *p == a).unwrap();
    let by_powers = |a: u8, b: u8| if a == 0 || b == 0 { 0 } else { powers[exponent(a) + exponent(b)] };
    vec![
        ("quorums", quorums == [4, 5, 5, 9]),
        ("products", product(2, 128) == 29 && product(3, 7) == 9),
        (
            "all products, by powers of 2",
            (0..=65535).all(|x: u16| {
                let [a, b] = x.to_le_bytes();
                product(a, b) == by_powers(a, b)
            }),
        ),
        ("elements of 10 20 30", elements == [0, 90, 80, 167, 173]),
        ("servers 2, 4, 5", decode(&five, &given) == [10, 20, 30]),
        ("elements of 1 2", of(&config(3, 2, 0, 1, 1, 1), &[1, 2]) == [3, 5, 7]),
        ("tags", {
            let of_nine = config(3, 1, 0, 1, 9, 1);
            let above = |a, b| of_nine.key(a) > of_nine.key(b);
            above(tag(2, 1), tag(1, 9)) && above(tag(2, 3), tag(2, 1))
        }),
        ("questions 1 to 5", {
            let asked = |n, k, d, e, c, m| config(n, k, d, e, c, m).ask();
            asked(0, 0, 8, 0, 0, 0) == Err(1)
                && asked(17, 1, 0, 1, 1, 1) == Err(1)
                && asked(3, 4, 8, 0, 0, 0) == Err(2)
                && asked(3, 3, 8, 0, 0, 0) == Err(3)
                && asked(3, 3, 7, 65, 0, 0) == Err(4)
                && asked(3, 3, 7, 64, 17, 1) == Err(5)
                && asked(3, 3, 7, 64, 16, 513) == Err(5)
                && asked(16, 16, 7, 64, 16, 512) == Ok(())
        }),
    ]
}

/// Any k servers give the board back.
fn code() -> Checks {
    let random = &mut Random::new(1, 1);
    let mut back = true;
    for _ in 0..2000 {
        let n = random.within(1, 16);
        let config = config(n, random.within(1, n), 0, random.within(1, 64), 1, 1);
        let board: Vec<u8> = (0..config.v()).map(|_| random.byte()).collect();
        let mut servers: Vec<u8> = (1..=n as u8).collect();
        while servers.len() > config.k {
            servers.remove(random.below(servers.len()));
        }
        let parts: Vec<_> = servers.iter().map(|s| (*s, encode(&config, &board, *s))).collect();
        back &= decode(&config, &parts) == board;
    }
    vec![("any k servers give the board back", back)]
}

fn server() -> Checks {
    let config = config(3, 1, 0, 1, 9, 1);
    let record =
        |kind, tag: Tag, piece| Record { kind, client: tag.client, server: 1, operation: 1, tag, piece };
    let of = |byte| Piece { length: 1, element: [byte; 64] };
    let mut server = Server::fresh(of(0));
    let mut pre_write = |t: Tag| {
        let answer = server.step(&config, &record(3, t, Some(of(7))));
        assert_eq!((answer.kind, answer.tag, answer.piece), (4, t, None));
        (server.clone(), server.floor, server.stored[0].0)
    };
    let (_, first, _) = pre_write(tag(1, 1));
    let (_, second, _) = pre_write(tag(2, 1));
    let (mut server, third, kept) = pre_write(tag(1, 2));
    let cleared = server.step(&config, &record(7, tag(1, 1), None));
    let moved = server.highest == tag(1, 1);
    let without = server.step(&config, &record(7, tag(3, 1), None));
    let query = server.step(&config, &Record { kind: 1, tag: START, ..without });
    let mut fresh = Server::fresh(of(0));
    let no_floor = fresh.step(&config, &record(7, tag(3, 1), None));
    vec![
        ("floors", [first, second, third] == [Some(START), Some(tag(1, 1)), Some(tag(1, 2))]),
        ("(1, 2) isn't stored", kept == tag(2, 1)),
        ("kind 9, and H has moved", cleared.kind == CLEARED && moved),
        ("answered without an element", without.kind == 8 && without.piece.is_none()),
        ("so without a floor", no_floor.kind == 8 && no_floor.piece.is_none() && fresh.highest == tag(3, 1)),
        ("a query is answered with H", query.kind == 2 && query.tag == tag(3, 1)),
    ]
}

/// An event of board 1 other than a begin of a write.
fn event(rig: &mut Rig, code: u8, party: u8, position: usize) -> Result<Answer, u8> {
    rig.event(Event { code, party, position, board: 1, bytes: &[], length: 0 })
}

/// A begin of a write of all V bytes.
fn begin_write(rig: &mut Rig, party: u8, bytes: &[u8]) -> Result<Answer, u8> {
    begin_cut(rig, party, bytes, bytes.len())
}

/// A begin of a write of this length.
fn begin_cut(rig: &mut Rig, party: u8, bytes: &[u8], length: usize) -> Result<Answer, u8> {
    rig.event(Event { code: 1, party, position: 0, board: 1, bytes, length })
}

/// Hands over until an answer ends something.
fn until_ended(rig: &mut Rig) -> Answer {
    loop {
        match event(rig, 3, 0, 0).expect("in flight") {
            Answer::Nothing => {}
            ended => return ended,
        }
    }
}

fn client() -> Checks {
    let fresh = || Rig::make(programs::PROGRAM, &[0]).unwrap();
    let mut spent = fresh();
    spent.parties[0].servers.iter_mut().for_each(|s| s.highest = tag(u32::MAX, 2));
    begin_write(&mut spent, 1, &[5]).unwrap();
    let was_spent =
        until_ended(&mut spent) == Answer::Spent(1) && spent.parties[0].clients[0].phase == Phase::Idle;
    let mut last = fresh();
    last.parties[0].servers.iter_mut().for_each(|s| s.highest = tag(u32::MAX - 1, 2));
    begin_write(&mut last, 1, &[5]).unwrap();
    let mut out_of_numbers = fresh();
    out_of_numbers.parties[0].clients[0].operation = u32::MAX;
    let mut written = fresh();
    begin_write(&mut written, 2, &[9]).unwrap();
    let answer = until_ended(&mut written);
    event(&mut written, 2, 1, 0).unwrap();
    vec![
        ("spent at number 4,294,967,295", was_spent),
        ("the number before is the last", until_ended(&mut last) == Answer::Written(1, tag(u32::MAX, 1))),
        ("11", event(&mut out_of_numbers, 2, 1, 0) == Err(11)),
        ("written", answer == Answer::Written(2, tag(1, 2))),
        (
            "and read",
            until_ended(&mut written) == Answer::Read(1, tag(1, 2), Board { length: 1, bytes: vec![9] }),
        ),
    ]
}

fn rig() -> Checks {
    const OK: Result<Answer, u8> = Ok(Answer::Nothing);
    let make = |m| Rig::make(config(3, 1, 0, 1, 2, m), &[0]).unwrap();
    let mut none = make(2);
    let mut full = make(4);
    let begun = [event(&mut full, 2, 1, 0), event(&mut full, 2, 1, 0), event(&mut full, 2, 2, 0)];
    let doubled = [event(&mut full, 5, 0, 0), event(&mut full, 5, 0, 3), event(&mut full, 5, 0, 4)];
    let order: Vec<_> = full.of(1).map(|r| (r.kind, r.server)).collect();
    let to_servers = [event(&mut full, 3, 0, 0), event(&mut full, 3, 0, 0)];
    // In flight: query 3, the copy of query 1, the answers of 1 and 2. The second one makes a quorum.
    let counted = event(&mut full, 3, 0, 2);
    let before = format!("{full:?}");
    let refused = event(&mut full, 3, 0, 2);
    let after = format!("{full:?}");
    let lost = event(&mut full, 4, 0, 0);
    let accepted = event(&mut full, 3, 0, 1);
    let kinds: Vec<_> = full.of(1).map(|r| (r.kind, r.server)).collect();
    let mut crashed = make(64);
    event(&mut crashed, 2, 1, 0).unwrap();
    let servers = [event(&mut crashed, 6, 3, 0), event(&mut crashed, 6, 3, 0), event(&mut crashed, 6, 4, 0)];
    let gone = event(&mut crashed, 3, 0, 2);
    let left = crashed.flight.len();
    let answered = event(&mut crashed, 3, 0, 0);
    let clients =
        [event(&mut crashed, 7, 1, 0), event(&mut crashed, 7, 1, 0), begin_write(&mut crashed, 1, &[1])];
    let gone_too = event(&mut crashed, 3, 0, 1);
    vec![
        ("13 at a begin", begin_write(&mut none, 1, &[1]) == Err(13)),
        ("10, then 13", begun == [OK, Err(10), Err(13)]),
        ("8 before 13 at doubling", doubled == [OK, Err(13), Err(8)]),
        ("a copy goes to the end", order == [(1, 1), (1, 2), (1, 3), (1, 1)]),
        ("handing over", to_servers == [OK, OK] && counted == OK),
        ("13 at handing over, with everything as it was", refused == Err(13) && before == after),
        ("the message leaves first", lost == OK && accepted == OK),
        ("what it causes is added at the end", kinds == [(1, 1), (7, 1), (7, 2), (7, 3)]),
        ("crashed servers", servers == [OK, Err(9), Err(8)]),
        ("handed to a crashed server", gone == OK && left == 2),
        ("crashed clients", answered == OK && clients == [OK, Err(9), Err(9)]),
        ("handed to a crashed client", gone_too == OK && crashed.flight.len() == 1),
        ("7", [0, 9, 255].iter().all(|code| event(&mut crashed, *code, 0, 0) == Err(7))),
    ]
}

/// What the model prints as `board`.
fn board(input: &[u8]) -> String {
    let mut out = vec![];
    programs::board(&mut &input[..], &mut out).unwrap();
    String::from_utf8(out).unwrap()
}

/// What it prints as `simulate`.
fn simulate(input: &[u8]) -> String {
    let mut out = vec![];
    programs::simulate(&mut &input[..], &mut out).unwrap();
    String::from_utf8(out).unwrap()
}

fn lines() -> Checks {
    let events = [
        (2, 1, 0),
        (3, 0, 0),
        (3, 0, 0),
        (3, 0, 1),
        (3, 0, 1),
        (3, 0, 1),
        (3, 0, 1),
        (3, 0, 2),
        (3, 0, 2),
        (1, 3, 0),
    ];
    let example = events.map(|(code, party, at)| [code, party, at, 0, 0, 0, 0]).concat();
    let printed = "1 ok\n2 ok\n3 ok\n4 ok\n5 ok\n6 ok\n7 ok\n8 ok\n9 read 0 0 00\n10 no 8\n";
    let head = [3, 1, 0, 1, 2, 64, 0, 0, 0, 1, 0, 0, 0];
    let numbered = events.map(|(code, party, at)| [code, party, at, 0, 1, 0, 0, 0]).concat();
    vec![
        ("the document's example", board(&example) == printed),
        ("the same by simulate", simulate(&[&head[..], &numbered].concat()) == printed),
        ("nothing in, nothing out", board(&[]).is_empty()),
        ("short", board(&[9, 0, 0, 0, 0, 0, 0, 3, 0]) == "1 no 7\n2 short\n"),
        ("short of its length", board(&[9, 0, 0, 0, 0, 0]) == "1 short\n"),
        ("header cut short", simulate(&head[..6]) == "0 short\n" && simulate(&[]) == "0 short\n"),
        ("head cut short", (7..13).all(|length| simulate(&head[..length]) == "0 short\n")),
        ("refused making", simulate(&[17, 1, 0, 1, 2, 64, 0]) == "0 no 1\n"),
        (
            "M is little-endian",
            simulate(&[3, 1, 0, 1, 2, 1, 2]) == "0 no 5\n"
                && simulate(&[3, 1, 0, 1, 2, 0, 2, 0, 0, 1, 0, 0, 0]).is_empty(),
        ),
    ]
}

/// A message record's 80 bytes.
fn laid_out(r: &Record) -> Vec<u8> {
    let piece = r.piece.unwrap_or(Piece { length: 0, element: [0; 64] });
    let head = [r.kind, r.client, r.server, r.piece.is_some() as u8];
    let (operation, number) = (r.operation.to_le_bytes(), r.tag.number.to_le_bytes());
    let (client, length) = ([r.tag.client], piece.length.to_le_bytes());
    [&head[..], &operation, &number, &client, &length, &[0], &piece.element].concat()
}

/// N 5, k 3, E 1: board 10 20 30 with length 2.
fn cut_boards() -> Checks {
    let config = config(5, 3, 1, 1, 2, 64);
    let mut rig = Rig::make(config, &[1, 2, 3]).unwrap();
    begin_cut(&mut rig, 2, &[10, 20, 30], 2).unwrap();
    while rig.parties[0].clients[1].phase == Phase::Asking {
        event(&mut rig, 3, 0, 0).unwrap();
    }
    let sent: Vec<Record> = rig.of(1).filter(|r| r.kind == PRE_WRITE).copied().collect();
    let elements: Vec<u8> = sent.iter().map(|r| r.piece.unwrap().element[0]).collect();
    let with_length = |length| {
        let piece = sent[3].piece.map(|piece| Piece { length, ..piece });
        Record { piece, ..sent[3] }.well_formed(&config)
    };
    let written = until_ended(&mut rig);
    rig.flight.clear();
    event(&mut rig, 2, 1, 0).unwrap();
    let shown = Board { length: 2, bytes: vec![10, 20, 0] };
    vec![
        ("elements of 10 20 30 with length 2", elements == [30, 34, 54, 90, 78]),
        ("the pre-write to server 4", {
            let begins = [3, 2, 4, 1, 1, 0, 0, 0, 1, 0, 0, 0, 2, 2, 0, 0, 0x5a];
            let bytes = laid_out(&sent[3]);
            bytes.len() == 80 && bytes[..17] == begins && bytes[17..].iter().all(|b| *b == 0)
        }),
        ("a record's length is at most V", with_length(3) && !with_length(4)),
        ("a board cut is written", written == Answer::Written(2, tag(1, 2))),
        ("and read, with zeros after", until_ended(&mut rig) == Answer::Read(1, tag(1, 2), shown)),
    ]
}

/// 19 comes before 8, 9, 10 and 13, and is asked of event 1 only.
fn asked_lengths() -> Checks {
    let begin = |rig: &mut Rig, party, length| begin_cut(rig, party, &[7; 3], length);
    let long = |rig: &mut Rig, code| {
        rig.event(Event { code, party: 1, position: 0, board: 1, bytes: &[7; 3], length: 65535 })
    };
    let mut rig = Rig::make(config(3, 3, 0, 1, 3, 8), &[0; 3]).unwrap();
    let accepted = [begin(&mut rig, 1, 3), begin(&mut rig, 2, 0)];
    let full = [begin(&mut rig, 3, 3), begin(&mut rig, 3, 4)];
    let busy = [begin(&mut rig, 1, 3), begin(&mut rig, 1, 4)];
    let crashed = long(&mut rig, 7);
    let down = [begin(&mut rig, 1, 3), begin(&mut rig, 1, 4)];
    let unknown = [begin(&mut rig, 4, 3), begin(&mut rig, 4, 4), begin(&mut rig, 0, 65535)];
    let other = [4, 5, 3, 4, 6, 8].map(|code| long(&mut rig, code));
    vec![
        ("lengths 0 and V", accepted.iter().all(|answer| *answer == Ok(Answer::Nothing))),
        ("19 before 13", full == [Err(13), Err(19)]),
        ("19 before 10", busy == [Err(10), Err(19)]),
        ("19 before 9", crashed.is_ok() && down == [Err(9), Err(19)]),
        ("19 before 8", unknown == [Err(8), Err(19), Err(19)]),
        ("a length that isn't a write's", other.iter().all(|answer| *answer == Ok(Answer::Nothing))),
        ("7, whatever the length", [0, 9, 255].iter().all(|code| long(&mut rig, *code) == Err(7))),
    ]
}

/// Servers that hold other lengths, which no list brings about: answers of 4, 2, 5 and 3, in this order.
fn lowest_length() -> Checks {
    let mut rig = Rig::make(config(5, 3, 0, 1, 1, 64), &[10, 20, 30]).unwrap();
    for (server, length) in rig.parties[0].servers.iter_mut().zip([3, 1, 2, 3, 0]) {
        server.stored[0].1.length = length;
    }
    event(&mut rig, 2, 1, 0).unwrap();
    while rig.parties[0].clients[0].phase == Phase::Asking {
        event(&mut rig, 3, 0, 0).unwrap();
    }
    rig.flight.retain(|message| message.record.kind == READ_FINALISE);
    [3, 1, 2, 1].iter().for_each(|position| _ = event(&mut rig, 3, 0, *position).unwrap());
    rig.flight.remove(0);
    let shown = Board { length: 1, bytes: vec![10, 0, 0] };
    vec![("the length of the lowest server", until_ended(&mut rig) == Answer::Read(1, START, shown))]
}

/// A record of `board`.
pub fn record(code: u8, party: u8, byte: u8, length: u16) -> Vec<u8> {
    let [low, high] = length.to_le_bytes();
    vec![code, party, 0, 0, byte, low, high]
}

fn lines_of_lengths() -> Checks {
    let handed_over = |times| record(3, 0, 0, 0).repeat(times);
    let four = [record(1, 1, 7, 2), record(1, 9, 7, 2), record(255, 1, 7, 2), record(2, 1, 7, 65535)];
    let empty = [record(1, 1, 7, 0), handed_over(18), record(2, 2, 0, 0), handed_over(12)];
    let of_empty = (1..=32).map(|count| match count {
        18 => "18 written 1 1\n".to_string(),
        31 => "31 read 1 1\n".to_string(),
        _ => format!("{count} ok\n"),
    });
    let large = head(&config(16, 16, 0, 64, 1, 64));
    vec![
        ("four records", board(&four.concat()) == "1 no 19\n2 no 19\n3 no 7\n4 ok\n"),
        ("a read of length 0 prints only its tag", board(&empty.concat()) == of_empty.collect::<String>()),
        ("lengths are little-endian", {
            let event =
                |code, length: u16| [&[code, 1, 0, 0, 1][..], &[0xab; 1024], &length.to_le_bytes()].concat();
            let events =
                [event(1, 1025), event(1, 1000), event(3, 0).repeat(96), event(2, 0), event(3, 0).repeat(64)];
            let lines = simulate(&[large, vec![0; 1024], events.concat()].concat());
            lines.starts_with("1 no 19\n2 ok\n")
                && lines.contains(&format!(" read 1 1 {}\n", "ab".repeat(1000)))
        }),
    ]
}

/// Lists made for one point each, against the lines due.
fn directed() -> Checks {
    directed::all().into_iter().map(|made| (made.name, made.list.lines() == made.due)).collect()
}

/// The answer to a read finalise of (1, 2) by client 1, operation 259, where that tag is the floor.
fn cleared_record() -> Checks {
    let config = config(5, 3, 0, 1, 2, 64);
    let piece = Piece { length: 3, element: [0; 64] };
    let mut server = Server::fresh(piece);
    let sent = Record { kind: 7, client: 1, server: 4, operation: 259, tag: tag(1, 2), piece: None };
    for t in [tag(1, 2), tag(2, 2)] {
        server.step(&config, &Record { kind: 3, client: 2, tag: t, piece: Some(piece), ..sent });
    }
    let cleared = server.step(&config, &sent);
    let well_formed = |r: Record| r.well_formed(&config);
    vec![
        ("kind 9 names its server and repeats the rest", {
            let begins = [9, 1, 4, 0, 3, 1, 0, 0, 1, 0, 0, 0, 2];
            let bytes = laid_out(&cleared);
            bytes.len() == 80 && bytes[..13] == begins && bytes[13..].iter().all(|b| *b == 0)
        }),
        ("kind 9 is a client's", !cleared.for_server()),
        (
            "kind 9 has any tag",
            well_formed(cleared)
                && well_formed(Record { tag: tag(1, 1), ..cleared })
                && well_formed(Record { tag: START, ..cleared })
                && !well_formed(Record { tag: tag(1, 3), ..cleared })
                && !well_formed(Record { tag: tag(1, 0), ..cleared }),
        ),
        ("kind 9 has no element", !well_formed(Record { piece: Some(piece), ..cleared })),
        ("there is no kind 10", !well_formed(Record { kind: 10, ..cleared })),
    ]
}

/// A reader of (1, 2), operation 5, that has counted server 1.
fn cleared_awaited() -> Checks {
    let mut client = Client::fresh(1);
    (client.phase, client.operation, client.tag) = (Phase::FinalisingRead, 5, tag(1, 2));
    client.counted.push(1);
    let r = Record { kind: CLEARED, client: 1, server: 2, operation: 5, tag: tag(1, 2), piece: None };
    let other = |r| !client.awaits(&r);
    let phases = [Phase::Idle, Phase::Asking, Phase::PreWriting, Phase::FinalisingWrite, Phase::Down];
    vec![
        ("kind 9 awaited", client.awaits(&r)),
        ("kind 9 of a server counted", other(Record { server: 1, ..r })),
        ("kind 9 of another tag", other(Record { tag: tag(1, 1), ..r }) && other(Record { tag: START, ..r })),
        (
            "kind 9 of another operation",
            other(Record { operation: 4, ..r }) && other(Record { operation: 6, ..r }),
        ),
        (
            "kind 9 in another phase",
            phases.iter().all(|phase| !Client { phase: *phase, ..client.clone() }.awaits(&r)),
        ),
    ]
}

/// A read by client 1, whose operation number was this before, with so many in flight. The last of them is kind 9 of
/// server 1; server 2 has sent its element and is counted.
fn told(operation: u32, in_flight: usize) -> Rig {
    let mut rig = Rig::make(programs::PROGRAM, &[0]).unwrap();
    rig.parties[0].clients[0].operation = operation;
    event(&mut rig, 2, 1, 0).unwrap();
    // Query 3 and three read finalises are left in flight, then without that of server 2.
    [0, 0, 1, 1, 2, 3].iter().for_each(|position| _ = event(&mut rig, 3, 0, *position).unwrap());
    let piece = Some(Piece { length: 1, element: [0; 64] });
    let (client, server, operation) = (2, 1, 1);
    let pre_write = Record { kind: PRE_WRITE, client, server, operation, tag: tag(1, 2), piece };
    rig.parties[0].servers[0].step(&programs::PROGRAM, &pre_write);
    (4..=in_flight).for_each(|_| _ = event(&mut rig, 5, 0, 0).unwrap());
    event(&mut rig, 3, 0, 1).unwrap();
    rig
}

fn all_of(rig: &Rig) -> String {
    format!("{rig:?}")
}

/// A read that has k elements asks again, if there is room for it: at most 64 are in flight.
fn asked_again() -> Checks {
    let mut rig = told(0, 62);
    let reader = &rig.on(1).clients[0];
    let due = reader.awaits(&rig.flight[61].record) && reader.pieces.len() == 1;
    let answer = event(&mut rig, 3, 0, 61);
    let Client { phase, operation, board, tag, counted, pieces, .. } = &rig.parties[0].clients[0];
    let anew = *phase == Phase::Asking && *operation == 2 && board.is_none() && *tag == START;
    let sent: Vec<_> = rig.of(1).skip(61).map(|r| (r.kind, r.client, r.server, r.operation)).collect();
    let refused = [63, 64].map(|in_flight| {
        let mut rig = told(0, in_flight);
        let before = all_of(&rig);
        event(&mut rig, 3, 0, in_flight - 1) == Err(13) && all_of(&rig) == before
    });
    vec![
        ("asking again", due && answer == Ok(Answer::Nothing) && anew),
        ("nobody is counted and no element kept", counted.is_empty() && pieces.is_empty()),
        ("queries under the next number", sent == [(1, 1, 1, 2), (1, 1, 2, 2), (1, 1, 3, 2)]),
        ("13 for kind 9, with everything as it was", refused == [true, true]),
    ]
}

/// At operation number 4,294,967,295 there is no next one.
fn spent_read() -> Checks {
    let mut last = told(u32::MAX - 2, 4);
    let accepted = event(&mut last, 3, 0, 3);
    let mut full = told(u32::MAX - 1, 64);
    let ended = event(&mut full, 3, 0, 63);
    vec![
        (
            "the last number asks again",
            accepted == Ok(Answer::Nothing)
                && last.parties[0].clients[0].operation == u32::MAX
                && last.parties[0].clients[0].phase == Phase::Asking
                && last.flight.len() == 6,
        ),
        (
            "a read ends spent",
            ended == Ok(Answer::Spent(1)) && full.parties[0].clients[0].phase == Phase::Idle,
        ),
        ("and sends nothing, so there is no 13", full.flight.len() == 63),
        ("and is the client's last", event(&mut full, 2, 1, 0) == Err(11)),
    ]
}

/// A write that ends spent, by the model's own lines: the servers have finalised the last number.
fn spent() -> Checks {
    let mut rig = Rig::make(programs::PROGRAM, &[0]).unwrap();
    rig.parties[0].servers.iter_mut().for_each(|s| s.highest = tag(u32::MAX, 2));
    let handed_over = [0, 0, 1, 1].map(|position| [3, 0, position, 0, 0, 0, 0]).concat();
    let input = [vec![1, 1, 0, 0, 5, 1, 0], handed_over].concat();
    let mut out = vec![];
    programs::events(rig, false, &mut &input[..], &mut out).unwrap();
    vec![("a spent line", out == b"1 ok\n2 ok\n3 ok\n4 ok\n5 spent\n")]
}

/// Of the program's events (code, party, board byte, length), the client that each answer names, and the lines: how
/// many operations the history has, and whether there is an order that fits. Nothing if it is no history.
fn taken(events: &[(u8, u8, u8, u16)], named: &[u8], lines: &str) -> Option<(usize, bool)> {
    let records = events.iter().flat_map(|(code, party, byte, length)| record(*code, *party, *byte, *length));
    let (input, named) = (records.collect(), named.to_vec());
    let list = List { general: false, input, config: programs::PROGRAM, start: vec![0], named };
    let history = history(&list, lines, 1).ok()?;
    let order = search(&history).is_some_and(|order| fits(&history, &order));
    Some((history.operations.len(), order))
}

const WRITE: (u8, u8, u8, u16) = (1, 1, 5, 1);
const READ: (u8, u8, u8, u16) = (2, 2, 0, 0);
const OTHER: (u8, u8, u8, u16) = (3, 0, 0, 0);

fn histories() -> Checks {
    let write_then_read = |named: &[u8], lines| taken(&[WRITE, OTHER, READ, OTHER], named, lines);
    let spent_then_read = |lines| write_then_read(&[0, 1, 0, 2], lines);
    vec![
        ("spent: left out", spent_then_read("1 ok\n2 spent\n3 ok\n4 read 0 0 00") == Some((1, true))),
        (
            "spent: its bytes are shown",
            spent_then_read("1 ok\n2 spent\n3 ok\n4 read 1 1 05") == Some((1, false)),
        ),
        (
            "unended: its bytes are shown",
            write_then_read(&[0, 0, 0, 2], "1 ok\n2 ok\n3 ok\n4 read 1 1 05") == Some((2, true)),
        ),
        (
            "refused: its bytes are shown",
            write_then_read(&[0, 0, 0, 2], "1 no 13\n2 ok\n3 ok\n4 read 1 1 05") == Some((1, false)),
        ),
        (
            "the client writes again after spent",
            taken(
                &[WRITE, OTHER, (1, 1, 6, 1), OTHER, READ, OTHER],
                &[0, 1, 0, 1, 0, 2],
                "1 ok\n2 spent\n3 ok\n4 written 1 1\n5 ok\n6 read 1 1 06",
            ) == Some((2, true)),
        ),
        ("spent with nothing open", taken(&[OTHER], &[1], "1 spent").is_none()),
        ("spent twice", taken(&[WRITE, OTHER, OTHER], &[0, 1, 1], "1 ok\n2 spent\n3 spent").is_none()),
    ]
}

/// Reads that end spent, and one that the fourth event makes ask again.
fn histories_of_reads() -> Checks {
    vec![
        ("a spent read is left out", taken(&[READ, OTHER], &[0, 2], "1 ok\n2 spent") == Some((0, true))),
        (
            "the client reads again after spent",
            taken(&[READ, OTHER, READ, OTHER], &[0, 2, 0, 2], "1 ok\n2 spent\n3 ok\n4 read 0 0 00")
                == Some((1, true)),
        ),
        ("written ends no read", taken(&[READ, OTHER], &[0, 2], "1 ok\n2 written 1 2").is_none()),
        ("read ends no write", taken(&[WRITE, OTHER], &[0, 1], "1 ok\n2 read 0 0 00").is_none()),
        (
            "a read that asks again has begun once",
            taken(
                &[READ, WRITE, OTHER, OTHER, OTHER],
                &[0, 0, 1, 0, 2],
                "1 ok\n2 ok\n3 written 1 1\n4 ok\n5 read 0 0 00",
            ) == Some((2, true)),
        ),
    ]
}

/// A write of a byte and a length that ended, then a read with these digits.
fn histories_of_lengths() -> Checks {
    let order = |byte, length, read: &str| {
        let lines = format!("1 ok\n2 written 1 1\n3 ok\n4 read 1 1{read}\n");
        taken(&[(1, 1, byte, length), OTHER, READ, OTHER], &[0, 1, 0, 2], &lines)
    };
    let (fits, none) = (Some((2, true)), Some((2, false)));
    vec![
        ("length 0: nothing is shown", order(5, 0, "") == fits && order(0, 0, "") == fits),
        ("length 0: the byte handed in is shown", order(5, 0, " 05") == none),
        ("length 0: byte 0 is shown", order(5, 0, " 00") == none && order(0, 0, " 00") == none),
        ("length 1: byte 0 is shown", order(0, 1, " 00") == fits && order(5, 1, " 00") == none),
        ("length 1: nothing is shown", order(0, 1, "") == none && order(5, 1, "") == none),
    ]
}

/// An operation on boards of one byte.
pub fn write(byte: u8, begin: usize, end: usize) -> Operation {
    let (board, end) = (history::board(1, &[byte], 1), (end > 0).then_some(end));
    Operation { write: true, board, begin, end, tag: None }
}

pub fn read(byte: u8, begin: usize, end: usize) -> Operation {
    Operation { write: false, ..write(byte, begin, end) }
}

/// The same with length 0.
fn empty(operation: Operation) -> Operation {
    Operation { board: history::board(0, &[], 1), ..operation }
}

pub fn from_zero(operations: &[Operation]) -> History {
    History { start: history::board(1, &[0], 1), operations: operations.to_vec() }
}

/// An order is found and is one by the document's words.
pub fn found(operations: &[Operation]) -> bool {
    let history = from_zero(operations);
    search(&history).is_some_and(|order| fits(&history, &order))
}

/// The same, and its ended writes rise.
pub fn found_rising(operations: &[Operation]) -> bool {
    let history = from_zero(operations);
    search_rising(&history).is_some_and(|order| fits(&history, &order) && rises(&history, &order))
}

/// Hand-made histories from starting board 0; an end of 0 means unended.
fn orders() -> Checks {
    vec![
        ("empty", found(&[])),
        ("write, then read", found(&[write(1, 0, 1), read(1, 2, 3)])),
        ("stale read", !found(&[write(1, 0, 1), write(2, 2, 3), read(1, 4, 5)])),
        ("always the starting board", !found(&[read(0, 0, 1), write(1, 2, 3), read(0, 4, 5)])),
        (
            "works once, then repeats itself",
            !found(&[write(1, 0, 1), read(1, 2, 3), write(2, 4, 5), read(1, 6, 7)]),
        ),
        ("new, then old, under a write", !found(&[write(1, 0, 9), read(1, 1, 2), read(0, 3, 4)])),
        ("old, then new, under a write", found(&[write(1, 0, 9), read(0, 1, 2), read(1, 3, 4)])),
        ("new, then old, at once", found(&[write(1, 0, 9), read(1, 1, 3), read(0, 2, 4)])),
        ("new, then old, under an unended write", !found(&[write(1, 0, 0), read(1, 1, 2), read(0, 3, 4)])),
        ("unended write shown", found(&[write(1, 0, 0), read(0, 1, 2), read(1, 3, 4)])),
        ("unended write never shown", found(&[write(1, 0, 0), read(0, 1, 2), read(0, 3, 4)])),
        (
            "unended write shown once only",
            !found(&[write(1, 0, 0), write(2, 1, 2), read(1, 3, 4), write(2, 5, 6), read(1, 7, 8)]),
        ),
        ("bytes nobody wrote", !found(&[write(1, 0, 1), read(2, 2, 3)])),
        ("shown before its write began", !found(&[read(1, 0, 1), write(1, 2, 3)])),
        (
            "two readers, opposite orders",
            !found(&[write(1, 0, 20), write(2, 1, 21), read(1, 2, 3), read(2, 4, 5), read(1, 6, 7)]),
        ),
        (
            "two writes, either order",
            found(&[write(1, 0, 9), write(2, 1, 8), read(1, 10, 11)])
                && found(&[write(1, 0, 9), write(2, 1, 8), read(2, 10, 11)]),
        ),
        (
            "two writes of the same bytes",
            found(&[write(1, 0, 1), write(2, 2, 3), write(1, 4, 0), read(1, 5, 6), read(1, 7, 8)]),
        ),
    ]
}

fn orders_of_lengths() -> Checks {
    let (written, shown) = (empty(write(0, 0, 1)), empty(read(0, 2, 3)));
    let unended = || empty(write(0, 0, 0));
    vec![
        ("length 0 written and shown", found(&[written.clone(), shown.clone()])),
        ("length 0 written, byte 0 shown", !found(&[written, read(0, 2, 3)])),
        ("byte 0 written, length 0 shown", !found(&[write(0, 0, 1), shown.clone()])),
        ("the starting board has length V", !found(&[shown])),
        ("length 0 by an unended write", found(&[unended(), read(0, 1, 2), empty(read(0, 3, 4))])),
        ("and byte 0 again", !found(&[unended(), empty(read(0, 1, 2)), read(0, 3, 4)])),
        ("a board is its length and its bytes up to it", {
            let board = |length| history::board(length, &[1, 0, 9], 3);
            board(1).1 == board(2).1 && board(1) != board(2) && board(2) == history::board(2, &[1, 0], 3)
        }),
    ]
}

/// On random histories of up to five operations the searches agree with trying every order.
fn small_histories() -> Checks {
    let random = &mut Random::new(2, 2);
    let (mut agree, mut rising_agree) = (true, true);
    // Histories without an order, with one, and with one in which the writes rise.
    let mut met = [0; 3];
    for _ in 0..3000 {
        let operations = small_history(random);
        let history = from_zero(&operations);
        let some = any_order(&history, &mut vec![], &fits);
        let rising = any_order(&history, &mut vec![], &|h, order| fits(h, order) && rises(h, order));
        agree &= found(&operations) == some;
        rising_agree &= found_rising(&operations) == rising;
        met[some as usize + rising as usize] += 1;
    }
    vec![
        ("the search agrees with trying every order", agree),
        ("so does that for writes that rise", rising_agree),
        ("each sort occurs", met.iter().all(|met| *met > 200)),
    ]
}

/// Ended writes have tags of few numbers, ranks and clients.
fn small_history(random: &mut Random) -> Vec<Operation> {
    let count = random.within(1, 5);
    let mut times: Vec<usize> = (0..2 * count).collect();
    let operation = |_| {
        let begin = times.remove(0);
        let end = times.remove(random.below(times.len().min(4)));
        let unended = random.chance(200);
        let write = unended || random.chance(500);
        let (length, byte) = random.pick(&[(1, 0), (1, 1), (0, 0)]);
        let (board, end) = (history::board(length, &[byte], 1), (!unended).then_some(end));
        let tag = [random.within(1, 2), random.below(2), random.within(1, 3)];
        let tag = (write && !unended).then_some((tag[0] as u32, tag[1] as u8, tag[2] as u8));
        Operation { write, board, begin, end, tag }
    };
    (0..count).map(operation).collect()
}

fn any_order(history: &History, order: &mut Vec<usize>, good: &impl Fn(&History, &[usize]) -> bool) -> bool {
    if good(history, order) {
        return true;
    }
    (0..history.operations.len()).any(|i| {
        if order.contains(&i) {
            return false;
        }
        order.push(i);
        let some = any_order(history, order, good);
        order.pop();
        some
    })
}
