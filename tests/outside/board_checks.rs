//! Checks of several boards: question 22, the room, question 6, one board's lines, histories, pairs of lists.

use crate::common::Checks;
use crate::history::{History, history, of_board};
use crate::list::{List, head, ranked, shared};
use crate::lists;
use crate::maker::Seen;
use crate::model::*;
use crate::pairs::{self, Pairs};
use crate::programs::PROGRAM;
use crate::random::Random;

pub fn all() -> Checks {
    [questions(), room(), states(), limits(), any_share(), head_bytes(), histories(), agreement()].concat()
}

/// M 64.
fn of(shares: &[usize]) -> Config {
    shared(PROGRAM, shares)
}

/// 22 comes after 21 and before 6.
fn questions() -> Checks {
    let number = |boards| Config { boards, ..PROGRAM };
    let board = |board| of(&[0; 3]).ask_board(board);
    vec![
        ("1 to 8 boards", (1..=8).all(|boards| number(boards).ask() == Ok(()))),
        ("22 of their number", [0, 9, 255].iter().all(|boards| number(*boards).ask() == Err(22))),
        ("shares up to M", [&[64][..], &[0, 64], &[8; 8]].iter().all(|s| of(s).ask() == Ok(()))),
        (
            "22 of shares above M",
            [&[65][..], &[1, 64], &[8, 8, 8, 8, 8, 8, 8, 9]].iter().all(|s| of(s).ask() == Err(22)),
        ),
        ("22 of shares past 16 bits", of(&[65535, 1]).ask() == Err(22) && of(&[65535; 8]).ask() == Err(22)),
        ("shares past the last board aren't asked", Config { boards: 1, ..of(&[64, 1]) }.ask() == Ok(())),
        (
            "22 of a named board",
            [0, 4, 8, 255].iter().all(|b| board(*b) == Err(22)) && (1..=3).all(|b| board(b).is_ok()),
        ),
        (
            "21 before 22",
            ranked(number(0), &[4, 0]).ask() == Err(21) && ranked(of(&[65]), &[0, 4]).ask() == Err(21),
        ),
        (
            "22 before 6",
            [number(9), of(&[65])].iter().all(|config| Rig::make(*config, &[]).err() == Some(22)),
        ),
        (
            "6 of the starting boards",
            [0, 1, 3].iter().all(|count| Rig::make(of(&[0; 2]), &vec![0; *count]).err() == Some(6)),
        ),
    ]
}

/// A rig with so many messages of each board.
fn with_counts(config: Config, counts: &[usize]) -> Rig {
    let mut rig = Rig::make(config, &vec![0; config.boards]).unwrap();
    let record = Record { kind: QUERY, client: 1, server: 1, operation: 1, tag: START, piece: None };
    for (board, count) in (1..).zip(counts) {
        rig.flight.extend((0..*count).map(|_| Message { board, record }));
    }
    rig
}

/// With S the shares' sum and X what the other boards have beyond their shares, a board may have its share and M − S − X
/// more.
fn room() -> Checks {
    let random = &mut Random::new(4, 4);
    let (mut agree, mut met) = (true, [0; 2]);
    while met.iter().sum::<usize>() < 4000 {
        let boards = random.within(1, 4);
        let shares: Vec<usize> = (0..boards).map(|_| random.below(5)).collect();
        let sum: usize = shares.iter().sum();
        let config = Config { m: sum.max(1) + random.below(6), ..of(&shares) };
        let counts: Vec<usize> = (0..boards).map(|_| random.below(8)).collect();
        let beyond = |board: usize| counts[board].saturating_sub(shares[board]);
        if (0..boards).map(beyond).sum::<usize>() > config.m - sum || counts[0] == 0 {
            continue;
        }
        let others: usize = (1..boards).map(beyond).sum();
        let allowed = counts[0] < shares[0] + (config.m - sum) - others;
        let double = Event { code: 5, party: 0, position: 0, board: 1, bytes: &[], length: 0 };
        let answer = with_counts(config, &counts).event(double);
        agree &= answer == if allowed { Ok(Answer::Nothing) } else { Err(13) };
        met[allowed as usize] += 1;
    }
    vec![("13 by the room that others leave", agree), ("13 and not 13", met.iter().all(|met| *met > 500))]
}

/// Question 6 of states that no list brings about.
fn states() -> Checks {
    let fresh = || with_counts(Config { m: 8, ..of(&[3, 3]) }, &[4, 4]);
    let with = |change: &dyn Fn(&mut Rig)| {
        let mut rig = fresh();
        change(&mut rig);
        rig.in_limits()
    };
    vec![
        ("6 with the room used up", fresh().in_limits()),
        ("6 past the room", !with(&|rig| rig.flight.push(rig.flight[0]))),
        ("6 of a message's board", [0, 3].iter().all(|board| !with(&|rig| rig.flight[0].board = *board))),
        ("6 of a server down on one board", !with(&|rig| rig.parties[1].servers[2].up = false)),
        ("6 of a client down on one board", !with(&|rig| rig.parties[0].clients[1].phase = Phase::Down)),
        (
            "6 of parties down on all boards",
            with(&|rig| {
                for parties in &mut rig.parties {
                    parties.servers[2].up = false;
                    parties.clients[1].phase = Phase::Down;
                }
            }),
        ),
    ]
}

/// Lists of one kind that have events.
fn drawn(seed: u64, kind: u64, count: u64) -> impl Iterator<Item = List> {
    let all =
        (0..count).map(move |number| lists::list(seed, lists::KINDS * number + kind, &mut Seen::default()));
    all.filter(|list| !list.named.is_empty())
}

/// States get a yes to 6 after each event.
fn limits() -> Checks {
    let in_limits = |list: &List| {
        let mut rig = Rig::make(list.config, &list.start).unwrap();
        list.events().all(|event| {
            _ = rig.event(event);
            rig.in_limits()
        })
    };
    vec![("6 of several boards after each event", drawn(5, lists::SHARED, 15).all(|list| in_limits(&list)))]
}

/// With one board any share gives the lines of share 0.
fn any_share() -> Checks {
    let kinds = [(0, 10), (1, 60), (lists::CLEARING, 30)];
    let all = kinds.into_iter().flat_map(|(kind, count)| drawn(6, kind, count));
    let one_board = all.filter(|list| list.config.boards == 1);
    let (mut equal, mut full) = (true, 0);
    for list in one_board {
        let (m, lines) = (list.config.m, list.at_share(0).lines());
        equal &= [1, m / 2, m].iter().all(|share| list.at_share(*share).lines() == lines);
        full += lines.contains(" no 13\n") as usize;
    }
    vec![("one board: the lines of share 0", equal), ("13 among them", full > 4)]
}

/// The head's bytes, and where an event has its board.
fn head_bytes() -> Checks {
    let config = Config { m: 512, ..of(&[300, 2]) };
    let mut list = List::new(true, config, vec![7, 8]);
    list.put(&Event { code: 1, party: 2, position: 0x403, board: 5, bytes: &[6], length: 0x807 }, 0);
    let due = [3, 1, 0, 1, 2, 0, 2, 0, 0, 2, 44, 1, 2, 0, 7, 8, 1, 2, 3, 4, 5, 6, 7, 8];
    let events: Vec<_> = list.events().map(|e| (e.code, e.party, e.position, e.board, e.length)).collect();
    vec![
        ("the head and a record of several boards", list.input == due),
        ("and back", events == [(1, 2, 0x403, 5, 0x807)] && list.start_of(2) == [8]),
        ("its lines", list.lines() == "1 no 22\n" && head(&config).len() == 14),
    ]
}

/// Client 1 writes 5 on board 1 and reads on board 2, at once; client 2 then reads on board 1. A crash and restarts
/// name a board in vain.
fn histories() -> Checks {
    let mut list = List::new(true, of(&[0, 0]), vec![3, 4]);
    let events =
        [(1, 1, 1, 0), (2, 1, 2, 0), (6, 2, 1, 0), (3, 0, 2, 1), (3, 0, 1, 1), (2, 2, 1, 0), (3, 0, 1, 2)];
    for (code, party, board, named) in events.into_iter().chain([(8, 2, 1, 0), (8, 2, 2, 0)]) {
        list.put(&Event { code, party, position: 0, board, bytes: &[5], length: 1 }, named);
    }
    let lines = "1 ok\n2 ok\n3 ok\n4 read 0 0 04\n5 written 1 1\n6 ok\n7 read 1 1 05\n8 ok\n9 no 9\n";
    let places = |board| of_board(&list, lines, board).map(|(place, ..)| place).collect::<Vec<_>>();
    let of = |board| {
        let History { start, operations } = history(&list, lines, board).ok()?;
        let operations = operations.iter().map(|o| (o.write, o.board.1[0], o.begin, o.end));
        Some((start.1[0], operations.collect::<Vec<_>>()))
    };
    vec![
        ("a history of board 1", of(1) == Some((3, vec![(true, 5, 0, Some(4)), (false, 5, 5, Some(6))]))),
        ("a history of board 2", of(2) == Some((4, vec![(false, 4, 1, Some(3))]))),
        ("no crash and no restart in a history", places(1) == [0, 4, 5, 6] && places(2) == [1, 3]),
    ]
}

/// Pairs of lists on the model alone.
fn agreement() -> Checks {
    let (mut pairs, mut same) = (Pairs::default(), true);
    for (number, list) in (0..).zip(drawn(7, lists::SHARED, 120)) {
        let random = &mut Random::new(8, number);
        let board = random.within(1, list.config.boards) as u8;
        let second = pairs::second(random, &list, board, &mut Seen::default());
        let lines = [list.lines(), second.lines()];
        same &= pairs.note([&list, &second], [&lines[0], &lines[1]], board).is_ok();
    }
    vec![
        ("pairs of lists agree without a 13", same),
        ("many have none", pairs.agree > 20),
        ("with a 13 some don't agree", pairs.full_other > 5),
    ]
}
