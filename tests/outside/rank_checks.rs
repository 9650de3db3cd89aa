//! Checks of ranks: the order of tags, question 21, servers, whole lists, writes that rise.

use crate::checks::{config, found, found_rising, from_zero, read, record, tag, write};
use crate::common::Checks;
use crate::history::{Operation, history};
use crate::list::{List, ranked};
use crate::lists;
use crate::maker::Seen;
use crate::model::*;
use crate::programs::PROGRAM;
use crate::ties::{mixed, plain};
use std::cmp::Ordering;

pub fn all() -> Checks {
    [order(), examples(), questions(), figures(), states(), equal_ranks(), rising(), rising_lines()].concat()
}

fn of_three(ranks: &[u8]) -> Config {
    ranked(config(3, 1, 0, 1, 3, 64), ranks)
}

/// Each way to rank three clients.
fn each_ranks() -> impl Iterator<Item = [u8; 3]> {
    (0..64).map(|all| [all >> 4, all >> 2 & 3, all & 3])
}

/// Those of numbers 1 and 2, and the starting tag.
fn tags() -> Vec<Tag> {
    let all = (1..=2).flat_map(|number| (1..=3).map(move |client| tag(number, client)));
    all.chain([START]).collect()
}

fn pairs() -> Vec<(Tag, Tag)> {
    tags().iter().flat_map(|a| tags().into_iter().map(|b| (*a, b))).collect()
}

/// The request's words: by number, then by rank, then by client number.
fn by_words(ranks: [u8; 3], a: Tag, b: Tag) -> Ordering {
    let rank = |t: Tag| if t == START { 0 } else { ranks[t.client as usize - 1] };
    if a.number != b.number {
        a.number.cmp(&b.number)
    } else if rank(a) != rank(b) {
        rank(a).cmp(&rank(b))
    } else {
        a.client.cmp(&b.client)
    }
}

fn order() -> Checks {
    let agrees = |ranks: [u8; 3], a, b| {
        let config = of_three(&ranks);
        let due = by_words(ranks, a, b);
        let higher = if due == Ordering::Less { b } else { a };
        config.key(a).cmp(&config.key(b)) == due && config.higher(a, b) == higher
    };
    let as_today = |rank| {
        let config = of_three(&[rank; 3]);
        pairs().iter().all(|(a, b)| config.key(*a).cmp(&config.key(*b)) == plain(*a).cmp(&plain(*b)))
    };
    vec![
        ("tags by number, rank and client", {
            each_ranks().all(|ranks| pairs().iter().all(|(a, b)| agrees(ranks, *a, *b)))
        }),
        ("equal ranks: the order of document 01", (0..=3).all(as_today)),
    ]
}

fn examples() -> Checks {
    let above = |ranks: &[u8], a, b| of_three(ranks).key(a) > of_three(ranks).key(b);
    let high_first = Config { ranks: [3; 16], ..PROGRAM };
    vec![
        ("ranks 1 0: (1, 1) above (1, 2)", above(&[1, 0], tag(1, 1), tag(1, 2))),
        ("ranks 0 0: (1, 2) above (1, 1)", above(&[0, 0], tag(1, 2), tag(1, 1))),
        ("ranks 0 1: (1, 2) above (1, 1)", above(&[0, 1], tag(1, 2), tag(1, 1))),
        ("ranks 3 0: (2, 2) above (1, 1)", above(&[3, 0], tag(2, 2), tag(1, 1))),
        ("the starting tag has rank 0", high_first.rank(0) == 0 && high_first.rank(1) == 3),
        ("and numbers that no client has", [3, 16, 17, 255].iter().all(|n| high_first.rank(*n) == 0)),
    ]
}

/// 21 comes after 5, where M is asked, and before 6.
fn questions() -> Checks {
    let asked = |ranks: &[u8]| ranked(PROGRAM, ranks).ask();
    let with = |config: Config| ranked(config, &[4, 4]).ask();
    vec![
        ("ranks up to 3", asked(&[3, 3]) == Ok(()) && asked(&[0, 3]) == Ok(())),
        ("21 of each client", asked(&[4, 0]) == Err(21) && asked(&[0, 4]) == Err(21)),
        ("21 of any rank above 3", (4..=255).all(|rank| asked(&[3, rank]) == Err(21))),
        ("ranks past C aren't asked", asked(&[3, 3, 4]) == Ok(())),
        ("M before 21", with(Config { m: 513, ..PROGRAM }) == Err(5)),
        ("C before 21", with(Config { c: 17, ..PROGRAM }) == Err(5)),
        ("21 before 6", Rig::make(ranked(PROGRAM, &[4, 4]), &[]).err() == Some(21)),
        ("6 with ranks up to 3", Rig::make(ranked(PROGRAM, &[3, 3]), &[]).err() == Some(6)),
    ]
}

/// A server with D 0 after pre-writes of these tags.
fn after(ranks: &[u8], tags: &[Tag]) -> Server {
    let (config, piece) = (of_three(ranks), Piece { length: 1, element: [0; 64] });
    let mut server = Server::fresh(piece);
    for tag in tags {
        let (client, server_number, operation) = (tag.client, 1, 1);
        let piece = Some(piece);
        server.step(
            &config,
            &Record { kind: PRE_WRITE, client, server: server_number, operation, tag: *tag, piece },
        );
    }
    server
}

/// (1, 1) and (1, 2) at a server with D 0, in either order.
fn figures() -> Checks {
    let kept = |ranks: &[u8], tags: &[Tag]| {
        let Server { floor, stored, .. } = after(ranks, tags);
        (floor, stored.iter().map(|(tag, _)| *tag).collect::<Vec<_>>())
    };
    let (one, two) = (tag(1, 1), tag(1, 2));
    let orders = [[one, two], [two, one]];
    let asked = |kept: &[u8], asked: &[u8]| after(kept, &[one, two]).in_limits(&of_three(asked));
    vec![
        ("ranks 1 0", orders.iter().all(|tags| kept(&[1, 0], tags) == (Some(two), vec![one]))),
        ("ranks 0 0", orders.iter().all(|tags| kept(&[0, 0], tags) == (Some(one), vec![two]))),
        ("6 under their ranks", asked(&[1, 0], &[1, 0]) && asked(&[0, 0], &[0, 0])),
        ("6 under the other ranks", !asked(&[1, 0], &[0, 0]) && !asked(&[0, 0], &[1, 0])),
    ]
}

/// Lists of mixed ranks.
fn drawn(kind: u64, count: u64) -> impl Iterator<Item = List> {
    let all =
        (0..count).map(move |number| lists::list(3, lists::KINDS * number + kind, &mut Seen::default()));
    all.filter(|list| !list.named.is_empty() && mixed(&list.config))
}

/// Whether each server's tags get a yes to 6 after each event, asked under these ranks.
fn in_limits(list: &List, asked: &Config) -> bool {
    let mut rig = Rig::make(list.config, &list.start).unwrap();
    list.events().all(|event| {
        _ = rig.event(event);
        rig.parties.iter().flat_map(|parties| &parties.servers).all(|server| server.in_limits(asked))
    })
}

fn states() -> Checks {
    let lists: Vec<List> = drawn(lists::TIED, 15).collect();
    let plain = |list: &&List| !in_limits(list, &Config { ranks: [0; 16], ..list.config });
    vec![
        ("6 after each event", lists.iter().all(|list| in_limits(list, &list.config))),
        ("6 without ranks", lists.iter().filter(plain).count() > 4),
    ]
}

/// With all ranks equal every line is the one that ranks 0 give.
fn equal_ranks() -> Checks {
    let (mut equal, mut other) = (true, 0);
    for list in [1, lists::ADVERSE, lists::CLEARING, lists::TIED].into_iter().flat_map(|kind| drawn(kind, 15))
    {
        let of_0 = list.at_rank(0).lines();
        equal &= (1..=3).all(|rank| list.at_rank(rank).lines() == of_0);
        other += (list.lines() != of_0) as usize;
    }
    vec![("equal ranks: the lines of ranks 0", equal), ("mixed ranks: often other lines", other > 10)]
}

/// Hand-made histories; a tag is a number, a rank and a client.
fn rising() -> Checks {
    let tagged = |operation, tag| Operation { tag: Some(tag), ..operation };
    let at_once = |one, two| vec![tagged(write(1, 0, 9), one), tagged(write(2, 1, 8), two)];
    let then = |writes: &[Operation], byte| [writes, &[read(byte, 10, 11)]].concat();
    // Which of two writes, made at once, is the later one: each is by some order that fits.
    let later = |one, two, byte: u8| {
        let writes = at_once(one, two);
        [1, 2].iter().all(|byte| found(&then(&writes, *byte)))
            && found_rising(&then(&writes, byte))
            && !found_rising(&then(&writes, 3 - byte))
    };
    let in_turn = |one, two| vec![tagged(write(1, 0, 1), one), tagged(write(2, 2, 3), two)];
    let falling = in_turn((2, 0, 1), (1, 0, 2));
    vec![
        ("the higher rank is later", later((1, 1, 1), (1, 0, 2), 1) && later((1, 2, 1), (1, 3, 2), 2)),
        ("of one rank the higher client", later((1, 3, 1), (1, 3, 2), 2)),
        ("the number comes first", later((2, 0, 1), (1, 3, 2), 1)),
        ("an order of its own", found_rising(&at_once((1, 1, 1), (1, 0, 2)))),
        ("in turn and rising", found_rising(&in_turn((1, 3, 1), (2, 0, 1)))),
        ("in turn and falling", !found_rising(&falling) && found(&falling)),
        ("one tag twice", !found_rising(&in_turn((1, 0, 1), (1, 0, 1)))),
        ("an unended write has no tag", {
            let ended =
                [tagged(write(1, 0, 9), (1, 1, 1)), write(2, 1, 0), tagged(write(3, 2, 8), (1, 0, 2))];
            let shown = |byte| [&ended[..], &[read(byte, 10, 11)]].concat();
            found_rising(&shown(1)) && found_rising(&shown(2)) && !found_rising(&shown(3))
        }),
    ]
}

/// Clients 1 and 2 write 11 and 22, hexadecimal, at once; then client 2 reads.
fn rising_lines() -> Checks {
    let rises = |ranks: &[u8], shown: &str| {
        let events =
            [(1, 1, 0x11, 1), (1, 2, 0x22, 1), (3, 0, 0, 0), (3, 0, 0, 0), (2, 2, 0, 0), (3, 0, 0, 0)];
        let input =
            events.iter().flat_map(|(code, party, byte, length)| record(*code, *party, *byte, *length));
        let (input, config, named) = (input.collect(), ranked(PROGRAM, ranks), vec![0, 0, 1, 2, 0, 2]);
        let list = List { general: false, input, config, start: vec![0], named };
        let lines = format!("1 ok\n2 ok\n3 written 1 1\n4 written 1 2\n5 ok\n6 read 1 {shown}\n");
        let operations = history(&list, &lines, 1).unwrap().operations;
        assert!(found(&operations), "an order fits: {:?}", from_zero(&operations));
        found_rising(&operations)
    };
    let only = |ranks: &[u8], shown, other| rises(ranks, shown) && !rises(ranks, other);
    vec![
        ("ranks 1 0: 11 is shown", only(&[1, 0], "1 11", "2 22")),
        ("ranks 0 0: 22 is shown", only(&[0, 0], "2 22", "1 11")),
        ("ranks 2 3: 22 is shown", only(&[2, 3], "2 22", "1 11")),
    ]
}
