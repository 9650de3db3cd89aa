//! Directed lists about ranks, where k and E are 1 and the starting board is 0. Two or three clients write at the same
//! count, so that their tags have number 1; client c writes byte c.

use crate::directed::making;
use crate::list::{head, ranked, ranks_head};
use crate::model::{CLEARED, Config, PRE_WRITE, QUERY, READ_FINALISE, WRITE_FINALISE};
use crate::programs::PROGRAM;
use crate::script::{Directed, Script};

/// Ranks, and those who write in rising order of their tags.
const TIES: [(&[u8], &[u8]); 11] = [
    (&[1, 0], &[2, 1]),
    (&[0, 0], &[1, 2]),
    (&[0, 1], &[1, 2]),
    (&[3, 2], &[2, 1]),
    (&[2, 1], &[2, 1]),
    (&[3, 3], &[1, 2]),
    (&[2, 1, 0], &[3, 2, 1]),
    (&[1, 3, 1], &[1, 3, 2]),
    (&[3, 0, 3], &[2, 1, 3]),
    (&[1, 0, 0, 0, 0, 0, 0, 0, 0, 0, 0, 0, 0, 0, 0, 2], &[1, 16]),
    (&[2, 0, 0, 0, 0, 0, 0, 0, 0, 0, 0, 0, 0, 0, 0, 1], &[16, 1]),
];

pub fn all() -> Vec<Directed> {
    let mut made = vec![
        number_first().named("the number before the rank"),
        above_the_start().named("rank 0 above the starting tag"),
        above_the_floor().named("above the floor by rank"),
        below_the_floor().named("below the floor by rank"),
    ];
    for (ranks, rising) in TIES {
        made.push(at_servers(ranks, rising).named("a tie at servers"));
        if let [lower, higher] = *rising {
            made.push(at_readers(ranks, lower, higher).named("a tie at readers"));
        }
    }
    made.extend(makings());
    made
}

/// So many clients with these ranks, and 0 where there are none.
fn script(d: usize, c: usize, ranks: &[u8]) -> Script {
    Script::new(ranked(Config { d, c, ..PROGRAM }, ranks))
}

/// Each of these writes and has asked servers 1 and 2.
fn asked(s: &mut Script, writers: &[u8]) {
    writers.iter().for_each(|client| s.asked(*client, *client));
}

fn ends(s: &mut Script, number: u32, client: u8) {
    s.ends(client, &format!("written {number} {client}"));
}

/// A read of tag (1, client).
fn shown(client: u8) -> String {
    format!("read 1 {client} {client:02x}")
}

/// D 0: the pre-writes arrive in rising order at server 1 and in falling order at server 2, and each stores the highest
/// tag alone. Two readers take any other whose write ends, and get kind 9, the first of server 1 and the second of 2.
fn at_servers(ranks: &[u8], rising: &[u8]) -> Script {
    let (highest, lower) = rising.split_last().unwrap();
    let writers = rising.len() as u8;
    let readers = [(writers + 1, 1), (writers + 2, 2)];
    let mut s = script(0, ranks.len().max(rising.len() + 2), ranks);
    asked(&mut s, rising);
    rising.iter().for_each(|client| s.hand(*client, PRE_WRITE, &[1]));
    rising.iter().rev().for_each(|client| s.hand(*client, PRE_WRITE, &[2]));
    readers.iter().for_each(|(reader, _)| s.read(*reader));
    for (round, client) in (1..).zip(lower) {
        ends(&mut s, 1, *client);
        for (reader, server) in readers {
            s.answered(reader, QUERY, &[1, 2]);
            s.hand(reader, READ_FINALISE, &[server]);
            s.hand(reader, CLEARED, &[server]);
        }
        s.in_flight(4 * writers + 5 * round + 6);
    }
    ends(&mut s, 1, *highest);
    for (reader, _) in readers {
        s.answered(reader, QUERY, &[1, 2]);
        s.shows(reader, &shown(*highest));
    }
    s
}

/// N 4, so q is 3, and D 1. Each of two writes has finalised its tag at one server, and readers get the answers of
/// these two and of server 3, whose H is (0, 0), in different orders. The finalises of the lower tag come last, and H
/// stays.
fn at_readers(ranks: &[u8], lower: u8, higher: u8) -> Script {
    let mut s = Script::new(ranked(Config { n: 4, d: 1, c: ranks.len().max(6), ..PROGRAM }, ranks));
    let writers = [(lower, 1), (higher, 2)];
    writers.iter().for_each(|(client, _)| s.write(*client, *client));
    writers.iter().for_each(|(client, _)| s.answered(*client, QUERY, &[1, 2, 3]));
    writers.iter().for_each(|(client, _)| s.answered(*client, PRE_WRITE, &[1, 2, 3]));
    writers.iter().for_each(|(client, server)| s.hand(*client, WRITE_FINALISE, &[*server]));
    for (reader, answers) in (3..).zip([[1, 2, 3], [2, 1, 3], [3, 1, 2], [3, 2, 1]]) {
        s.read(reader);
        s.hand(reader, QUERY, &[1, 2, 3]);
        s.hand(reader, QUERY + 1, &answers);
    }
    (3..=6).for_each(|reader| shows_by_three(&mut s, reader, higher));
    for (client, server) in writers.into_iter().rev() {
        let others = if server == 1 { [2, 3] } else { [1, 3] };
        s.hand(client, WRITE_FINALISE, &others);
        s.hand(client, WRITE_FINALISE + 1, &[1, 2]);
        s.due(client, WRITE_FINALISE + 1, 3, &format!("written 1 {client}"));
    }
    s.read(3);
    s.answered(3, QUERY, &[1, 2, 3]);
    shows_by_three(&mut s, 3, higher);
    s
}

/// A read that has asked ends by servers 1 to 3.
fn shows_by_three(s: &mut Script, reader: u8, client: u8) {
    s.answered(reader, READ_FINALISE, &[1, 2]);
    s.hand(reader, READ_FINALISE, &[3]);
    s.due(reader, READ_FINALISE + 1, 3, &shown(client));
}

/// Rank 3 at number 1, then rank 0 at number 2.
fn number_first() -> Script {
    let mut s = script(0, 3, &[3, 0, 0]);
    for (number, client) in [(1, 1), (2, 2)] {
        s.asked(client, client);
        s.hand(client, PRE_WRITE, &[1, 2]);
        ends(&mut s, number, client);
    }
    s.read(3);
    s.answered(3, QUERY, &[1, 2]);
    s.shows(3, "read 2 2 02");
    s
}

/// A tag of rank 0 is above the starting one, though client 1 has rank 3: the number decides.
fn above_the_start() -> Script {
    let mut s = script(0, 3, &[3, 0, 0]);
    s.read(3);
    s.answered(3, QUERY, &[1, 2]);
    s.asked(2, 2);
    s.hand(2, PRE_WRITE, &[1, 2]);
    s.hand(3, READ_FINALISE, &[1]);
    s.hand(3, CLEARED, &[1]);
    ends(&mut s, 1, 2);
    s.answered(3, QUERY, &[1, 2]);
    s.shows(3, &shown(2));
    s
}

/// At server 1 the floor is (1, 2) and (1, 3) is stored. A read finalise of (1, 1), of rank 1, is answered there
/// without an element.
fn above_the_floor() -> Script {
    let mut s = script(0, 4, &[1, 0, 0, 0]);
    asked(&mut s, &[1, 2, 3]);
    s.hand(2, PRE_WRITE, &[1]);
    s.hand(3, PRE_WRITE, &[1]);
    s.answered(1, PRE_WRITE, &[2, 3]);
    s.hand(1, WRITE_FINALISE, &[2]);
    s.read(4);
    s.answered(4, QUERY, &[1, 2]);
    s.in_flight(17);
    s.answered(4, READ_FINALISE, &[1]);
    s.in_flight(16);
    s.hand(4, READ_FINALISE, &[2]);
    s.due(4, READ_FINALISE + 1, 2, &shown(1));
    s
}

/// At server 1 the floor is (1, 1), of rank 1, and (1, 3), of rank 2, is stored. A read finalise of (1, 2) is answered
/// there by kind 9, and the reader asks again.
fn below_the_floor() -> Script {
    let mut s = script(0, 4, &[1, 0, 2, 0]);
    asked(&mut s, &[1, 2, 3]);
    s.hand(1, PRE_WRITE, &[1]);
    s.hand(3, PRE_WRITE, &[1]);
    s.answered(2, PRE_WRITE, &[2, 3]);
    s.hand(2, WRITE_FINALISE, &[2]);
    s.read(4);
    s.answered(4, QUERY, &[1, 2]);
    s.in_flight(17);
    s.hand(4, READ_FINALISE, &[1]);
    s.hand(4, CLEARED, &[1]);
    s.in_flight(19);
    s.answered(4, QUERY, &[2, 3]);
    s.answered(4, READ_FINALISE, &[2]);
    s.hand(4, READ_FINALISE, &[3]);
    s.due(4, READ_FINALISE + 1, 3, &shown(2));
    s
}

/// 21, where it stands among the questions, and ranks cut short. The rest of each input is zeros.
fn makings() -> Vec<Directed> {
    let of = |config: Config, ranks: &[u8]| ranked(config, ranks);
    let whole = |name, config: Config, due| making(name, config, &[head(&config), vec![0; 80]].concat(), due);
    let cut = |name, ranks: &[u8], length, due| {
        let config = of(PROGRAM, ranks);
        making(name, config, &ranks_head(&config)[..length], due)
    };
    let mut last_of_16 = [3; 16];
    last_of_16[15] = 4;
    vec![
        whole("rank 4 of the first client", of(PROGRAM, &[4, 0]), "no 21"),
        whole("rank 4 of the last client", of(PROGRAM, &[3, 4]), "no 21"),
        whole("rank 4 of client 16", of(Config { c: 16, ..PROGRAM }, &last_of_16), "no 21"),
        whole("rank 255", of(PROGRAM, &[255, 0]), "no 21"),
        whole("rank 4 and M 513", of(Config { m: 513, ..PROGRAM }, &[4, 4]), "no 5"),
        whole("rank 4 and M 0", of(Config { m: 0, ..PROGRAM }, &[4, 4]), "no 5"),
        whole("rank 4 and E 65", of(Config { e: 65, ..PROGRAM }, &[4, 4]), "no 4"),
        cut("rank 4 and nothing after it", &[0, 4], 9, "no 21"),
        cut("no ranks", &[0, 0], 7, "short"),
        cut("a rank cut off", &[3, 0], 8, "short"),
        cut("a rank cut off after rank 4", &[4, 0], 8, "short"),
        cut("ranks and nothing after them", &[3, 3], 9, "short"),
    ]
}
