//! Lists made for one point each that random lists seldom meet, with the lines that are due.

use crate::directed_boards;
use crate::directed_ranks;
use crate::directed_restarts;
use crate::list::{List, head};
use crate::model::{CLEARED, Config, PRE_WRITE, QUERY, READ_FINALISE, WRITE_FINALISE};
use crate::programs::PROGRAM;
use crate::script::{Directed, Script};

/// Kind 9, makings, ranks, boards and restarts.
pub fn all() -> Vec<Directed> {
    let others = [directed_ranks::all(), directed_boards::all(), directed_restarts::all()];
    [cleared(), makings()].into_iter().chain(others).flatten().collect()
}

/// Kind 9 and what a reader does with it, where N is 3, k 1, D 0 and E 1, so q is 2, and the starting board is 0.
fn cleared() -> Vec<Directed> {
    vec![
        anew().named("counted and elements anew"),
        next_number().named("the next operation number"),
        late().named("kind 9 late and doubled"),
        counted().named("kind 9 of a server already counted"),
        raised().named("H raised with kind 9"),
        lower().named("a lower tag"),
        full().named("13 for kind 9"),
        down().named("kind 9 to a crashed client"),
    ]
}

/// With one number just out of range.
fn makings() -> Vec<Directed> {
    vec![
        refused("17 servers", Config { n: 17, ..PROGRAM }, 1),
        refused("k above N", Config { k: 4, ..PROGRAM }, 2),
        refused("D 8", Config { d: 8, ..PROGRAM }, 3),
        refused("E 65", Config { e: 65, ..PROGRAM }, 4),
        refused("17 clients", Config { c: 17, ..PROGRAM }, 5),
        refused("M 513", Config { m: 513, ..PROGRAM }, 5),
    ]
}

fn refused(name: &'static str, config: Config, number: u8) -> Directed {
    let input = [head(&config), vec![0; 80]].concat();
    making(name, config, &input, &format!("no {number}"))
}

/// A making from this input that comes to no event.
pub fn making(name: &'static str, config: Config, input: &[u8], due: &str) -> Directed {
    let list = List { general: true, input: input.to_vec(), config, start: vec![], named: vec![] };
    Directed { name, list, due: format!("0 {due}\n") }
}

/// The read has an element of server 1 when server 2 has cleared its own. It asks again, and neither server 1 nor its
/// element count any more.
fn anew() -> Script {
    let mut s = Script::new(PROGRAM);
    s.read(1);
    s.answered(1, QUERY, &[1, 2]);
    s.answered(1, READ_FINALISE, &[1]);
    s.pre_written(&[2, 3]);
    s.hand(1, READ_FINALISE, &[2]);
    s.in_flight(7);
    s.hand(1, CLEARED, &[2]);
    s.in_flight(9);
    s.answered(1, QUERY, &[3]);
    s.in_flight(8);
    s.hand(2, PRE_WRITE + 1, &[2, 3]);
    s.answered(2, WRITE_FINALISE, &[2]);
    s.hand(2, WRITE_FINALISE, &[3]);
    s.due(2, WRITE_FINALISE + 1, 3, "written 1 2");
    s.answered(1, QUERY, &[2]);
    s.answered(1, READ_FINALISE, &[2]);
    s.hand(1, READ_FINALISE, &[3]);
    s.due(1, READ_FINALISE + 1, 3, "read 1 2 ab");
    s
}

/// An answer of the first asking comes in the second one.
fn next_number() -> Script {
    let mut s = Script::new(PROGRAM);
    s.read(1);
    s.hand(1, QUERY, &[3]);
    s.answered(1, QUERY, &[1, 2]);
    s.pre_written(&[1, 2]);
    s.hand(1, READ_FINALISE, &[1]);
    s.hand(1, CLEARED, &[1]);
    s.hand(1, QUERY + 1, &[3]);
    s.answered(1, QUERY, &[1]);
    s.in_flight(8);
    s.written();
    s.answered(1, QUERY, &[2]);
    s.in_flight(9);
    s.answered(1, READ_FINALISE, &[1]);
    s.hand(1, READ_FINALISE, &[3]);
    s.due(1, READ_FINALISE + 1, 3, "read 1 2 ab");
    s
}

/// Servers 1 and 2 have cleared the tag, and the read asks again twice. The double of the first kind 9 comes in the
/// second asking, the other kind 9 in the second finalise, which is of the same tag.
fn late() -> Script {
    let mut s = Script::new(PROGRAM);
    s.read(1);
    s.answered(1, QUERY, &[1, 2]);
    s.pre_written(&[1, 2]);
    s.hand(1, READ_FINALISE, &[1, 2]);
    s.double(1, CLEARED, 1);
    s.hand(1, CLEARED, &[1]);
    s.in_flight(11);
    s.hand(1, CLEARED, &[1]);
    s.in_flight(10);
    s.answered(1, QUERY, &[1, 2]);
    s.in_flight(11);
    s.hand(1, CLEARED, &[2]);
    s.in_flight(10);
    s.hand(1, READ_FINALISE, &[2]);
    s.hand(1, CLEARED, &[2]);
    s.in_flight(12);
    s.written();
    s.answered(1, QUERY, &[1, 3]);
    s.answered(1, READ_FINALISE, &[1]);
    s.hand(1, READ_FINALISE, &[3]);
    s.due(1, READ_FINALISE + 1, 3, "read 1 2 ab");
    s
}

/// A doubled read finalise is answered with the element, and once that is cleared by kind 9.
fn counted() -> Script {
    let mut s = Script::new(PROGRAM);
    s.read(1);
    s.answered(1, QUERY, &[1, 2]);
    s.double(1, READ_FINALISE, 1);
    s.answered(1, READ_FINALISE, &[1]);
    s.pre_written(&[1]);
    s.hand(1, READ_FINALISE, &[1]);
    s.in_flight(8);
    s.hand(1, CLEARED, &[1]);
    s.in_flight(7);
    s.hand(1, READ_FINALISE, &[3]);
    s.due(1, READ_FINALISE + 1, 3, "read 0 0 00");
    s
}

/// Tag (1, 2) is finalised at server 1 alone and cleared at server 3, which the read finalise tells of it. So the read
/// takes it again from servers 2 and 3.
fn raised() -> Script {
    let mut s = Script::new(Config { c: 3, ..PROGRAM });
    s.pre_written(&[1, 2, 3]);
    s.hand(2, PRE_WRITE + 1, &[1, 2]);
    s.hand(2, WRITE_FINALISE, &[1]);
    s.write(3, 0xcd);
    s.answered(3, QUERY, &[1, 2]);
    s.hand(3, PRE_WRITE, &[3]);
    s.read(1);
    s.answered(1, QUERY, &[1, 2]);
    s.hand(1, READ_FINALISE, &[3]);
    s.hand(1, CLEARED, &[3]);
    s.answered(1, QUERY, &[2, 3]);
    s.shows(1, "read 1 2 ab");
    s
}

/// The first asking takes (2, 3), which server 1 alone has finalised, and has cleared. The second one, of servers 2 and
/// 3, takes (1, 2).
fn lower() -> Script {
    let mut s = Script::new(Config { c: 3, ..PROGRAM });
    s.pre_written(&[1, 2]);
    s.written();
    s.write(3, 0xcd);
    s.answered(3, QUERY, &[1, 2]);
    s.answered(3, PRE_WRITE, &[1, 3]);
    s.hand(3, WRITE_FINALISE, &[1]);
    s.read(1);
    s.answered(1, QUERY, &[1, 2]);
    s.pre_written(&[1]);
    s.hand(1, READ_FINALISE, &[1]);
    s.hand(1, CLEARED, &[1]);
    s.answered(1, QUERY, &[2, 3]);
    s.answered(1, READ_FINALISE, &[3]);
    s.hand(1, READ_FINALISE, &[2]);
    s.due(1, READ_FINALISE + 1, 2, "read 1 2 ab");
    s
}

/// With 12 at most in flight, the queries of the second asking have room once 10 are.
fn full() -> Script {
    let mut s = Script::new(Config { m: 12, ..PROGRAM });
    s.read(1);
    s.answered(1, QUERY, &[1, 2]);
    s.pre_written(&[1, 2]);
    s.hand(1, READ_FINALISE, &[2]);
    while s.rig.flight.len() < 12 {
        s.double(2, QUERY, 3);
    }
    for _ in 0..2 {
        s.due(1, CLEARED, 2, "no 13");
        s.event([4, 0, 12, 0], "no 8");
    }
    s.lose(2, QUERY, 3);
    s.due(1, CLEARED, 2, "no 13");
    s.lose(2, QUERY, 3);
    s.hand(1, CLEARED, &[2]);
    s.event([5, 0, 11, 0], "no 13");
    s.lose(2, QUERY, 3);
    s.lose(2, QUERY, 3);
    s.written();
    s.answered(1, QUERY, &[1, 2]);
    s.shows(1, "read 1 2 ab");
    s
}

/// Nothing is sent for a client that is down.
fn down() -> Script {
    let mut s = Script::new(PROGRAM);
    s.read(1);
    s.answered(1, QUERY, &[1, 2]);
    s.pre_written(&[1]);
    s.hand(1, READ_FINALISE, &[1]);
    s.event([7, 1, 0, 0], "ok");
    s.in_flight(8);
    s.hand(1, CLEARED, &[1]);
    s.in_flight(7);
    s
}
