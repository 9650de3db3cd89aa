//! Checks of restarts: what is asked, what is kept from a crash to a restart, the figure's history.

use crate::common::Checks;
use crate::directed_restarts;
use crate::history::{fits, history, search};
use crate::list::{List, shared};
use crate::lists;
use crate::maker::Seen;
use crate::model::*;
use crate::programs::PROGRAM;
use std::collections::BTreeMap;

pub fn all() -> Checks {
    [questions(), kept(), figure()].concat()
}

const OK: Result<Answer, u8> = Ok(Answer::Nothing);

/// An event that names a party.
fn event(rig: &mut Rig, code: u8, party: u8) -> Result<Answer, u8> {
    rig.event(Event { code, party, position: 7, board: 9, bytes: &[], length: 5 })
}

fn questions() -> Checks {
    let mut rig = Rig::make(shared(PROGRAM, &[0, 0]), &[0; 2]).unwrap();
    let up = event(&mut rig, 8, 3);
    let none = [0, 4, 255].map(|party| event(&mut rig, 8, party));
    let crashed = [event(&mut rig, 6, 3), event(&mut rig, 7, 2)];
    let restarted = [8, 8, 6, 8].map(|code| event(&mut rig, code, 3));
    let of_client = event(&mut rig, 8, 2);
    let phases = rig.parties.iter().map(|parties| parties.clients[1].phase);
    vec![
        ("9 of a restart", up == Err(9) && of_client == Err(9)),
        ("8 of a restart", none == [Err(8), Err(8), Err(8)]),
        ("a restart", crashed == [OK, OK] && restarted == [OK, Err(9), OK, OK]),
        ("on each board", rig.parties.iter().all(|parties| parties.servers[2].up)),
        ("a crashed client stays down", phases.eq([Phase::Down; 2])),
        ("7 of event 9", event(&mut rig, 9, 3) == Err(7)),
    ]
}

/// A server's content on each board, but for whether it is up.
fn content(rig: &Rig, server: usize) -> String {
    let on_each = rig.parties.iter().map(|parties| &parties.servers[server]);
    on_each
        .map(|Server { highest, floor, stored, .. }| format!("{highest:?} {floor:?} {stored:?}\n"))
        .collect()
}

/// Restarts of a list that are accepted; nothing if a server's content isn't what it was before its crash after each
/// event up to its restart, or if a restart changes what is in flight.
fn keeping(list: &List) -> Option<usize> {
    let mut rig = Rig::make(list.config, &list.start).unwrap();
    let mut down: BTreeMap<usize, String> = BTreeMap::new();
    let mut restarts = 0;
    for event in list.events() {
        let server = (event.party as usize).wrapping_sub(1);
        let flight = (event.code == 8).then(|| format!("{:?}", rig.flight));
        if event.code == 6 && server < list.config.n {
            down.entry(server).or_insert(content(&rig, server));
        }
        let accepted = rig.event(event).is_ok();
        let same_flight = flight.is_none_or(|flight| flight == format!("{:?}", rig.flight));
        if !same_flight || down.iter().any(|(server, before)| *before != content(&rig, *server)) {
            return None;
        }
        if accepted && event.code == 8 {
            down.remove(&server)?;
            restarts += 1;
        }
    }
    Some(restarts)
}

fn kept() -> Checks {
    let list = |number| lists::list(9, number, &mut Seen::default());
    let all = (0..60).map(list).filter(|list| !list.named.is_empty() && list.config.v() <= 64);
    let restarts: Vec<Option<usize>> = all.map(|list| keeping(&list)).collect();
    let total: usize = restarts.iter().flatten().sum();
    vec![
        ("a server's content stays from crash to restart", restarts.iter().all(|kept| kept.is_some())),
        ("of many restarts", total > 100),
    ]
}

/// The history of the figure of L7. A server started afresh would show the starting board.
fn figure() -> Checks {
    let made = directed_restarts::figure().named("");
    let order = |shown: &str| {
        let lines = made.due.replace("24 read 1 1 11", shown);
        let history = history(&made.list, &lines, 1).ok()?;
        Some(search(&history).is_some_and(|order| fits(&history, &order)))
    };
    vec![
        ("the figure's lines", {
            let due = |line: &str| made.due.lines().any(|other| other == line);
            due("13 written 1 1") && due("24 read 1 1 11") && made.due.lines().count() == 24
        }),
        ("its history has an order", order("24 read 1 1 11") == Some(true)),
        ("with the starting board it has none", order("24 read 0 0 00") == Some(false)),
    ]
}
