//! Random lists of events as the steps of parties: clients begin, messages are handed over in any order, and some are
//! lost or doubled.

use crate::model::{Config, Phase, Record, Rig};
use crate::random::Random;
use crate::sides::event;

/// One step of one party, with the record that it takes.
#[derive(Clone)]
pub enum Step<R> {
    /// The server of this number takes a record.
    Server(usize, R),
    /// A client takes one.
    Client(usize, R),
    /// A client begins to write so many of these bytes.
    Write(usize, Vec<u8>, usize),
    /// A client begins to read.
    Read(usize),
}

#[derive(Clone)]
pub struct List<R> {
    pub start: Vec<u8>,
    pub steps: Vec<Step<R>>,
}

impl<R> List<R> {
    /// The same with other records.
    pub fn with<S>(&self, other: impl Fn(&R) -> S) -> List<S> {
        let step = |step: &Step<R>| match step {
            Step::Server(s, r) => Step::Server(*s, other(r)),
            Step::Client(c, r) => Step::Client(*c, other(r)),
            Step::Write(c, board, length) => Step::Write(*c, board.clone(), *length),
            Step::Read(c) => Step::Read(*c),
        };
        List { start: self.start.clone(), steps: self.steps.iter().map(step).collect() }
    }
}

/// How many steps are servers', begins and clients'.
pub fn kinds<R>(lists: &[List<R>]) -> [usize; 3] {
    let mut kinds = [0; 3];
    for step in lists.iter().flat_map(|list| &list.steps) {
        kinds[match step {
            Step::Server(..) => 0,
            Step::Write(..) | Step::Read(_) => 1,
            Step::Client(..) => 2,
        }] += 1;
    }
    kinds
}

/// The lists of a seed, with so many steps at least.
pub fn some(config: &Config, seed: u64, steps: usize) -> Vec<List<Record>> {
    let mut lists: Vec<List<Record>> = vec![];
    while kinds(&lists).iter().sum::<usize>() < steps {
        lists.push(list(config, &mut Random::new(seed, lists.len() as u64)));
    }
    lists
}

/// A list of up to 200 events for each server. It ends earlier where all clients wait for what was lost.
fn list(config: &Config, random: &mut Random) -> List<Record> {
    let start = random.bytes(config.v());
    let mut rig = Rig::make(*config, &start).expect("a configuration in range");
    let mut steps = vec![];
    for _ in 0..200 * config.n {
        let idle: Vec<usize> =
            (0..config.c).filter(|c| rig.parties[0].clients[*c].phase == Phase::Idle).collect();
        if !idle.is_empty() && (rig.flight.is_empty() || random.chance(60)) {
            steps.extend(begin(&mut rig, random.pick(&idle), random));
        } else if !rig.flight.is_empty() {
            let code = if random.chance(5) { 4 } else { 3 + 2 * u8::from(random.chance(20)) };
            let position = random.below(rig.flight.len());
            steps.extend(message(&mut rig, code, position));
        } else {
            break;
        }
    }
    List { start, steps }
}

fn begin(rig: &mut Rig, client: usize, random: &mut Random) -> Option<Step<Record>> {
    let party = client as u8 + 1;
    let (board, length) = (random.bytes(rig.config.v()), random.length(rig.config.v()));
    let (code, step) = match random.chance(500) {
        true => (1, Step::Write(client, board.clone(), length)),
        false => (2, Step::Read(client)),
    };
    rig.event(event(code, party, 0, &board, length)).ok().map(|_| step)
}

/// Handing over is a step, if there is room for what it sends.
fn message(rig: &mut Rig, code: u8, position: usize) -> Option<Step<Record>> {
    let r = rig.flight[position].record;
    let step = match r.for_server() {
        true => Step::Server(r.server as usize - 1, r),
        false => Step::Client(r.client as usize - 1, r),
    };
    rig.event(event(code, 0, position, &[], 0)).ok().filter(|_| code == 3).map(|_| step)
}
