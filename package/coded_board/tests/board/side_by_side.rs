//! Several boards whose shares add to M are rigs of their own: each has room for its share, whatever the others do.
//! Crashes and restarts alone are common to all.

use crate::lists::{of_kind, small, Maker, Met};
use crate::random::Random;
use crate::simulate::{differs, printed};
use coded_board::Config;

const SEED: u64 = 20_261_117;
const GROUPS: u64 = 150;

/// A record and its answer.
type Event = (Vec<u8>, String);

/// A list of one board, with room for its share.
struct Alone {
    share: usize,
    start: Vec<u8>,
    /// What stands before, between and after the events that all boards share.
    parts: Vec<Vec<Event>>,
    shared: Vec<Event>,
}

/// Crashes and restarts that all boards share, as codes and parties. Some are refused.
fn shared(random: &mut Random, config: &Config) -> Vec<(u8, u8)> {
    let mut shared: Vec<(u8, u8)> = vec![];
    for _ in 0..random.below(9) {
        let server = random.within(1, config.n().into()) as u8;
        let client = random.within(1, config.c().into()) as u8;
        let last = shared.last().map_or(server, |(_, party)| *party);
        shared.push(random.pick(&[(6, server), (6, server), (8, server), (8, last), (8, last), (7, client)]));
    }
    shared
}

/// A list for this board of several, with no crash or restart done but what is shared.
fn alone(random: &mut Random, met: &mut Met, config: &Config, board: u8, shared: &[(u8, u8)]) -> Alone {
    let share = random.within(config.n().into(), 60);
    let kind = random.pick(&[0, 2, 3, 4]);
    let Maker { input, lines, shared, .. } = of_kind(random, kind, met, config, share, shared);
    let (head, v) = (10 + usize::from(config.c()), config.board_length());
    let (start, records) = input[head..].split_at(v);
    let answer = |line: String| line.split_once(' ').map(|(_, answer)| answer.to_string()).expect("a line");
    let records = records.chunks(7 + v).map(|record| of_board(record, board));
    let mut alone = Alone { share, start: start.to_vec(), parts: vec![vec![]], shared: vec![] };
    for (place, event) in records.zip(lines.into_iter().map(answer)).enumerate() {
        if shared.contains(&place) {
            alone.shared.push(event);
            alone.parts.push(vec![]);
        } else if let Some(part) = alone.parts.last_mut() {
            part.push(event);
        }
    }
    alone
}

/// The record with this board in place of board 1, and with none that is there in place of others.
fn of_board(record: &[u8], board: u8) -> Vec<u8> {
    let mut record = record.to_vec();
    record[4] = match record[4] {
        1 => board,
        2..=8 => 9,
        other => other,
    };
    record
}

/// What comes before the events.
fn head(config: &Config, lists: &[Alone]) -> Vec<u8> {
    let (numbers, ranks) = config.bytes()[..5 + usize::from(config.c())].split_at(5);
    let two = |number: usize| (number as u16).to_le_bytes();
    let m = two(lists.iter().map(|list| list.share).sum());
    let shares: Vec<u8> = lists.iter().flat_map(|list| two(list.share)).collect();
    let starts: Vec<u8> = lists.iter().flat_map(|list| list.start.clone()).collect();
    [numbers, &m, ranks, &[lists.len() as u8], &shares, &starts].concat()
}

/// The input of all lists together, each in its order, and the lines due. A shared event stands once, with the
/// answer that each list has.
fn together(random: &mut Random, config: &Config, lists: &[Alone]) -> (Vec<u8>, Vec<String>) {
    let mut events = vec![];
    for part in 0..lists[0].parts.len() {
        mix(random, lists.iter().map(|list| &list.parts[part][..]).collect(), &mut events);
        let shared: Vec<&Event> = lists.iter().filter_map(|list| list.shared.get(part)).collect();
        assert!(shared.iter().all(|(_, answer)| *answer == shared[0].1), "{shared:?}");
        if !shared.is_empty() {
            events.push(random.pick(&shared));
        }
    }
    let records: Vec<u8> = events.iter().flat_map(|(record, _)| record.clone()).collect();
    let lines = (1..).zip(&events).map(|(count, (_, answer))| format!("{count} {answer}")).collect();
    ([head(config, lists), records].concat(), lines)
}

/// Puts these parts to all events, a few of one at a time.
fn mix<'a>(random: &mut Random, mut parts: Vec<&'a [Event]>, all: &mut Vec<&'a Event>) {
    while parts.iter().any(|part| !part.is_empty()) {
        let place = random.below(parts.len());
        let (next, later) = parts[place].split_at(random.within(1, 5).min(parts[place].len()));
        all.extend(next);
        parts[place] = later;
    }
}

#[test]
fn each_board_answers_as_its_own_rig() {
    let (mut met, mut boards) = (Met::default(), [0; 9]);
    for number in 0..GROUPS {
        let random = &mut Random::new(SEED, number);
        let config = small(random, [0, 2], [2, 4]);
        let (count, shared) = (random.within(2, 8), shared(random, &config));
        let lists: Vec<Alone> =
            (1..=count).map(|board| alone(random, &mut met, &config, board as u8, &shared)).collect();
        let (input, lines) = together(random, &config, &lists);
        if let Some(what) = differs(&printed(&input), &lines) {
            panic!("group {number} of seed {SEED}, {config:?}: {what}");
        }
        boards[count] += 1;
    }
    println!("{met:?} {boards:?}");
    assert!(boards[2..].iter().all(|groups| *groups >= 5), "{boards:?}");
    assert!(met.written >= 500 && met.read >= 500, "{met:?}");
    assert!([8, 9, 10, 13, 19, 22].iter().all(|number| met.refused[*number] >= 100), "{met:?}");
    assert!(met.restarted >= 200 && met.restart_of_none >= 200 && met.restart_of_up >= 200, "{met:?}");
}
