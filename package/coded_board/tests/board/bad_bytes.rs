//! Whatever bytes a call is handed, it answers the number that the documents say, and touches nothing where
//! that is not 0.

use crate::call::{Call, Done, Which};
use crate::code::with_elements;
use crate::oracle::{number, Numbers};
use crate::random::{config, Random};
use crate::samples::{samples, small};
use coded_board::{Client, Config, Record, Server};
use std::collections::BTreeSet;

const SEED: u64 = 88_056;

/// How often each number was answered.
type Answered = [usize; 22];

/// Runs a call; its number must be the one due, and a state that an accepted call leaves must pass.
fn check(call: &Call, answered: &mut Answered) -> Done {
    let done = call.run();
    assert_eq!(done.no, number(call), "{call:?}");
    answered[usize::from(done.no)] += 1;
    if done.no == 0 {
        accepted(call, &done);
    }
    done
}

/// What an accepted call leaves: states that pass, and records that are well formed and in their place.
fn accepted(call: &Call, done: &Done) {
    let cfg = Numbers::of(&call.parts[0]).expect("an accepted configuration");
    match call.which {
        Which::Lengths => {
            assert_eq!(done.sizes, [cfg.v(), (cfg.d + 1) * cfg.e, cfg.n * cfg.e, 80 * cfg.n]);
        }
        Which::ServerFresh => assert!(cfg.is_server(&done.parts[2]), "{call:?}"),
        Which::ServerStep => {
            let (message, answer) = (&call.parts[2], &done.parts[4]);
            assert!(cfg.is_server(&done.parts[1]) && cfg.is_record(answer), "{call:?}");
            assert!(answer[0] == message[0] + 1 || answer[0] == 9 && message[0] == 7, "{call:?}");
            assert!(answer[1..3] == message[1..3] && answer[4..8] == message[4..8], "{call:?}");
        }
        Which::ServerElement => assert!(done.sizes[0] <= call.parts[2].len(), "{call:?}"),
        Which::ClientFresh => assert!(cfg.is_client(&done.parts[1]), "{call:?}"),
        Which::ClientWrite | Which::ClientRead => {
            assert!(cfg.is_client(&done.parts[1]), "{call:?}");
            sent_to_all(&cfg, call, &done.parts[1], &done.parts[done.parts.len() - 1]);
        }
        Which::ClientStep => client_stepped(&cfg, call, done),
        Which::EncodeAll => {
            let config = Config::from_bytes(&call.parts[0]).expect("an accepted configuration");
            let due = with_elements(&config, &call.parts[1], call.places, &call.parts[2]);
            assert!(done.parts[2] == due, "{call:?}: {:?}", done.parts[2]);
        }
        Which::Encode | Which::Decode => {}
    }
}

/// Where nothing is sent the sends are as they were, and where nothing is read the lent board is.
fn client_stepped(cfg: &Numbers, call: &Call, done: &Done) {
    let (before, after) = (&call.parts, &done.parts);
    let outcome = &after[7];
    let (how, sent) = (outcome[0], usize::from(outcome[1]));
    let length = usize::from(u16::from_le_bytes([outcome[2], outcome[3]]));
    assert!(cfg.is_client(&after[1]), "{call:?}");
    assert!(how <= 3 && (sent == 0 || how == 0 && sent == cfg.n), "{call:?}: {outcome:?}");
    if sent > 0 {
        sent_to_all(cfg, call, &after[1], &after[5]);
    } else {
        assert!(after[5] == before[5], "{call:?}");
    }
    assert!(how == 3 || after[6] == before[6], "{call:?}");
    assert!(how != 3 || after[6][length..].iter().all(|byte| *byte == 0), "{call:?}");
    assert!(how == 3 || length == 0, "{call:?}: {outcome:?}");
    assert!(how % 2 == 1 || outcome[4..9] == [0; 5], "{call:?}: {outcome:?}");
    assert!(outcome[9..] == [0; 3], "{call:?}: {outcome:?}");
}

/// A well-formed record to each server, in order, from this client and under its operation number.
fn sent_to_all(cfg: &Numbers, call: &Call, state: &[u8], sends: &[u8]) {
    for (s, record) in (1..).zip(sends.chunks(80)) {
        assert!(cfg.is_record(record) && matches!(record[0], 1 | 3 | 5 | 7), "{call:?}: {record:?}");
        assert!(record[1..3] == [state[0], s] && record[4..8] == state[4..8], "{call:?}: {record:?}");
    }
}

/// Offsets whose content a call may look at: all, or, of long buffers whose bytes are free, a few.
fn offsets(random: &mut Random, call: &Call, part: usize) -> Vec<usize> {
    let length = call.parts[part].len();
    let told = matches!(length, 12 | 21 | 56 | 80 | 88) || call.which == Which::Decode && part == 1;
    if told || length < 4 {
        return (0..length).collect();
    }
    (0..4).map(|_| random.below(length)).collect()
}

/// Every byte of configuration, state, message and server numbers, with each of its bits turned, and more.
#[test]
fn every_byte_another() {
    let (random, mut answered) = (&mut Random::new(SEED, 1), [0; 22]);
    for _ in 0..24 {
        let config = small(random);
        for call in samples(random, &config, 4) {
            check(&call, &mut answered);
            for part in 0..call.parts.len() {
                for at in offsets(random, &call, part) {
                    let any = random.byte();
                    for turn in [1, 2, 4, 8, 16, 32, 64, 128, 255, any] {
                        let mut other = call.clone();
                        other.parts[part][at] ^= turn;
                        check(&other, &mut answered);
                    }
                }
            }
        }
    }
    met(&answered, &[0, 1, 2, 3, 4, 5, 6, 9, 10, 12, 14, 17, 21]);
}

/// Every buffer with every length up to a bit past its own, 0 too.
#[test]
fn every_length() {
    let (random, mut answered) = (&mut Random::new(SEED, 2), [0; 22]);
    for round in 0..12 {
        let config = if round == 0 { config(random) } else { small(random) };
        for call in samples(random, &config, 2) {
            for part in 0..call.parts.len() {
                for length in 0..call.parts[part].len() + 4 {
                    let mut other = call.clone();
                    let last = random.byte();
                    other.parts[part].resize(length, last);
                    let done = check(&other, &mut answered);
                    let free = other.which == Which::Decode && matches!(part, 1 | 2);
                    assert!(free || length == call.parts[part].len() || done.no == 6, "{other:?}");
                }
            }
        }
    }
    met(&answered, &[0, 6]);
}

/// Any party, number and length.
#[test]
fn every_party() {
    let (random, mut answered) = (&mut Random::new(SEED, 3), [0; 22]);
    for _ in 0..20 {
        let config = config(random);
        for call in samples(random, &config, 4) {
            for party in 0..=255 {
                let any = random.below(1 << 32) as u32;
                let number =
                    random.pick(&[0, 1, call.number, config.board_length() as u32 + 1, 65535, u32::MAX, any]);
                check(&Call { party, number, ..call.clone() }, &mut answered);
            }
        }
    }
    met(&answered, &[0, 8, 18, 19]);
}

/// Every offset and distance near those of a call, in its buffer and in one of N such distances.
#[test]
fn every_offset_and_distance() {
    let (random, mut answered) = (&mut Random::new(SEED, 8), [0; 22]);
    for _ in 0..40 {
        let config = config(random);
        let (n, e) = (usize::from(config.n()), usize::from(config.e()));
        for call in samples(random, &config, 2).iter().filter(|call| call.which == Which::EncodeAll) {
            let [offset, distance] = call.places;
            for distance in distance.saturating_sub(5)..distance + 5 {
                let mut fits = call.clone();
                fits.parts[2] = random.bytes(n * distance);
                for offset in (0..offset + 5).chain([distance]) {
                    let places = [offset, distance];
                    check(&Call { places, ..call.clone() }, &mut answered);
                    let done = check(&Call { places, ..fits.clone() }, &mut answered);
                    assert_eq!(done.no == 0, offset + e <= distance, "{places:?} {config:?}");
                }
            }
        }
    }
    met(&answered, &[0, 6]);
}

/// Offsets and distances of which the sum with E, or the product with N, is past the largest number; some come
/// round to a sum that fits, or to the buffer's length.
#[test]
fn offsets_and_distances_past_the_largest() {
    let (random, mut answered) = (&mut Random::new(SEED, 9), [0; 22]);
    for _ in 0..40 {
        let config = config(random);
        let (n, e) = (usize::from(config.n()), usize::from(config.e()));
        for call in samples(random, &config, 4).iter().filter(|call| call.which == Which::EncodeAll) {
            let [offset, distance] = call.places;
            let round = (usize::MAX / n).wrapping_add(1 + distance);
            let offsets = [0, offset, usize::MAX - e, usize::MAX - e + 1, usize::MAX];
            let distances = [distance, round, distance + (1 << 63), usize::MAX - distance, usize::MAX];
            for places in offsets.into_iter().flat_map(|offset| distances.map(|distance| [offset, distance]))
            {
                let done = check(&Call { places, ..call.clone() }, &mut answered);
                let same = places[0] <= offset && places[1] == distance;
                assert!(same || done.no == 6, "{places:?} {config:?}");
            }
        }
    }
    met(&answered, &[0, 6]);
}

/// Several bytes at once: any at all, small ones, or those of another call's buffer; and any party and
/// number. Each call gives the numbers that the header lists at it, and no other.
#[test]
fn many_bytes_others() {
    let (random, mut answered) = (&mut Random::new(SEED, 4), [0; 22]);
    let mut given = BTreeSet::new();
    for _ in 0..60 {
        let config = config(random);
        let calls = samples(random, &config, 6);
        for call in &calls {
            for _ in 0..40 {
                let other = another(random, call, &calls);
                given.insert((call.which.name(), check(&other, &mut answered).no));
            }
        }
    }
    assert_eq!(given, listed());
    met(&answered, &[0, 1, 2, 3, 4, 5, 6, 8, 9, 10, 11, 12, 14, 17, 18, 19, 21]);
}

/// The numbers that the header lists at each call, and 0.
fn listed() -> BTreeSet<(&'static str, u8)> {
    let header = include_str!("../../../coded_board.h");
    let mut all = BTreeSet::new();
    for part in header.split("// Numbers: ").skip(1) {
        let (numbers, after) = part.split_once(".\nuint8_t ").expect("a call after its numbers");
        let name = after.split('(').next().expect("a name");
        let numbers = numbers.split(", ").map(|number| number.parse().expect("a number"));
        all.extend(numbers.chain([0]).map(|number| (name, number)));
    }
    all
}

/// The call with something else in it.
fn another(random: &mut Random, call: &Call, calls: &[Call]) -> Call {
    let mut other = call.clone();
    match random.below(8) {
        0 => {
            other.party = random.pick(&[0, 1, 17, 255]);
            other.number = random.pick(&[0, 1, 1025, 65535, u32::MAX]);
        }
        // Another offset, another distance, or both.
        1 if other.which == Which::EncodeAll => {
            let any = [random.below(100), random.below(100)];
            let at = random.below(2);
            other.places[at] = random.pick(&[0, 1, any[0], usize::MAX]);
            other.places = random.pick(&[other.places, any]);
        }
        // A last operation number, in a client's state.
        1 if other.parts.get(1).is_some_and(|part| part.len() == 56) => other.parts[1][4..8].fill(255),
        // So many elements less.
        1 if other.which == Which::Decode => {
            let (left, e) = (random.within(0, other.parts[1].len()), usize::from(other.parts[0][3]));
            other.parts[1].truncate(left);
            other.parts[2].truncate(left * e);
        }
        _ => {
            let part = random.below(other.parts.len());
            spoil(random, &mut other.parts[part], calls);
        }
    }
    other
}

fn spoil(random: &mut Random, part: &mut Vec<u8>, calls: &[Call]) {
    let length = part.len();
    match random.below(5) {
        0 => *part = random.bytes(length),
        1 => part.iter_mut().for_each(|byte| *byte = random.below(4) as u8),
        2 => {
            let other = &calls[random.below(calls.len())];
            *part = other.parts[random.below(other.parts.len())].clone();
        }
        3 if length > 0 => {
            let (from, to) = (random.below(length), random.below(length));
            part.swap(from, to);
        }
        _ => {
            for _ in 0..random.within(1, 4).min(length) {
                part[random.below(length)] = random.pick(&[0, 0, 1, 2, 3, 4, 5, 255]);
            }
        }
    }
}

/// Another state or message of the same run, so that all that each phase awaits meets all that comes.
#[test]
fn states_and_messages_mixed() {
    let (random, mut answered) = (&mut Random::new(SEED, 5), [0; 22]);
    for _ in 0..25 {
        let config = config(random);
        let calls = samples(random, &config, 30);
        let steps = |which| calls.iter().filter(move |call| call.which == which);
        for which in [Which::ServerStep, Which::ClientStep] {
            for state in steps(which) {
                for message in steps(Which::ServerStep).chain(steps(Which::ClientStep)) {
                    let mut other = state.clone();
                    other.parts[2] = message.parts[2].clone();
                    check(&other, &mut answered);
                }
            }
        }
    }
    met(&answered, &[0, 12, 14, 16]);
}

/// The same through the crate: refused or not, nothing panics, and a party that is made goes on.
#[test]
fn any_bytes_through_the_crate() {
    let (random, mut made) = (&mut Random::new(SEED, 6), 0);
    for _ in 0..40 {
        let config = config(random);
        let calls = samples(random, &config, 6);
        for call in &calls {
            let mut parts = call.parts.clone();
            let part = random.below(parts.len());
            spoil(random, &mut parts[part], &calls);
            let config = Config::from_bytes(&parts[0]).unwrap_or(config.clone());
            let others =
                calls.iter().filter(|call| matches!(call.which, Which::ServerStep | Which::ClientStep));
            let message = others.flat_map(|call| Record::from_bytes(&call.parts[2])).nth(random.below(12));
            made += match call.which {
                Which::ServerStep => server_goes_on(&config, &parts, message),
                Which::ClientStep => client_goes_on(&config, &parts, message),
                _ => 0,
            };
        }
    }
    assert!(made > 200, "{made} parties made");
}

fn server_goes_on(config: &Config, parts: &[Vec<u8>], message: Option<Record>) -> usize {
    let Ok(mut server) = Server::from_parts(config, &parts[1], &parts[3]) else { return 0 };
    for record in Record::from_bytes(&parts[2]).into_iter().chain(message) {
        _ = (server.step(&record), server.element(record.tag()).map(<[u8]>::len));
    }
    1
}

fn client_goes_on(config: &Config, parts: &[Vec<u8>], message: Option<Record>) -> usize {
    let Ok(mut client) = Client::from_parts(config, &parts[1], &parts[3], &parts[4]) else { return 0 };
    for record in Record::from_bytes(&parts[2]).into_iter().chain(message) {
        _ = (client.step(&record), client.write(&parts[6]), client.read());
    }
    1
}

/// The calls that all this begins with have every phase, servers with a floor and without, and answers that
/// are awaited.
#[test]
fn samples_have_everything() {
    let random = &mut Random::new(SEED, 7);
    let (mut phases, mut floors, mut taken) = ([0; 6], [0; 2], [0; 6]);
    for _ in 0..40 {
        let config = small(random);
        for call in samples(random, &config, 10) {
            let told = |at: usize| usize::from(call.parts[1][at]);
            match call.which {
                Which::ServerStep => floors[told(2)] += 1,
                Which::ClientStep => {
                    phases[told(1)] += 1;
                    taken[told(1)] += usize::from(number(&call) == 0);
                }
                _ => {}
            }
        }
    }
    let all = [&phases[..], &floors, &taken[1..5]].concat();
    assert!(all.iter().all(|count| *count >= 10), "{phases:?} {floors:?} {taken:?}");
}

/// Each of these numbers was answered often.
fn met(answered: &Answered, numbers: &[usize]) {
    println!("{answered:?}");
    for number in numbers {
        assert!(answered[*number] >= 50, "{number}: {answered:?}");
    }
}
