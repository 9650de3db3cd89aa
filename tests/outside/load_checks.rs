//! Checks of the model's load itself.

use crate::common::{Checks, tell};
use crate::load::{DEFAULT_SEED, Draw, draws, load, records};
use crate::model::{Answer, Phase, Rig};
use crate::programs::{PROGRAM, event};

/// All checks; the number that failed.
pub fn all() -> usize {
    tell("load", &[figures(), fields(), rest(), many_seeds(), program()].concat())
}

/// Code, party and position of the first records.
fn first(seed: u32, count: usize) -> Vec<(u8, u8, u8)> {
    let records = records(seed).expect("a seed other than 0").take(count);
    records.map(|[code, party, position, ..]| (code, party, position)).collect()
}

fn figures() -> Checks {
    let drawn = |seed: u32, count| draws(seed as Draw).take(count).collect::<Vec<_>>();
    vec![
        ("draws of seed 1", drawn(1, 4) == [270369, 67634689, 2647435461, 307599695]),
        ("draws of the default seed", drawn(DEFAULT_SEED, 3) == [723471715, 2497366906, 2064144800]),
        (
            "records of seed 1",
            first(1, 6) == [(5, 0, 0), (2, 2, 0), (4, 0, 1), (3, 0, 0), (5, 0, 0), (5, 0, 2)],
        ),
        (
            "records of the default seed",
            first(DEFAULT_SEED, 4) == [(1, 1, 0), (3, 0, 2), (3, 0, 1), (2, 2, 0)],
        ),
        (
            "a write's board byte and length",
            records(DEFAULT_SEED).is_ok_and(|mut made| made.next() == Some([1, 1, 0, 0, 160, 1, 0])),
        ),
        ("20", records(0).err() == Some(20)),
    ]
}

/// What a rig answers to so many records of a seed, with the number in flight before each, and the rig afterwards.
fn answers(seed: u32, count: usize) -> (Vec<(usize, Result<Answer, u8>)>, Rig) {
    let mut rig = Rig::make(PROGRAM, &[0]).unwrap();
    let mut answers = vec![];
    for record in records(seed).unwrap().take(count) {
        answers.push((rig.flight.len(), rig.event(event(&record, false))));
    }
    (answers, rig)
}

/// Fields that an event doesn't use are 0, and positions are those of messages in flight.
fn fields() -> Checks {
    let mut used = true;
    for seed in [1, 631, 1992, DEFAULT_SEED] {
        let (answers, _) = answers(seed, 700);
        for ([code, party, position, zero, byte, length, more], (in_flight, _)) in
            records(seed).unwrap().zip(answers)
        {
            let of_begin = (1..=2).contains(&party) && position == 0;
            let of_message = party == 0 && (position as usize) < in_flight.max(1);
            used &= (zero, more) == (0, 0);
            used &= match code {
                1 => of_begin && length == 1,
                2 => of_begin && (byte, length) == (0, 0),
                _ => (3..=5).contains(&code) && of_message && (byte, length) == (0, 0),
            };
        }
    }
    vec![("each field is one that the event uses, or 0", used)]
}

/// What so many records of a seed come to.
struct Came {
    /// The last record accepted.
    last: usize,
    /// Records that end an operation.
    ended: usize,
    /// Messages in flight at once, at most.
    most: usize,
    /// Nothing is in flight and no client is idle, so each further record is refused.
    at_rest: bool,
}

fn came_to(seed: u32, count: usize) -> Came {
    let (answers, rig) = answers(seed, count);
    let ended = answers.iter().filter(|(_, answer)| answer.as_ref().is_ok_and(|a| *a != Answer::Nothing));
    Came {
        last: answers.iter().rposition(|(_, answer)| answer.is_ok()).map_or(0, |at| at + 1),
        ended: ended.count(),
        most: answers.iter().map(|(in_flight, _)| *in_flight).max().unwrap(),
        at_rest: rig.flight.is_empty() && rig.on(1).clients.iter().all(|client| client.phase != Phase::Idle),
    }
}

fn rest() -> Checks {
    let rests = |seed, count, due| {
        let Came { last, at_rest, .. } = came_to(seed, count);
        last == due && at_rest
    };
    let (answers, _) = answers(1992, 700);
    let ended = answers.iter().enumerate().filter_map(|(at, (_, answer))| match answer {
        Ok(Answer::Nothing) | Err(_) => None,
        Ok(ended) => Some((at + 1, matches!(ended, Answer::Read(..)))),
    });
    vec![
        ("seed 1 rests after its record 120", rests(1, 700, 120)),
        ("the default seed after its record 91", rests(DEFAULT_SEED, 700, 91)),
        ("seed 1,728,895,314 after its record 1021", rests(1_728_895_314, 1100, 1021)),
        ("seed 1,889,012,322 has 40 in flight", came_to(1_889_012_322, 1100).most == 40),
        (
            "seed 1992 ends a read, a write and a read",
            ended.collect::<Vec<_>>() == [(41, true), (121, false), (177, true)],
        ),
    ]
}

fn many_seeds() -> Checks {
    let came: Vec<_> = (1..=2000).map(|seed| came_to(seed, 700)).collect();
    let last = came.iter().map(|came| came.last).max();
    let most = came.iter().map(|came| came.most).max();
    vec![
        ("seeds 1 to 2000 come to rest", came.iter().all(|came| came.at_rest)),
        ("the last of them after its record 643", last == Some(643)),
        ("1592 of them end no operation", came.iter().filter(|came| came.ended == 0).count() == 1592),
        ("at most 34 are in flight", most == Some(34)),
    ]
}

/// What the program makes and says.
pub fn made_and_said(input: &[u8]) -> (Vec<u8>, Vec<u8>) {
    let (mut made, mut said) = (vec![], vec![]);
    load(&mut &input[..], &mut made, &mut said).expect("records to memory");
    (made, said)
}

fn program() -> Checks {
    let only_says = |input: &[u8], due: &str| made_and_said(input) == (vec![], due.as_bytes().to_vec());
    let two = made_and_said(&[2, 0, 0, 0, 1, 0, 0, 0]);
    let of_default = [&[2, 0, 0, 0][..], &DEFAULT_SEED.to_le_bytes()].concat();
    vec![
        ("two records", two == (vec![5, 0, 0, 0, 0, 0, 0, 2, 2, 0, 0, 0, 0, 0], vec![])),
        ("what follows the seed isn't looked at", two == made_and_said(&[2, 0, 0, 0, 1, 0, 0, 0, 9, 9])),
        ("no seed", made_and_said(&[2, 0, 0, 0]) == made_and_said(&of_default)),
        ("no records", only_says(&[0, 0, 0, 0], "") && only_says(&[0, 0, 0, 0, 1, 0, 0, 0], "")),
        (
            "short of a count or a seed",
            [0, 1, 2, 3, 5, 6, 7].iter().all(|length| only_says(&[1; 8][..*length], "short\n")),
        ),
        (
            "20, whatever the count",
            [0, 1, 255].iter().all(|c| only_says(&[*c, *c, *c, *c, 0, 0, 0, 0], "no 20\n")),
        ),
    ]
}
