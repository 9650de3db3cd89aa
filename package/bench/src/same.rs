//! What both answer and send, compared step by step.

use crate::lists::{List, Step};
use crate::model::{self, Answer, Config};
use crate::sides::{Modelled, Party, Proved};
use coded_board::{Ended, Record, Refusal, Tag};

/// The record's 80 bytes, as docs/PROTOCOL.md has them.
pub fn record(r: &model::Record) -> Record {
    let mut bytes = [0; 80];
    bytes[..4].copy_from_slice(&[r.kind, r.client, r.server, u8::from(r.piece.is_some())]);
    bytes[4..8].copy_from_slice(&r.operation.to_le_bytes());
    bytes[8..12].copy_from_slice(&r.tag.number.to_le_bytes());
    bytes[12] = r.tag.client;
    if let Some(piece) = &r.piece {
        bytes[13..15].copy_from_slice(&piece.length.to_le_bytes());
        bytes[16..].copy_from_slice(&piece.element);
    }
    Record::from_bytes(&bytes).expect("80 bytes")
}

fn ended(answer: &Answer) -> Ended {
    let tag = |t: &model::Tag| Tag { number: t.number, client: t.client };
    match answer {
        Answer::Nothing => Ended::Nothing,
        Answer::Written(_, t) => Ended::Written(tag(t)),
        Answer::Spent(_) => Ended::Spent,
        Answer::Read(_, t, board) => Ended::Read(tag(t), board.bytes[..board.length].to_vec()),
    }
}

/// What a step gives: the records sent and how an operation ended, or a refusal's number.
type Given = Result<(Vec<Record>, Ended), u8>;

fn by_crate(parties: &mut Proved, step: &Step<Record>) -> Given {
    let begun = |sends: Result<Vec<Record>, Refusal>| sends.map(|sends| (sends, Ended::Nothing));
    let given = match step {
        Step::Server(s, r) => parties.servers[*s].step(r).map(|answer| (vec![answer], Ended::Nothing)),
        Step::Client(c, r) => parties.clients[*c].step(r).map(|step| (step.sends, step.ended)),
        Step::Write(c, board, length) => begun(parties.clients[*c].write(&board[..*length])),
        Step::Read(c) => begun(parties.clients[*c].read()),
    };
    given.map_err(Refusal::number)
}

fn by_model(parties: &mut Modelled, step: &Step<model::Record>) -> Given {
    match step {
        Step::Server(s, r) => {
            let answer = parties.rig.parties[0].servers[*s].step(&parties.rig.config, r);
            Ok((vec![record(&answer)], Ended::Nothing))
        }
        Step::Client(c, r) if !parties.rig.parties[0].clients[*c].awaits(r) => Err(14),
        _ => {
            let answer = parties.client(step);
            Ok((parties.rig.flight.iter().map(|message| record(&message.record)).collect(), ended(&answer)))
        }
    }
}

/// Says the first step at which the two differ.
pub fn compare(config: &Config, modelled: &List<model::Record>, proved: &List<Record>) -> Result<(), String> {
    let mut model = Modelled::fresh(config, &modelled.start);
    let mut parties = Proved::fresh(config, &proved.start);
    for (place, (a, b)) in modelled.steps.iter().zip(&proved.steps).enumerate() {
        let (due, given) = (by_model(&mut model, a), by_crate(&mut parties, b));
        if due != given {
            return Err(format!("at step {place} the model gives {due:?} and coded_board {given:?}"));
        }
    }
    Ok(())
}
