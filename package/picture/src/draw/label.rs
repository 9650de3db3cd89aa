//! What an operation's bar and box say.

use super::look::{code_width, tag_width};
use crate::hex::digits;
use crate::history::{Board, Call, Operation, Outcome, Tag};

/// Bytes of a board that a label shows.
const SHOWN: usize = 8;

/// A board in hexadecimal digits, shortened.
pub fn board(board: &Board) -> String {
    match board.len() {
        0 => "empty".to_string(),
        1..=SHOWN => digits(board),
        _ => digits(&board[..SHOWN]) + "…",
    }
}

fn tag(tag: Tag) -> String {
    format!("{} {}", tag.number, tag.client)
}

/// What an operation is, and a note after it.
pub struct Label {
    pub code: String,
    pub note: Option<String>,
}

impl Label {
    pub fn new(operation: &Operation) -> Label {
        let code = match (&operation.call, operation.outcome()) {
            (Call::Write(written), _) => format!("write {}", board(written)),
            (Call::Read, Some(Outcome::Read(t, shown))) => format!("read {} {}", tag(*t), board(shown)),
            (Call::Read, _) => "read".to_string(),
        };
        let note = match operation.outcome() {
            Some(Outcome::Written(t)) => Some(format!("tag {}", tag(*t))),
            Some(Outcome::Spent) => Some("spent".to_string()),
            Some(Outcome::Read(..)) => None,
            None => Some("unended".to_string()),
        };
        Label { code, note }
    }

    pub fn width(&self) -> i64 {
        code_width(&self.code) + self.note.as_ref().map_or(0, |note| 6 + tag_width(note))
    }
}

/// All of an operation, in words.
pub fn words(operation: &Operation, place: Option<usize>) -> String {
    let call = match &operation.call {
        Call::Write(written) => format!("write {}", whole(written)),
        Call::Read => "read".to_string(),
    };
    let end = match &operation.end {
        Some(end) => format!("{} ended at event {}", outcome(&end.outcome), end.time),
        None => " unended".to_string(),
    };
    let place = place.map_or(String::new(), |place| format!("; number {place} of the order"));
    format!("client {}: {call} begun at event {},{end}{place}", operation.client, operation.begin)
}

fn outcome(outcome: &Outcome) -> String {
    match outcome {
        Outcome::Written(t) => format!(" written with tag {}", tag(*t)),
        Outcome::Spent => " spent".to_string(),
        Outcome::Read(t, shown) => format!(" read with tag {} {}", tag(*t), whole(shown)),
    }
}

fn whole(board: &Board) -> String {
    if board.is_empty() {
        "empty".to_string()
    } else {
        digits(board)
    }
}

#[cfg(test)]
mod tests {
    use super::*;
    use crate::host;

    #[test]
    fn labels_are_short_and_words_are_not() {
        let record =
            "begin 1 write 00112233445566778899\nend 1 written 1 1\nbegin 1 write 0011223344556677\n\
                      begin 2 read\nend 2 read 12 1 -\nbegin 3 write ab\nend 3 spent\nbegin 3 read\n";
        let operations = host::history(record, None, vec![]).unwrap().operations;
        let said = |operation: &Operation| {
            let label = Label::new(operation);
            label.note.iter().fold(label.code, |code, note| format!("{code}, {note}"))
        };
        let said: Vec<String> = operations.iter().map(said).collect();
        let due = [
            "write 0011223344556677…, tag 1 1",
            "write 0011223344556677, unended",
            "read 12 1 empty",
            "write ab, spent",
            "read, unended",
        ];
        assert_eq!(said, due);
        let whole =
            "client 1: write 00112233445566778899 begun at event 1, written with tag 1 1 ended at event 2; \
                     number 4 of the order";
        assert_eq!(words(&operations[0], Some(4)), whole);
    }
}
