//! The record of a host: a line an event, in the order of their instants. `begin CLIENT write HEX`, `begin CLIENT read`,
//! `end CLIENT written NUMBER TAGCLIENT`, `end CLIENT spent`, `end CLIENT read NUMBER TAGCLIENT HEX`. A begin of a
//! client whose last operation has no end leaves that one unended.

use crate::hex;
use crate::history::{Board, Call, History, Outcome, Tag, START};
use crate::quote::quoted;

/// Clients are numbered from 1 to this.
const MOST_CLIENTS: u32 = 16;

/// The history of a record. Where no starting board is given, it is what the first read with tag 0 0 shows.
pub fn history(record: &str, start: Option<Board>, ranks: Vec<u8>) -> Result<History, String> {
    let mut history = History { ranks, ..History::default() };
    let mut count = 0;
    for (place, line) in record.lines().enumerate() {
        let told = |why: String| format!("line {} of the record, {}: {why}", place + 1, quoted(line));
        note(&mut history, place + 1, line).map_err(told)?;
        count += 1;
    }
    history.start = start.or_else(|| started(&history));
    history.about = format!("the record of a host; {count} events");
    Ok(history)
}

fn started(history: &History) -> Option<Board> {
    history.operations.iter().find(|operation| operation.tag() == Some(START))?.board().cloned()
}

fn note(history: &mut History, time: usize, line: &str) -> Result<(), String> {
    let words: Vec<&str> = line.split(' ').collect();
    match words[..] {
        ["begin", client, "write", board] => {
            history.begin(time, client_of(client)?, Call::Write(board_of(board)?));
            Ok(())
        }
        ["begin", client, "read"] => {
            history.begin(time, client_of(client)?, Call::Read);
            Ok(())
        }
        ["end", client, "written", number, tag_client] => {
            history.end(time, client_of(client)?, Outcome::Written(tag_of(number, tag_client)?))
        }
        ["end", client, "spent"] => history.end(time, client_of(client)?, Outcome::Spent),
        ["end", client, "read", number, tag_client, board] => {
            let (tag, board) = (tag_of(number, tag_client)?, board_of(board)?);
            history.end(time, client_of(client)?, Outcome::Read(tag, board))
        }
        _ => Err("neither a begin nor an end".to_string()),
    }
}

fn client_of(word: &str) -> Result<u8, String> {
    let client = hex::number(word).filter(|client| (1..=MOST_CLIENTS).contains(client));
    client.map(|client| client as u8).ok_or_else(|| format!("no client has number {}", quoted(word)))
}

fn board_of(word: &str) -> Result<Board, String> {
    hex::board(word).ok_or_else(|| format!("{} is no board", quoted(word)))
}

/// The starting tag is 0 0; no other tag has a 0 in either part.
fn tag_of(number: &str, client: &str) -> Result<Tag, String> {
    let tag = match (hex::number(number), hex::number(client)) {
        (Some(0), Some(0)) => Some(START),
        (Some(number @ 1..), Some(client @ 1..=MOST_CLIENTS)) => Some(Tag { number, client: client as u8 }),
        _ => None,
    };
    tag.ok_or_else(|| format!("{} is no tag", quoted(&format!("{number} {client}"))))
}

#[cfg(test)]
mod tests {
    use super::*;
    use crate::history::End;

    #[test]
    fn a_record_of_all_lines() {
        let record = "begin 1 read\nbegin 2 write ab\nend 1 read 0 0 00ff\nend 2 written 1 2\n\
                      begin 1 write -\nend 1 spent\n";
        let history = history(record, None, vec![0, 3]).unwrap();
        assert_eq!(history.start, Some(vec![0, 255]));
        let ends: Vec<Option<End>> = history.operations.iter().map(|o| o.end.clone()).collect();
        let end = |time, outcome| Some(End { time, outcome });
        let tag = Tag { number: 1, client: 2 };
        let due = [
            end(3, Outcome::Read(START, vec![0, 255])),
            end(4, Outcome::Written(tag)),
            end(6, Outcome::Spent),
        ];
        assert_eq!(ends, due);
        assert_eq!(history.operations[2].board(), Some(&vec![]));
        assert_eq!((history.rank(1), history.rank(2)), (0, 3));
    }

    #[test]
    fn the_starting_board_is_the_one_given() {
        let record = "begin 1 read\nend 1 read 0 0 00\n";
        assert_eq!(history(record, Some(vec![5]), vec![]).unwrap().start, Some(vec![5]));
        assert_eq!(history("begin 1 read\n", None, vec![]).unwrap().start, None);
        assert!(history("", None, vec![]).unwrap().operations.is_empty());
    }

    #[test]
    fn bad_lines_are_told() {
        let lines = [
            "",
            "begin",
            "begin 0 read",
            "begin 17 read",
            "begin x read",
            "begin 1  read",
            "begin 1 read ",
            "begin 1 write",
            "begin 1 write abc",
            "begin 1 write zz",
            "end 1 spent",
            "begin 1 read\nend 1 written 1 1",
            "begin 1 read\nend 1 read 0 1 00",
            "begin 1 read\nend 1 read 4294967296 1 00",
            "begin 1 read\nend 1 read 1 1",
            "begin 1 write ab\nend 1 written 1 2",
            "begin 1 write ab\nend 1 written 0 0",
            "crash 1",
        ];
        for line in lines {
            let said = history(&(line.to_string() + "\n"), None, vec![]).err().unwrap();
            assert!(said.starts_with("line "), "{line}: {said}");
        }
    }
}
