//! The history: what operations begin and how they end, one line an event, fields separated by one blank.
//!
//! ```text
//! begin CLIENT write HEX
//! begin CLIENT read
//! end CLIENT written NUMBER TAGCLIENT
//! end CLIENT spent
//! end CLIENT read NUMBER TAGCLIENT HEX
//! ```
//!
//! CLIENT is the number of the client whose operation it is; NUMBER and TAGCLIENT are the tag; HEX is a
//! board, two lower-case digits a byte, `-` if its length is 0. Several processes append to one file, each
//! line by one write, so the order of lines is that of instants. A begin's line is there before anything is
//! kept or sent, an end's once the end is kept. An operation has one begin and at most one end, whichever
//! processes worked on it. A begin of a client whose last operation has no end leaves that one unended. A
//! history is whole if every call of every client names it.

use crate::disk::said;
use crate::text::{bytes, digits};
use crate::Result;
use coded_board::{Ended, Tag};
use std::fs::{self, OpenOptions};
use std::io::Write;
use std::path::{Path, PathBuf};

/// A line of the history.
#[derive(Clone, Debug, PartialEq, Eq)]
pub enum Event {
    /// A write of these bytes begins.
    Write(u8, Vec<u8>),
    /// A read begins.
    Read(u8),
    /// The client's operation ends.
    End(u8, Ended),
}

impl Event {
    /// The client whose operation it is.
    pub fn client(&self) -> u8 {
        match self {
            Event::Write(client, _) | Event::Read(client) | Event::End(client, _) => *client,
        }
    }

    /// Its line; an operation that has not ended has none.
    pub fn line(&self) -> Option<String> {
        match self {
            Event::Write(client, board) => Some(format!("begin {client} write {}", digits(board))),
            Event::Read(client) => Some(format!("begin {client} read")),
            Event::End(_, Ended::Nothing) => None,
            Event::End(client, Ended::Written(Tag { number, client: by })) => {
                Some(format!("end {client} written {number} {by}"))
            }
            Event::End(client, Ended::Spent) => Some(format!("end {client} spent")),
            Event::End(client, Ended::Read(Tag { number, client: by }, board)) => {
                Some(format!("end {client} read {number} {by} {}", digits(board)))
            }
        }
    }

    /// From its line.
    pub fn read(line: &str) -> Result<Event> {
        let number = |word: &str| word.parse::<u8>().map_err(|_| format!("no client: {line}"));
        let tag = |word: &str, client: &str| {
            let count = word.parse().map_err(|_| format!("no tag: {line}"))?;
            Ok::<Tag, String>(Tag { number: count, client: number(client)? })
        };
        match line.split(' ').collect::<Vec<&str>>()[..] {
            ["begin", client, "write", board] => Ok(Event::Write(number(client)?, bytes(board)?)),
            ["begin", client, "read"] => Ok(Event::Read(number(client)?)),
            ["end", client, "written", count, by] => {
                Ok(Event::End(number(client)?, Ended::Written(tag(count, by)?)))
            }
            ["end", client, "spent"] => Ok(Event::End(number(client)?, Ended::Spent)),
            ["end", client, "read", count, by, board] => {
                Ok(Event::End(number(client)?, Ended::Read(tag(count, by)?, bytes(board)?)))
            }
            _ => Err(format!("not a line of a history: {line}")),
        }
    }
}

/// A history's file, or nothing where none is kept.
pub struct History(Option<PathBuf>);

impl History {
    /// The file need not be there yet.
    pub fn new(path: Option<&Path>) -> History {
        History(path.map(Path::to_path_buf))
    }

    /// Appends an event.
    pub fn add(&self, event: &Event) -> Result<()> {
        let (Some(path), Some(line)) = (&self.0, event.line()) else { return Ok(()) };
        let file = OpenOptions::new().create(true).append(true).open(path);
        file.and_then(|mut file| file.write_all(format!("{line}\n").as_bytes())).map_err(said(path))
    }

    /// Whether the client's last line is a begin.
    pub fn is_open(&self, client: u8) -> Result<bool> {
        let Some(path) = self.0.as_ref().filter(|path| path.exists()) else { return Ok(false) };
        let text = fs::read_to_string(path).map_err(said(path))?;
        // Another client's line may be half there; the client's own are whole.
        let events = events(text.rfind('\n').map_or("", |end| &text[..end]))?;
        let last = events.iter().rfind(|event| event.client() == client);
        Ok(last.is_some_and(|event| !matches!(event, Event::End(..))))
    }
}

/// The events of a history's text.
pub fn events(text: &str) -> Result<Vec<Event>> {
    text.lines().map(Event::read).collect()
}

/// A read that ended, or a write that ended or did not.
#[derive(Clone, Debug, PartialEq, Eq)]
pub struct Operation {
    /// The client whose it is.
    pub client: u8,
    /// Whether it is a write.
    pub write: bool,
    /// What is written, or what the read shows.
    pub board: Vec<u8>,
    /// The line of its begin.
    pub begin: usize,
    /// That of its end.
    pub end: Option<usize>,
    /// Its tag, if it ended.
    pub tag: Option<Tag>,
}

/// The operations of a history, by their begins. Spent ones and reads that don't end are left out.
pub fn operations(events: &[Event]) -> Result<Vec<Operation>> {
    let mut all: Vec<Operation> = vec![];
    for (place, event) in events.iter().enumerate() {
        match event {
            Event::Write(client, board) => all.push(begun(*client, Some(board), place)),
            Event::Read(client) => all.push(begun(*client, None, place)),
            Event::End(client, ended) => {
                let last = all.iter().rposition(|operation| operation.client == *client);
                let operation = last.filter(|last| all[*last].end.is_none()).map(|last| &mut all[last]);
                let operation = operation.ok_or_else(|| format!("line {}: nothing was begun", place + 1))?;
                end(operation, ended, place)?;
            }
        }
    }
    all.retain(|operation| operation.tag.is_some() || operation.write && operation.end.is_none());
    Ok(all)
}

fn begun(client: u8, board: Option<&Vec<u8>>, begin: usize) -> Operation {
    let (write, board) = (board.is_some(), board.cloned().unwrap_or_default());
    Operation { client, write, board, begin, end: None, tag: None }
}

fn end(operation: &mut Operation, ended: &Ended, place: usize) -> Result<()> {
    operation.end = Some(place);
    match (ended, operation.write) {
        (Ended::Written(tag), true) => operation.tag = Some(*tag),
        (Ended::Read(tag, board), false) => (operation.tag, operation.board) = (Some(*tag), board.clone()),
        (Ended::Spent, _) => {}
        _ => return Err(format!("line {}: not the operation that was begun", place + 1)),
    }
    Ok(())
}

#[cfg(test)]
mod tests {
    use super::*;

    const LINES: &str =
        "begin 1 write 6869\nbegin 2 read\nend 1 written 1 1\nend 2 read 0 0 -\nbegin 1 write -\n\
                         begin 2 read\nbegin 3 read\nend 3 spent\nbegin 2 write 00\nend 2 spent\n";

    #[test]
    fn lines_are_events() {
        let events = events(LINES).unwrap();
        let lines: String = events.iter().flat_map(Event::line).map(|line| line + "\n").collect();
        assert_eq!(lines, LINES);
        for wrong in [
            "",
            "begin 1",
            "begin 1  read",
            "begin 300 read",
            "end 1 written 1",
            "end 1 read 1 1 0",
            "begin 1 read ",
        ] {
            assert!(Event::read(wrong).is_err(), "{wrong}");
        }
    }

    #[test]
    fn events_are_operations() {
        let operations = operations(&events(LINES).unwrap()).unwrap();
        let seen: Vec<_> = operations.iter().map(|o| (o.client, o.write, o.begin, o.end)).collect();
        assert_eq!(seen, [(1, true, 0, Some(2)), (2, false, 1, Some(3)), (1, true, 4, None)]);
        for wrong in
            ["end 1 spent", "begin 1 read\nend 1 written 1 1", "begin 1 read\nend 1 spent\nend 1 spent"]
        {
            assert!(super::operations(&events(wrong).unwrap()).is_err(), "{wrong}");
        }
    }
}
