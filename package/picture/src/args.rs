//! The words of a call, and the files that they name.

use crate::hex;
use crate::history::Board;
use crate::quote::quoted;
use std::ffi::OsString;
use std::path::{Path, PathBuf};

pub const USAGE: &str = "\
picture board EVENTS LINES       events of the program board, and the lines that it printed
picture simulate EVENTS LINES    the same of the program simulate
  --board NUMBER                 with simulate: the board to draw, 1 if none is given
picture host RECORD              the record of a host
  --start HEX                    with host: the starting board, `-` if it is empty
  --ranks RANK,RANK,..           with host: the ranks of clients 1, 2 and so on, 0 to 3
  --title TEXT                   what stands above the picture
The picture goes to standard output. The status is 1 where no order fits or there is no picture.
";

/// Where a history comes from.
#[derive(Debug, PartialEq)]
pub enum Source {
    Board { events: PathBuf, lines: PathBuf },
    Simulate { events: PathBuf, lines: PathBuf, board: u8 },
    Host { record: PathBuf, start: Option<Board>, ranks: Vec<u8> },
}

#[derive(Debug, PartialEq)]
pub struct Draw {
    pub source: Source,
    pub title: Option<String>,
}

#[derive(Debug, PartialEq)]
pub enum Call {
    Help,
    Draw(Draw),
}

/// The options of a call.
#[derive(Default)]
struct Options {
    board: Option<u8>,
    start: Option<Board>,
    ranks: Option<Vec<u8>>,
    title: Option<String>,
}

pub fn parse(words: Vec<OsString>) -> Result<Call, String> {
    let (mut plain, mut options) = (vec![], Options::default());
    let mut words = words.into_iter();
    while let Some(word) = words.next() {
        match word.to_str() {
            Some("--help" | "-h") => return Ok(Call::Help),
            Some(name) if name.starts_with("--") => options.set(name, words.next())?,
            _ => plain.push(word),
        }
    }
    let title = options.title.take();
    Ok(Call::Draw(Draw { source: source(plain, options)?, title }))
}

fn source(plain: Vec<OsString>, options: Options) -> Result<Source, String> {
    let mut words = plain.into_iter();
    let kind = words.next();
    let kind = kind.as_ref().and_then(|word| word.to_str());
    let files: Vec<PathBuf> = words.map(PathBuf::from).collect();
    let of_host = options.start.is_some() || options.ranks.is_some();
    match (kind, <[PathBuf; 2]>::try_from(files)) {
        (Some("board" | "simulate"), _) if of_host => Err("--start and --ranks go with host".to_string()),
        (Some("board" | "host"), _) if options.board.is_some() => {
            Err("--board goes with simulate".to_string())
        }
        (Some("board"), Ok([events, lines])) => Ok(Source::Board { events, lines }),
        (Some("simulate"), Ok([events, lines])) => {
            Ok(Source::Simulate { events, lines, board: options.board.unwrap_or(1) })
        }
        (Some("host"), Err(mut files)) if files.len() == 1 => {
            let (record, start) = (files.remove(0), options.start);
            Ok(Source::Host { record, start, ranks: options.ranks.unwrap_or_default() })
        }
        _ => Err(format!("not a call of this program\n{USAGE}")),
    }
}

impl Options {
    fn set(&mut self, name: &str, value: Option<OsString>) -> Result<(), String> {
        let value = value.ok_or(format!("{name} needs a value"))?;
        let value = value.to_str().ok_or(format!("the value of {name} isn't text"))?;
        match name {
            "--board" => {
                self.board =
                    Some(board(value).ok_or_else(|| format!("{} is no board's number", quoted(value)))?)
            }
            "--start" => {
                self.start = Some(hex::board(value).ok_or_else(|| format!("{} is no board", quoted(value)))?)
            }
            "--ranks" => {
                self.ranks = Some(ranks(value).ok_or_else(|| format!("{} are no ranks", quoted(value)))?)
            }
            "--title" => self.title = Some(value.to_string()),
            _ => return Err(format!("there is no option {}\n{USAGE}", quoted(name))),
        }
        Ok(())
    }
}

/// The number of a board, 1 to 8.
fn board(value: &str) -> Option<u8> {
    hex::number(value).filter(|number| (1..=8).contains(number)).map(|number| number as u8)
}

/// Ranks of at most 16 clients, 0 to 3, with commas between them.
fn ranks(value: &str) -> Option<Vec<u8>> {
    let rank = |word: &str| hex::number(word).filter(|rank| *rank <= 3).map(|rank| rank as u8);
    let ranks: Option<Vec<u8>> = value.split(',').map(rank).collect();
    ranks.filter(|ranks| ranks.len() <= 16)
}

pub fn bytes(path: &Path) -> Result<Vec<u8>, String> {
    std::fs::read(path).map_err(|why| format!("can't read {}: {why}", path.display()))
}

pub fn text(path: &Path) -> Result<String, String> {
    String::from_utf8(bytes(path)?).map_err(|_| format!("{} isn't text", path.display()))
}

#[cfg(test)]
mod tests {
    use super::*;

    fn parsed(words: &str) -> Result<Call, String> {
        parse(words.split_whitespace().map(OsString::from).collect())
    }

    fn drawn(words: &str) -> Draw {
        match parsed(words) {
            Ok(Call::Draw(draw)) => draw,
            other => panic!("{other:?}"),
        }
    }

    #[test]
    fn calls() {
        let (events, lines) = (PathBuf::from("e"), PathBuf::from("l"));
        assert_eq!(drawn("board e l").source, Source::Board { events: events.clone(), lines: lines.clone() });
        let simulate = |board| Source::Simulate { events: events.clone(), lines: lines.clone(), board };
        assert_eq!(drawn("simulate e l").source, simulate(1));
        assert_eq!(drawn("simulate e l --board 8").source, simulate(8));
        let record = PathBuf::from("r");
        let host = Source::Host { record: record.clone(), start: Some(vec![0, 171]), ranks: vec![0, 3] };
        assert_eq!(
            drawn("host --start 00ab r --ranks 0,3 --title T"),
            Draw { source: host, title: Some("T".into()) }
        );
        assert_eq!(drawn("host r").source, Source::Host { record, start: None, ranks: vec![] });
        assert_eq!(parsed("host r --help"), Ok(Call::Help));
    }

    #[test]
    fn other_words_are_told() {
        let wrong = [
            "",
            "board",
            "board e",
            "board e l m",
            "host",
            "host r s",
            "paint e l",
            "board e l --start 00",
            "board e l --board 1",
            "host r --board 1",
            "simulate e l --board",
            "simulate e l --board 0",
            "simulate e l --board 9",
            "simulate e l --board x",
            "simulate e l --ranks 0",
            "host r --start",
            "host r --start 0",
            "host r --ranks 4",
            "host r --ranks ,",
            "host r --ranks 0,0,0,0,0,0,0,0,0,0,0,0,0,0,0,0,0",
            "host r --colour red",
        ];
        for words in wrong {
            assert!(parsed(words).is_err(), "{words}");
        }
    }

    #[test]
    fn a_missing_file_is_told() {
        assert!(text(Path::new("no such file")).unwrap_err().starts_with("can't read no such file"));
    }
}
