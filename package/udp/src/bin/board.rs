//! A board's client, and what makes and shows a board.

use board_udp::arguments::Arguments;
use board_udp::client::Kept;
use board_udp::history::History;
use board_udp::network::{Network, Ports};
use board_udp::operation::{Desk, Whose};
use board_udp::shared::{self, Shared};
use board_udp::text::{self, say};
use board_udp::{demo, options, Result};
use coded_board::{Config, Ended};
use std::path::{Path, PathBuf};
use std::process::ExitCode;

const USE: &str = "board init DIR --servers N --threshold K --depth D --width E --clients C [--ranks 0,1,..]
           [--start TEXT]
board put DIR CLIENT TEXT [options]     writes the board
board get DIR CLIENT [options]          reads it
board finish DIR CLIENT [options]       ends an operation that was left open, and begins none
board demo                              five servers, two clients, one kill
options: --ports BASE (27100), --history FILE
         a resend every --wait MS (100); giving up after --rounds R (200) or --seconds S (10)
         faults on the way out: --loss P and --double P (of 100), --delay MS, --seed S, told in --faults FILE
put and get, too, first end the operation that an earlier process of this client left open.";

fn main() -> ExitCode {
    text::status("board", run())
}

fn run() -> Result<()> {
    let mut arguments = Arguments::new(std::env::args_os().skip(1))?;
    match arguments.word("a command").map_err(|why| format!("{why}\n{USE}"))?.as_str() {
        "init" => init(arguments),
        "put" => with_client(arguments, true, asked),
        "get" => with_client(arguments, false, asked),
        "finish" => with_client(arguments, false, |desk, _| desk.go_on(&mut tell)),
        "demo" => arguments.end().and_then(|()| demo::run()),
        other => Err(format!("no such command: {other}\n{USE}")),
    }
}

fn init(mut arguments: Arguments) -> Result<()> {
    let folder = PathBuf::from(arguments.word("DIR")?);
    let mut size = |name: &str| {
        let value = arguments.option(name).ok_or_else(|| format!("--{name} is missing"))?;
        value.parse::<u8>().map_err(|_| format!("--{name} is a small number, not {value}"))
    };
    let (n, k, d) = (size("servers")?, size("threshold")?, size("depth")?);
    let (e, c) = (size("width")?, size("clients")?);
    let ranks = ranks(&arguments.option("ranks").unwrap_or_default())?;
    let start = arguments.option("start").unwrap_or_default();
    arguments.end()?;
    let config = Config::new(n, k, d, e, c, &ranks).map_err(|no| format!("no such configuration: {no}"))?;
    let (quorum, most) = (config.quorum(), config.board_length());
    shared::init(&folder, &Shared::new(config, &start)?)?;
    say(&format!(
        "a board of up to {most} bytes on {n} servers, {quorum} of which must answer, for {c} clients"
    ))
}

fn ranks(listed: &str) -> Result<Vec<u8>> {
    let rank = |rank: &str| rank.parse().map_err(|_| format!("--ranks lists ranks, as 0,1,0: not {listed}"));
    listed.split(',').filter(|_| !listed.is_empty()).map(rank).collect()
}

fn with_client(
    mut arguments: Arguments,
    writes: bool,
    work: impl FnOnce(&mut Desk, Option<&[u8]>) -> Result<()>,
) -> Result<()> {
    let folder = PathBuf::from(arguments.word("DIR")?);
    let number: u8 = arguments.number("CLIENT")?;
    let board = if writes { Some(arguments.word("TEXT")?) } else { None };
    let ports = Ports::read(&arguments.option("ports").unwrap_or("27100".to_string()))?;
    let history = arguments.option("history");
    let patience = options::patience(&mut arguments)?;
    let faults = options::faults(&mut arguments, &format!("client {number}"))?;
    arguments.end()?;
    let shared = Shared::read(&shared::file(&folder))?;
    let most = shared.config.board_length();
    if board.as_ref().is_some_and(|board| board.len() > most) {
        return Err(format!("the text is too long: a board has at most {most} bytes"));
    }
    let kept = Kept::open(&shared::client(&folder, number), number, shared)?;
    let history = History::new(history.as_deref().map(Path::new));
    let mut desk = Desk { kept, network: Network::anywhere(faults)?, ports, patience, history };
    let done = work(&mut desk, board.as_deref().map(str::as_bytes));
    desk.network.drain();
    done
}

/// A put or a get. One that ends spent has failed.
fn asked(desk: &mut Desk, board: Option<&[u8]>) -> Result<()> {
    match desk.run(board, &mut tell)? {
        Ended::Spent => Err("the operation ended, and did nothing".to_string()),
        _ => Ok(()),
    }
}

fn tell(whose: Whose, ended: &Ended) -> Result<()> {
    let line = match ended {
        Ended::Written(tag) => format!("written ({}, {})", tag.number, tag.client),
        Ended::Read(tag, board) => format!("read ({}, {}): {}", tag.number, tag.client, text::shown(board)),
        Ended::Spent => "spent: no number is left".to_string(),
        Ended::Nothing => "still open".to_string(),
    };
    match whose {
        Whose::Earlier => say(&format!("the operation left open: {line}")),
        Whose::Asked => say(&line),
    }
}
