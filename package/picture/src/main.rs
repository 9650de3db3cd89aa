//! Draws a history as an SVG: its operations in time, and an order that fits. The history comes from a list of events
//! and the lines that a program printed of it, or from the record of a host.

mod args;
mod draw;
mod events;
mod fits;
mod follow;
mod hex;
mod history;
mod host;
#[rustfmt::skip]
#[allow(dead_code, clippy::all)]
#[path = "../../../tests/outside/model.rs"]
mod model;
mod quote;
#[cfg(test)]
mod samples;
mod search;

use args::{Call, Source};
use history::History;
use search::Found;
use std::ffi::OsString;
use std::io::Write;
use std::process::ExitCode;

/// Status 0 says that there is a picture, and an order that fits in it.
fn main() -> ExitCode {
    match run(std::env::args_os().skip(1).collect()) {
        Ok(()) => ExitCode::SUCCESS,
        Err(said) => {
            // There is nobody else to tell where standard error is closed.
            let _ = writeln!(std::io::stderr(), "picture: {said}");
            ExitCode::FAILURE
        }
    }
}

fn run(words: Vec<OsString>) -> Result<(), String> {
    let call = match args::parse(words)? {
        Call::Help => return print(args::USAGE),
        Call::Draw(call) => call,
    };
    let history = history_of(&call.source)?;
    let found = search::search(&history)?;
    checked(&history, &found)?;
    print(&draw::picture(&history, &found, call.title.as_deref()))?;
    match found {
        Found::Order(_) => Ok(()),
        Found::Unordered | Found::Nothing => Err("no order fits".to_string()),
    }
}

fn history_of(source: &Source) -> Result<History, String> {
    match source {
        Source::Board { events, lines } => {
            follow::follow(&events::of_board(&args::bytes(events)?), &args::text(lines)?, 1)
        }
        Source::Simulate { events, lines, board } => {
            follow::follow(&events::of_simulate(&args::bytes(events)?)?, &args::text(lines)?, *board)
        }
        Source::Host { record, start, ranks } => {
            host::history(&args::text(record)?, start.clone(), ranks.clone())
        }
    }
}

/// An order that is drawn is held against the documents' own words first.
fn checked(history: &History, found: &Found) -> Result<(), String> {
    match found {
        Found::Order(order) if !fits::fits(history, order) || !fits::rises(history, order) => {
            Err("the order that was found doesn't fit".to_string())
        }
        _ => Ok(()),
    }
}

fn print(text: &str) -> Result<(), String> {
    let mut out = std::io::stdout();
    out.write_all(text.as_bytes()).and_then(|()| out.flush()).map_err(|why| format!("can't write: {why}"))
}
