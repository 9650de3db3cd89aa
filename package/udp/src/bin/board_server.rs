//! One server of a board.

use board_udp::arguments::Arguments;
use board_udp::network::{Network, Ports};
use board_udp::server::{serve, Kept};
use board_udp::shared::{ticket, Shared};
use board_udp::{options, text, Result};
use std::path::PathBuf;
use std::process::ExitCode;
use std::time::{Duration, Instant};

const USE: &str = "board-server DISK NUMBER CONFIG PORTS [--seconds S] [--loss P] [--double P] [--delay MS]
             [--seed S] [--faults FILE]
  DISK    its folder; the first start makes it
  NUMBER  its number, from 1
  CONFIG  the shared file that `board init` made
  PORTS   the base of the ports on 127.0.0.1; this server has the base plus its number";

fn main() -> ExitCode {
    text::status("board-server", run())
}

fn run() -> Result<()> {
    let mut arguments = Arguments::new(std::env::args_os().skip(1))?;
    let disk = PathBuf::from(arguments.word("DISK").map_err(|why| format!("{why}\n{USE}"))?);
    let number: u8 = arguments.number("NUMBER")?;
    let config = PathBuf::from(arguments.word("CONFIG")?);
    let ports = Ports::read(&arguments.word("PORTS")?)?;
    let faults = options::faults(&mut arguments, &format!("server {number}"))?;
    let seconds = arguments.limited("seconds", 0, 0, 1_000_000)?;
    arguments.end()?;
    let shared = Shared::read(&config)?;
    if !(1..=shared.config.n()).contains(&number) {
        return Err(format!("there is no server {number}: they are 1 to {}", shared.config.n()));
    }
    let mut network = Network::at(ports.server(number), faults)?;
    let mut kept = Kept::open(&disk, number, &shared, &ticket(&config, number))?;
    _ = text::say(&format!("server {number} answers at {}", ports.server(number)));
    let until = (seconds > 0).then(|| Instant::now() + Duration::from_secs(seconds));
    serve(&mut kept, &mut network, until)
}
