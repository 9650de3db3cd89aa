//! The options that several commands have.

use crate::arguments::Arguments;
use crate::draws::Draws;
use crate::faults::{Faults, Log};
use crate::operation::Patience;
use crate::Result;
use std::path::Path;
use std::time::Duration;

/// The faults of a party's outgoing datagrams: `--loss` and `--double` (of 100), `--delay` (milliseconds),
/// `--seed`, and `--faults`, a file that tells each.
pub fn faults(arguments: &mut Arguments, party: &str) -> Result<Faults> {
    let loss = arguments.limited("loss", 0, 0, 100)? as u8;
    let double = arguments.limited("double", 0, 0, 100)? as u8;
    let delay = arguments.limited("delay", 0, 0, 10_000)?;
    let draws = Draws::new(arguments.limited("seed", 0, 0, u64::MAX)?);
    let log = arguments.option("faults").map(|path| Log::open(Path::new(&path), party)).transpose()?;
    Ok(Faults { loss, double, delay, draws, log })
}

/// What a client puts up with: `--wait` (milliseconds), `--rounds` and `--seconds`.
pub fn patience(arguments: &mut Arguments) -> Result<Patience> {
    Ok(Patience {
        wait: Duration::from_millis(arguments.limited("wait", 100, 1, 60_000)?),
        rounds: arguments.limited("rounds", 200, 1, 1_000_000)?,
        whole: Duration::from_secs(arguments.limited("seconds", 10, 1, 86_400)?),
    })
}
