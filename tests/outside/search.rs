//! Whether the histories of runs have the orders that they must have.

use crate::history::{History, fits, history, rises, search, search_rising};
use crate::list::List;

/// What is wrong with the history of a run.
pub enum Fault {
    /// It is none, or no order fits.
    NoOrder(String),
    /// Orders fit, but in none of them do the ended writes rise.
    NoneRises(String),
}

/// Whether each board's history of a run has an order that fits with its ended writes in rising tag order; the
/// histories, or what is wrong with the first that has none.
pub fn ordered(list: &List, lines: &str) -> Result<Vec<History>, Fault> {
    (1..=list.config.boards as u8).map(|board| one_ordered(list, lines, board)).collect()
}

fn one_ordered(list: &List, lines: &str, board: u8) -> Result<History, Fault> {
    let history = history(list, lines, board).map_err(Fault::NoOrder)?;
    match search_rising(&history) {
        Some(order) if fits(&history, &order) && rises(&history, &order) => Ok(history),
        Some(_) => Err(Fault::NoOrder("the search's order doesn't fit or rise".to_string())),
        None if search(&history).is_some_and(|order| fits(&history, &order)) => {
            Err(Fault::NoneRises(format!("in no order that fits do writes rise: {history:?}")))
        }
        None => Err(Fault::NoOrder(format!("no order fits: {history:?}"))),
    }
}
