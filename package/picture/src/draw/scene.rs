//! What is to be drawn, and where it stands in time.

use super::axis::{closing, times, Axis, Span};
use super::label::Label;
use super::look::{tag_width, text_width, Hue, Hues, GREY, MARGIN};
use crate::history::{History, Operation, Party};
use crate::search::Found;

pub struct Scene<'a> {
    pub history: &'a History,
    pub found: &'a Found,
    pub hues: Hues<'a>,
    /// The labels of the operations.
    pub labels: Vec<Label>,
    /// Their places in the order found, from 1.
    pub places: Vec<Option<usize>>,
    pub axis: Axis,
}

/// Where the chart begins, to the right of what its rows are called.
pub const LEFT: i64 = MARGIN + 118;

/// No picture is narrower.
const LEAST_WIDTH: i64 = 760;

/// Between the columns of the axis, at least.
const GAP: i64 = 26;

impl<'a> Scene<'a> {
    pub fn new(history: &'a History, found: &'a Found) -> Scene<'a> {
        let labels: Vec<Label> = history.operations.iter().map(Label::new).collect();
        let mut places = vec![None; labels.len()];
        if let Found::Order(order) = found {
            order.iter().enumerate().for_each(|(place, i)| places[*i] = Some(place + 1));
        }
        let bars = labels.iter().zip(&places).enumerate().map(|(i, (label, place))| Span {
            from: history.operations[i].begin,
            to: closing(history, i),
            width: bar_width(label, *place) + if history.operations[i].end.is_none() { 16 } else { 0 },
        });
        let spans: Vec<Span> = bars.chain(server_spans(history)).collect();
        let last = times(history).last().copied().unwrap_or(0);
        let gap = GAP.max(tag_width(&last.to_string()) + 8);
        let mut axis = Axis::new(history, &spans, LEFT + 12, gap);
        axis.widen(LEAST_WIDTH - MARGIN);
        Scene { history, found, hues: Hues::new(history), labels, places, axis }
    }

    /// Of what an operation writes or shows; grey if it is spent or shows nothing.
    pub fn hue(&self, operation: &Operation) -> Hue {
        operation.board().filter(|_| !operation.is_spent()).map_or(GREY, |board| self.hues.of(board))
    }

    pub fn order(&self) -> &[usize] {
        match self.found {
            Found::Order(order) => order,
            _ => &[],
        }
    }
}

/// The width of the mark with a place.
pub fn mark_width(place: usize) -> i64 {
    (tag_width(&place.to_string()) + 8).max(18)
}

/// What a bar needs for its mark and its label.
pub fn bar_width(label: &Label, place: Option<usize>) -> i64 {
    place.map_or(0, |place| mark_width(place) + 4) + label.width() + 14
}

/// A server's crash or restart.
pub struct Turn {
    pub time: usize,
    pub server: u8,
    /// Whether it comes back.
    pub back: bool,
}

impl Turn {
    /// What stands beside it.
    pub fn name(&self) -> String {
        format!("server {}", self.server)
    }

    pub fn words(&self) -> String {
        let does = if self.back { "restarts" } else { "crashes" };
        format!("{} {does} at event {}", self.name(), self.time)
    }
}

/// The crashes and restarts of servers, as they come.
pub fn server_turns(history: &History) -> Vec<Turn> {
    let crashes = history.crashes.iter().filter_map(|crash| match crash.party {
        Party::Server(server) => Some(Turn { time: crash.time, server, back: false }),
        Party::Client(_) => None,
    });
    let restarts = history.restarts.iter().map(|r| Turn { time: r.time, server: r.server, back: true });
    let mut turns: Vec<Turn> = crashes.chain(restarts).collect();
    turns.sort_by_key(|turn| turn.time);
    turns
}

/// The name beside each of them stands before the next one.
fn server_spans(history: &History) -> Vec<Span> {
    let turns = server_turns(history);
    let next = turns.iter().skip(1).map(|turn| Some(turn.time)).chain([None]);
    let span =
        |(turn, to): (&Turn, _)| Span { from: turn.time, to, width: text_width(&turn.name(), 11) + 24 };
    turns.iter().zip(next).map(span).collect()
}
