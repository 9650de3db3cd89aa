//! The axis of time: a column for each event at which something begins, ends, crashes or comes back, each as far to the
//! right as what is drawn before it needs.

use crate::history::History;
use std::collections::{BTreeMap, BTreeSet};

/// Something drawn from one event on, so wide at least; up to another event, if it has an end.
#[derive(Clone, Copy, Debug, PartialEq)]
pub struct Span {
    pub from: usize,
    pub to: Option<usize>,
    pub width: i64,
}

pub struct Axis {
    columns: BTreeMap<usize, i64>,
    /// Where the chart ends.
    pub right: i64,
}

impl Axis {
    /// Columns from `left` on, at least `gap` apart.
    pub fn new(history: &History, spans: &[Span], left: i64, gap: i64) -> Axis {
        let mut ending: BTreeMap<usize, Vec<&Span>> = BTreeMap::new();
        for span in spans {
            ending.entry(span.to.unwrap_or(usize::MAX)).or_default().push(span);
        }
        let mut axis = Axis { columns: BTreeMap::new(), right: left };
        for time in times(history) {
            let x = axis.after(left, gap, ending.get(&time));
            axis.columns.insert(time, x);
        }
        axis.right = axis.after(left, gap, ending.get(&usize::MAX));
        axis
    }

    /// The first place that is a gap after the last column and leaves these spans their width.
    fn after(&self, left: i64, gap: i64, spans: Option<&Vec<&Span>>) -> i64 {
        let least = self.columns.last_key_value().map_or(left, |(_, x)| x + gap);
        let needed = spans.into_iter().flatten().map(|span| self.x(span.from) + span.width);
        needed.fold(least, i64::max)
    }

    pub fn x(&self, time: usize) -> i64 {
        self.columns.get(&time).copied().unwrap_or(self.right)
    }

    pub fn columns(&self) -> impl Iterator<Item = (usize, i64)> + '_ {
        self.columns.iter().map(|(time, x)| (*time, *x))
    }

    /// At least so far.
    pub fn widen(&mut self, right: i64) {
        self.right = self.right.max(right);
    }
}

/// The events that have a column.
pub fn times(history: &History) -> BTreeSet<usize> {
    let ends = history.operations.iter().filter_map(|operation| operation.end.as_ref().map(|end| end.time));
    let begins = history.operations.iter().map(|operation| operation.begin);
    let crashes = history.crashes.iter().map(|crash| crash.time);
    let restarts = history.restarts.iter().map(|restart| restart.time);
    begins.chain(ends).chain(crashes).chain(restarts).collect()
}

/// Where what is drawn of an operation has to end: at its end, or else at its client's next begin or crash.
pub fn closing(history: &History, place: usize) -> Option<usize> {
    let operation = &history.operations[place];
    if let Some(end) = &operation.end {
        return Some(end.time);
    }
    let next = history.operations[place + 1..].iter().find(|other| other.client == operation.client);
    next.map(|next| next.begin).or_else(|| history.crash_of(operation.client))
}

#[cfg(test)]
mod tests {
    use super::*;
    use crate::host;

    #[test]
    fn columns_leave_room() {
        let record = "begin 1 read\nbegin 2 read\nend 1 read 0 0 00\nend 2 read 0 0 00\nbegin 3 read\n";
        let history = host::history(record, None, vec![]).unwrap();
        let span = |from, to, width| Span { from, to, width };
        let spans = [span(1, Some(3), 100), span(2, Some(4), 30), span(5, None, 80)];
        let axis = Axis::new(&history, &spans, 10, 20);
        let columns: Vec<(usize, i64)> = axis.columns().collect();
        assert_eq!(columns, [(1, 10), (2, 30), (3, 110), (4, 130), (5, 150)]);
        assert_eq!(axis.right, 230);
    }

    #[test]
    fn an_unended_operation_is_drawn_up_to_the_next_one() {
        let record = "begin 1 write aa\nbegin 2 read\nbegin 1 read\nend 1 read 0 0 00\n";
        let history = host::history(record, None, vec![]).unwrap();
        assert_eq!([0, 1, 2].map(|place| closing(&history, place)), [Some(3), None, Some(4)]);
    }

    #[test]
    fn nothing_has_no_columns() {
        let axis = Axis::new(&History::default(), &[], 10, 20);
        assert_eq!((axis.columns().count(), axis.right, axis.x(3)), (0, 10, 10));
    }
}
