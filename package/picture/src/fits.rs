//! What an order that fits is, in the documents' own words.

use crate::history::{History, Operation, Outcome};

/// Each ended read and write stands in the order once, each unended write at most once and nothing else; of any two, one
/// that ended before the other began stands first; every read shows the board of the nearest write before it, or the
/// starting board. An order is of places in the history.
pub fn fits(history: &History, order: &[usize]) -> bool {
    let operations = &history.operations;
    order.iter().all(|i| *i < operations.len())
        && each_once(operations, order)
        && in_time(operations, order)
        && as_shown(history, order)
}

fn each_once(operations: &[Operation], order: &[usize]) -> bool {
    let mut times = vec![0; operations.len()];
    order.iter().for_each(|i| times[*i] += 1);
    operations.iter().zip(times).all(|(operation, times)| match operation.outcome() {
        Some(Outcome::Written(_) | Outcome::Read(..)) => times == 1,
        Some(Outcome::Spent) => times == 0,
        None => times == 0 || operation.is_write() && times == 1,
    })
}

/// None begins after a later one in the order has ended.
fn in_time(operations: &[Operation], order: &[usize]) -> bool {
    let mut earliest_end = usize::MAX;
    order.iter().rev().all(|i| {
        let operation = &operations[*i];
        let stands = operation.begin <= earliest_end;
        earliest_end = earliest_end.min(operation.end.as_ref().map_or(usize::MAX, |end| end.time));
        stands
    })
}

fn as_shown(history: &History, order: &[usize]) -> bool {
    let mut state = history.start.as_ref();
    order.iter().all(|i| {
        let operation = &history.operations[*i];
        if operation.is_write() {
            state = operation.board();
        }
        state.is_some() && operation.board() == state
    })
}

/// The ended writes stand in strictly rising tag order.
pub fn rises(history: &History, order: &[usize]) -> bool {
    let writes = order.iter().map(|i| &history.operations[*i]).filter(|operation| operation.is_write());
    let keys: Vec<_> = writes.filter_map(|write| write.tag()).map(|tag| history.key(tag)).collect();
    keys.windows(2).all(|two| two[0] < two[1])
}

#[cfg(test)]
mod tests {
    use super::*;
    use crate::host;

    const RECORD: &str =
        "begin 1 write aa\nend 1 written 1 1\nbegin 1 write bb\nbegin 2 read\nend 2 read 1 1 aa\n\
                          end 1 written 2 1\nbegin 2 write cc\nbegin 1 read\n";

    #[test]
    fn an_order_and_what_spoils_it() {
        let history = host::history(RECORD, None, vec![]).unwrap();
        for order in [&[0, 2, 1][..], &[0, 2, 1, 3]] {
            assert!(fits(&history, order) && rises(&history, order));
        }
        let wrong = [
            &[0, 1, 2][..],
            &[2, 0, 1],
            &[0, 2],
            &[0, 2, 1, 1],
            &[0, 2, 1, 4],
            &[0, 2, 1, 3, 3],
            &[0, 2, 3, 1],
            &[0, 2, 1, 9],
        ];
        for order in wrong {
            assert!(!fits(&history, order), "{order:?}");
        }
    }

    #[test]
    fn an_unknown_start_is_shown_by_nothing() {
        let history = host::history("begin 1 read\nend 1 read 1 2 aa\n", None, vec![]).unwrap();
        assert!(!fits(&history, &[0]));
    }

    #[test]
    fn writes_rise_by_rank_first() {
        let record = "begin 1 write aa\nbegin 2 write bb\nend 1 written 1 1\nend 2 written 1 2\n";
        let plain = host::history(record, None, vec![]).unwrap();
        let ranked = host::history(record, None, vec![1, 0]).unwrap();
        assert!(rises(&plain, &[0, 1]) && !rises(&plain, &[1, 0]));
        assert!(rises(&ranked, &[1, 0]) && !rises(&ranked, &[0, 1]));
    }
}
