//! Events as records of bytes, as the programs read them.

use crate::model::{self, Config};

pub struct Event {
    pub code: u8,
    pub party: u8,
    pub position: usize,
    /// The board's number.
    pub on: u8,
    pub board: Vec<u8>,
    pub length: usize,
}

impl Event {
    pub fn for_model(&self) -> model::Event<'_> {
        let Event { code, party, position, on, board, length } = self;
        let (bytes, board) = (&board[..], *on);
        model::Event { code: *code, party: *party, position: *position, board, bytes, length: *length }
    }

    /// Whether it is of this board: a crash or a restart is of each.
    pub fn is_of(&self, board: u8) -> bool {
        matches!(self.code, 6..=8) || self.on == board
    }
}

/// What a program is handed.
pub struct List {
    pub config: Config,
    /// The starting boards, joined.
    pub start: Vec<u8>,
    pub events: Vec<Event>,
    /// Whether a partial record stands at the end.
    pub partial: bool,
}

/// That of the program `board`; its ranks, its starting board and its one board's share are 0.
const PROGRAM: Config =
    Config { n: 3, k: 1, d: 0, e: 1, c: 2, m: 64, ranks: [0; 16], boards: 1, shares: [0; 8] };

/// The head of `simulate`, before the ranks.
const HEAD: usize = 7;

pub fn of_board(bytes: &[u8]) -> List {
    list(PROGRAM, vec![0], bytes, false)
}

/// The head has N, k, D, E and C, a byte each, M, 2 bytes, the ranks of clients 1 to C, the number of boards, a share of
/// 2 bytes for each, and the starting boards.
pub fn of_simulate(bytes: &[u8]) -> Result<List, String> {
    let (head, rest) = part(bytes, HEAD)?;
    let [n, k, d, e, c] = std::array::from_fn(|i| head[i] as usize);
    let mut config = Config { n, k, d, e, c, m: two(&head[5..]), ..PROGRAM };
    config.ask_numbers().map_err(refused)?;
    let (ranks, rest) = part(rest, c)?;
    config.ranks[..c].copy_from_slice(ranks);
    config.ask_ranks().map_err(refused)?;
    let (number, rest) = part(rest, 1)?;
    config.boards = number[0].into();
    config.ask_boards().map_err(refused)?;
    let (shares, rest) = part(rest, 2 * config.boards)?;
    config.shares.iter_mut().zip(shares.chunks(2)).for_each(|(share, bytes)| *share = two(bytes));
    config.ask_shares().map_err(refused)?;
    let (start, rest) = part(rest, config.boards * config.v())?;
    Ok(list(config, start.to_vec(), rest, true))
}

fn refused(number: u8) -> String {
    format!("the head of the events makes no rig: no {number}")
}

fn part(bytes: &[u8], length: usize) -> Result<(&[u8], &[u8]), String> {
    bytes.split_at_checked(length).ok_or("the events end within their head".to_string())
}

fn two(bytes: &[u8]) -> usize {
    u16::from_le_bytes([bytes[0], bytes[1]]) as usize
}

/// A record has code, party, position (2 bytes), the board's number if it is numbered, board (V), length (2).
fn list(config: Config, start: Vec<u8>, bytes: &[u8], numbered: bool) -> List {
    let (v, head) = (config.v(), 4 + usize::from(numbered));
    let records = bytes.chunks_exact(head + v + 2);
    let partial = !records.remainder().is_empty();
    let event = |record: &[u8]| Event {
        code: record[0],
        party: record[1],
        position: two(&record[2..]),
        on: if numbered { record[4] } else { 1 },
        board: record[head..head + v].to_vec(),
        length: two(&record[head + v..]),
    };
    List { config, start, events: records.map(event).collect(), partial }
}

#[cfg(test)]
mod tests {
    use super::*;

    #[test]
    fn records_of_board_have_seven_bytes() {
        let list = of_board(&[1, 2, 3, 4, 5, 6, 7, 8]);
        let event = &list.events[0];
        assert_eq!((event.code, event.party, event.position, event.on), (1, 2, 0x403, 1));
        assert_eq!((&event.board[..], event.length), (&[5][..], 0x706));
        assert!(list.events.len() == 1 && list.partial);
        assert!(of_board(&[]).events.is_empty());
    }

    #[test]
    fn simulate_has_a_head() {
        let head = [5, 2, 1, 2, 2, 64, 1, 3, 0, 2, 44, 1, 5, 0, 9, 8, 7, 6, 5, 4, 3, 2];
        let event = [1, 2, 3, 4, 2, 10, 11, 12, 13, 5, 6];
        let list = of_simulate(&[&head[..], &event].concat()).ok().unwrap();
        let Config { m, ranks, boards, shares, .. } = list.config;
        assert_eq!((m, &ranks[..2], boards, &shares[..3]), (320, &[3, 0][..], 2, &[300, 5, 0][..]));
        assert_eq!(list.start, [9, 8, 7, 6, 5, 4, 3, 2]);
        assert!(list.events.len() == 1 && !list.partial);
        let event = &list.events[0];
        assert_eq!((event.code, event.party, event.position, event.on), (1, 2, 0x403, 2));
        assert_eq!((&event.board[..], event.length), (&[10, 11, 12, 13][..], 0x605));
    }

    #[test]
    fn a_crash_or_a_restart_is_of_each_board() {
        let event = |code, on| Event { code, party: 1, position: 0, on, board: vec![], length: 0 };
        assert!(event(6, 9).is_of(1) && event(7, 2).is_of(1) && event(8, 0).is_of(1));
        assert!(event(3, 2).is_of(2) && !event(3, 2).is_of(1));
    }

    #[test]
    fn a_bad_head_is_told() {
        let said = |bytes: &[u8]| of_simulate(bytes).err().unwrap();
        assert!(said(&[]).contains("within their head"));
        assert!(said(&[3, 1, 0, 1, 2, 64]).contains("within their head"));
        assert!(said(&[3, 1, 0, 1, 2, 64, 0, 0]).contains("within their head"));
        let ranked = [3, 1, 0, 1, 2, 64, 0, 0, 0];
        let more = |more: &[u8]| said(&[&ranked[..], more].concat());
        for cut in [&[][..], &[1], &[2, 0, 0, 0], &[1, 64, 0], &[2, 0, 0, 0, 0, 7]] {
            assert!(more(cut).contains("within their head"), "{cut:?}");
        }
        assert!(more(&[0]).ends_with("no 22") && more(&[9]).ends_with("no 22"));
        assert!(more(&[2, 64, 0, 1, 0]).ends_with("no 22"));
        assert!(said(&[0; 7]).ends_with("no 1"));
        assert!(said(&[3, 1, 0, 1, 255, 64, 0]).ends_with("no 5"));
        assert!(said(&[3, 1, 0, 1, 2, 64, 0, 0, 4]).ends_with("no 21"));
    }
}
