//! Follows a list of events by the model, which names the client whose operation ends; a line does not. The lines
//! that the program printed must be the model's.

use crate::events::List;
use crate::hex::digits;
use crate::history::{Board, Call, Crash, History, Outcome, Party, Restart, Tag};
use crate::model::{self, Answer, Config, Rig};
use crate::quote::quoted;

/// The history of a board of a list with these lines.
pub fn follow(list: &List, lines: &str, board: u8) -> Result<History, String> {
    let mut rig = Rig::make(list.config, &list.start).map_err(|number| format!("no rig: no {number}"))?;
    list.config.ask_board(board).map_err(|_| format!("the events have no board {board}"))?;
    let start = list.start.chunks(list.config.v()).nth(usize::from(board) - 1);
    let mut history = History {
        about: about(&list.config, list.events.len(), board),
        start: start.map(|start| start.to_vec()),
        ranks: list.config.ranks[..list.config.c].to_vec(),
        ..History::default()
    };
    let mut printed = lines.lines();
    for (place, event) in list.events.iter().enumerate() {
        let answer = rig.event(event.for_model());
        same(printed.next(), &line(place + 1, &answer))?;
        if let Some(answer) = answer.ok().filter(|_| event.is_of(board)) {
            let written = event.board.iter().take(event.length).copied().collect();
            note(&mut history, place + 1, (event.code, event.party, written), answer)?;
        }
    }
    if list.partial {
        same(printed.next(), &format!("{} short", list.events.len() + 1))?;
    }
    match printed.next() {
        Some(more) => Err(format!("the lines go on after the last event: {}", quoted(more))),
        None => Ok(history),
    }
}

fn about(config: &Config, events: usize, board: u8) -> String {
    let Config { n, k, d, e, c, boards, .. } = config;
    let of_boards = if *boards > 1 { format!(", board {board} of {boards}") } else { String::new() };
    format!("N {n}, k {k}, D {d}, E {e}, C {c}{of_boards}; {events} events")
}

fn same(printed: Option<&str>, due: &str) -> Result<(), String> {
    match printed {
        Some(printed) if printed == due => Ok(()),
        Some(printed) => Err(format!("a line is {}, and the events give {}", quoted(printed), quoted(due))),
        None => Err(format!("the lines end before {}", quoted(due))),
    }
}

/// The line of an event, as the programs print it.
fn line(count: usize, answer: &Result<Answer, u8>) -> String {
    match answer {
        Ok(Answer::Nothing) => format!("{count} ok"),
        Ok(Answer::Written(_, tag)) => format!("{count} written {} {}", tag.number, tag.client),
        Ok(Answer::Spent(_)) => format!("{count} spent"),
        Ok(Answer::Read(_, tag, board)) => {
            let shown = digits(&board.bytes[..board.length]);
            format!("{count} read {} {} {shown}", tag.number, tag.client).trim_end().to_string()
        }
        Err(number) => format!("{count} no {number}"),
    }
}

/// What an accepted event begins, ends, crashes or starts again. It is a code, a party and the board handed in.
fn note(history: &mut History, time: usize, event: (u8, u8, Board), answer: Answer) -> Result<(), String> {
    let (code, party, board) = event;
    let tag = |tag: model::Tag| Tag { number: tag.number, client: tag.client };
    match code {
        1 => history.begin(time, party, Call::Write(board)),
        2 => history.begin(time, party, Call::Read),
        6 => history.crashes.push(Crash { time, party: Party::Server(party) }),
        7 => history.crashes.push(Crash { time, party: Party::Client(party) }),
        8 => history.restarts.push(Restart { time, server: party }),
        _ => {}
    }
    match answer {
        Answer::Nothing => Ok(()),
        Answer::Written(client, t) => history.end(time, client, Outcome::Written(tag(t))),
        Answer::Spent(client) => history.end(time, client, Outcome::Spent),
        Answer::Read(client, t, board) => {
            let shown = board.bytes.into_iter().take(board.length).collect();
            history.end(time, client, Outcome::Read(tag(t), shown))
        }
    }
}

#[cfg(test)]
pub mod tests {
    use super::*;
    use crate::events::{of_board, of_simulate};
    use crate::history::{End, Operation, START};

    /// Records of `board` from code, party and position; a write is of this byte, length 1.
    pub fn records(events: &[[u8; 3]], byte: u8) -> Vec<u8> {
        let record = |[code, party, position]: &[u8; 3]| match code {
            1 => [1, *party, *position, 0, byte, 1, 0],
            _ => [*code, *party, *position, 0, 0, 0, 0],
        };
        events.iter().flat_map(record).collect()
    }

    /// The model's lines of a list.
    fn lines(list: &List) -> String {
        let mut rig = Rig::make(list.config, &list.start).ok().unwrap();
        let run = |(i, e): (usize, &crate::events::Event)| line(i + 1, &rig.event(e.for_model())) + "\n";
        list.events.iter().enumerate().map(run).collect()
    }

    /// Document 01's ten events.
    const TEN: [[u8; 3]; 10] = [
        [2, 1, 0],
        [3, 0, 0],
        [3, 0, 0],
        [3, 0, 1],
        [3, 0, 1],
        [3, 0, 1],
        [3, 0, 1],
        [3, 0, 2],
        [3, 0, 2],
        [1, 3, 0],
    ];

    const TEN_LINES: &str = "1 ok\n2 ok\n3 ok\n4 ok\n5 ok\n6 ok\n7 ok\n8 ok\n9 read 0 0 00\n10 no 8\n";

    #[test]
    fn ten_events() {
        let history = follow(&of_board(&records(&TEN, 0)), TEN_LINES, 1).unwrap();
        let end = Some(End { time: 9, outcome: Outcome::Read(START, vec![0]) });
        assert_eq!(history.operations, [Operation { client: 1, call: Call::Read, begin: 1, end }]);
        assert_eq!(history.about, "N 3, k 1, D 0, E 1, C 2; 10 events");
    }

    /// A read that asks again after its element was cleared, and a write beside it: codes, parties and positions, with
    /// how many times each stands.
    const AGAIN: [([u8; 3], usize); 18] = [
        ([2, 1, 0], 1),
        ([3, 0, 0], 2),
        ([3, 0, 1], 2),
        ([1, 2, 0], 1),
        ([3, 0, 4], 2),
        ([3, 0, 5], 4),
        ([3, 0, 1], 1),
        ([5, 0, 7], 1),
        ([3, 0, 7], 2),
        ([3, 0, 5], 2),
        ([3, 0, 8], 2),
        ([3, 0, 9], 2),
        ([3, 0, 5], 2),
        ([3, 0, 7], 4),
        ([3, 0, 8], 2),
        ([3, 0, 1], 1),
        ([3, 0, 7], 1),
        ([7, 2, 0], 1),
    ];

    #[test]
    fn a_read_that_asks_again_is_one_read() {
        let events: Vec<[u8; 3]> = AGAIN.iter().flat_map(|(event, times)| vec![*event; *times]).collect();
        let due = |count: usize| match count {
            22 => "22 written 1 2\n".to_string(),
            30 => "30 read 1 2 ab\n".to_string(),
            _ => format!("{count} ok\n"),
        };
        let printed: String = (1..=events.len()).map(due).collect();
        let history = follow(&of_board(&records(&events, 0xab)), &printed, 1).unwrap();
        let [read, write] = &history.operations[..] else { panic!("two operations") };
        let tag = Tag { number: 1, client: 2 };
        assert_eq!((read.client, read.begin), (1, 1));
        assert_eq!(read.end, Some(End { time: 30, outcome: Outcome::Read(tag, vec![0xab]) }));
        assert_eq!((write.client, write.begin, write.board()), (2, 6, Some(&vec![0xab])));
        assert_eq!(write.end, Some(End { time: 22, outcome: Outcome::Written(tag) }));
        assert_eq!(history.crashes, [Crash { time: 33, party: Party::Client(2) }]);
    }

    #[test]
    fn lines_of_other_events_are_told() {
        let list = of_board(&records(&TEN, 0));
        let said = |lines: &str| follow(&list, lines, 1).err().unwrap();
        assert_eq!(said(""), "the lines end before `1 ok`");
        assert_eq!(said(&TEN_LINES[..TEN_LINES.len() - 8]), "the lines end before `10 no 8`");
        assert_eq!(
            said(&(TEN_LINES.to_string() + "11 ok\n")),
            "the lines go on after the last event: `11 ok`"
        );
        let other = TEN_LINES.replace("0 0 00", "0 0 01");
        assert_eq!(said(&other), "a line is `9 read 0 0 01`, and the events give `9 read 0 0 00`");
    }

    #[test]
    fn a_partial_record_has_its_line() {
        let bytes = [records(&TEN, 0), vec![7, 7]].concat();
        assert!(follow(&of_board(&bytes), &(TEN_LINES.to_string() + "11 short\n"), 1).is_ok());
        assert!(follow(&of_board(&bytes), TEN_LINES, 1).is_err());
    }

    /// One server and one client: a write of length 1 of V 2 and its read, then one of length 0 and its read.
    #[test]
    fn lengths_cut_boards() {
        let head = [1, 1, 1, 2, 1, 8, 0, 2, 1, 3, 0, 9, 9];
        let write = |length| [[1, 1, 0, 0, 1, 5, 6, length, 0], [3, 0, 0, 0, 1, 0, 0, 0, 0]];
        let read = [[2, 1, 0, 0, 1, 0, 0, 0, 0], [3, 0, 0, 0, 1, 0, 0, 0, 0]];
        let hands = |count| vec![read[1]; count];
        let parts = [
            [write(1).to_vec(), hands(5)].concat(),
            [read.to_vec(), hands(3)].concat(),
            [write(0).to_vec(), hands(5)].concat(),
            [read.to_vec(), hands(3)].concat(),
        ];
        let bytes: Vec<u8> = parts.concat().concat();
        let list = of_simulate(&[&head[..], &bytes].concat()).ok().unwrap();
        let printed = lines(&list);
        assert!(printed.contains("7 written 1 1\n") && printed.contains("12 read 1 1 05\n"));
        assert!(printed.contains("24 read 2 1\n"));
        let history = follow(&list, &printed, 1).unwrap();
        let boards: Vec<Vec<u8>> = history.operations.iter().map(|o| o.board().unwrap().clone()).collect();
        assert_eq!(boards, [vec![5], vec![5], vec![], vec![]]);
        assert_eq!(history.ranks, [2]);
    }

    /// A write that ends through servers 1 and 2, a crash of server 1 and two restarts, of which the second is refused,
    /// and a read that ends through servers 1 and 3.
    #[test]
    fn a_server_comes_back() {
        let hands = |positions: &[u8]| positions.iter().map(|p| [3, 0, *p]).collect();
        let parts: [Vec<[u8; 3]>; 4] = [
            vec![[1, 1, 0]],
            hands(&[0, 0, 1, 1, 1, 1, 2, 2, 2, 2, 3, 3]),
            vec![[6, 1, 0], [8, 1, 0], [8, 1, 0], [2, 2, 0]],
            hands(&[3, 4, 4, 4, 4, 5, 5, 5]),
        ];
        let due = |count: usize| match count {
            13 => "13 written 1 1\n".to_string(),
            16 => "16 no 9\n".to_string(),
            25 => "25 read 1 1 11\n".to_string(),
            _ => format!("{count} ok\n"),
        };
        let printed: String = (1..=25).map(due).collect();
        let history = follow(&of_board(&records(&parts.concat(), 0x11)), &printed, 1).unwrap();
        assert_eq!(history.crashes, [Crash { time: 14, party: Party::Server(1) }]);
        assert_eq!(history.restarts, [Restart { time: 15, server: 1 }]);
        assert_eq!(history.operations.iter().map(|o| o.begin).collect::<Vec<_>>(), [1, 17]);
    }

    /// One server and one client, which writes on board 1 while it reads on board 2; both crash, and the server comes
    /// back.
    #[test]
    fn each_board_has_its_history() {
        let head = [1, 1, 0, 1, 1, 8, 0, 0, 2, 0, 0, 0, 0, 9, 8];
        let on = |code, board| [code, 1, 0, 0, board, 5, 1, 0];
        let hands = |board, count| vec![on(3, board); count];
        let ends = vec![on(7, 0), on(6, 2), on(8, 1)];
        let events = [vec![on(1, 1), on(2, 2)], hands(1, 5), hands(2, 4), hands(1, 1), ends];
        let list = of_simulate(&[&head[..], &events.concat().concat()].concat()).ok().unwrap();
        let printed = lines(&list);
        let of = |board| follow(&list, &printed, board).unwrap();
        let tag = Tag { number: 1, client: 1 };
        let crashes = [(13, Party::Client(1)), (14, Party::Server(1))];
        let crashes = crashes.map(|(time, party)| Crash { time, party });
        let restarts = [Restart { time: 15, server: 1 }];
        let written = Some(End { time: 12, outcome: Outcome::Written(tag) });
        let shown = Some(End { time: 11, outcome: Outcome::Read(START, vec![8]) });
        let one = |call, begin, end| [Operation { client: 1, call, begin, end }];
        assert_eq!(of(1).operations, one(Call::Write(vec![5]), 1, written));
        assert_eq!(of(2).operations, one(Call::Read, 2, shown));
        assert_eq!((of(1).start, of(2).start), (Some(vec![9]), Some(vec![8])));
        assert!(of(1).crashes == crashes && of(2).crashes == crashes);
        assert!(of(1).restarts == restarts && of(2).restarts == restarts);
        assert_eq!(of(2).about, "N 1, k 1, D 0, E 1, C 1, board 2 of 2; 15 events");
        for board in [0, 3] {
            let said = follow(&list, &printed, board).err().unwrap();
            assert_eq!(said, format!("the events have no board {board}"));
        }
    }
}
