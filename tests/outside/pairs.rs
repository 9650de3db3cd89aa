//! Pairs of lists, from rigs made alike, with the same events for one board and the same crashes and restarts, in the
//! same order.

use crate::common::never;
use crate::history::of_board;
use crate::list::List;
use crate::lists;
use crate::maker::{Maker, Mood, Seen};
use crate::model::{Config, Event};
use crate::random::Random;

/// What pairs have come to.
#[derive(Default, Debug)]
pub struct Pairs {
    /// In which the board meets no 13 and has operations that end.
    pub agree: usize,
    /// Of these: with crashes, with restarts, with 13 on other boards, with the board's events at other places in the
    /// lists.
    with_crashes: usize,
    with_restarts: usize,
    others_full: usize,
    elsewhere: usize,
    /// In which it meets 13, in one list or in both: with the same answers, and with others.
    full_alike: usize,
    pub full_other: usize,
}

impl Pairs {
    /// Notes a pair by its lines; what is wrong with it.
    pub fn note(&mut self, lists: [&List; 2], lines: [&str; 2], board: u8) -> Result<(), String> {
        let [one, two] = [0, 1].map(|i| on_every_board(lists[i], lines[i]));
        if one != two {
            return Err("other answers to crashes and restarts".to_string());
        }
        let [one, two] = [0, 1].map(|i| answers(lists[i], lines[i], board));
        let differ = one.iter().zip(&two).find(|(one, two)| one != two);
        if one.iter().chain(&two).any(|answer| *answer == "no 13") {
            *(if differ.is_some() { &mut self.full_other } else { &mut self.full_alike }) += 1;
            return Ok(());
        }
        if one.len() != two.len() || differ.is_some() {
            return Err(format!("other answers for board {board} without a 13: {differ:?}"));
        }
        if one.iter().any(|answer| !matches!(answer.split(' ').next(), Some("ok" | "no"))) {
            self.agree += 1;
            self.with_crashes += any_accepted(lists[0], lines[0], &[6, 7]) as usize;
            self.with_restarts += any_accepted(lists[0], lines[0], &[8]) as usize;
            self.others_full += lines.iter().any(|lines| lines.contains(" no 13\n")) as usize;
            let times = [0, 1].map(|i| of_board(lists[i], lines[i], board).map(|(time, ..)| time));
            let [one, two] = times.map(|times| times.collect::<Vec<_>>());
            self.elsewhere += (one != two) as usize;
        }
        Ok(())
    }

    pub fn missing(&self) -> Vec<&'static str> {
        never(&[
            ("100 pairs of lists that agree", self.agree / 100),
            ("20 pairs that agree, with crashes", self.with_crashes / 20),
            ("20 pairs that agree, with restarts", self.with_restarts / 20),
            ("20 pairs that agree, with 13 on other boards", self.others_full / 20),
            ("100 pairs that agree at other places", self.elsewhere / 100),
            ("pairs with a 13 that agree all the same", self.full_alike),
            ("20 pairs with a 13 that don't agree", self.full_other / 20),
        ])
    }
}

/// The answers that a board gets: the lines of events that name it, without their counts.
fn answers<'a>(list: &'a List, lines: &'a str, board: u8) -> Vec<&'a str> {
    of_board(list, lines, board).map(|(_, _, line)| answer(line)).collect()
}

/// Those of crashes and restarts.
fn on_every_board<'a>(list: &'a List, lines: &'a str) -> Vec<&'a str> {
    let events = list.events().zip(lines.lines());
    events.filter(|(event, _)| matches!(event.code, 6..=8)).map(|(_, line)| answer(line)).collect()
}

/// A line without its count.
fn answer(line: &str) -> &str {
    line.split_once(' ').map_or(line, |(_, answer)| answer)
}

/// Whether an event of one of these codes is accepted.
fn any_accepted(list: &List, lines: &str, codes: &[u8]) -> bool {
    let accepted = |(event, line): (Event, &str)| codes.contains(&event.code) && line.ends_with(" ok");
    list.events().zip(lines.lines()).any(accepted)
}

/// A list with the same events for a board and the same crashes and restarts. Of the other events some are the same,
/// some are left out, some are others, and some are added.
pub fn second(random: &mut Random, list: &List, board: u8, seen: &mut Seen) -> List {
    let Config { boards, .. } = list.config;
    let mood = lists::sharing(random, &list.config);
    let mood = Mood { crash_server: 0, crash_client: 0, restart: 0, wait: 0, no_crash: true, ..mood };
    let others: Vec<u8> = (1..=boards as u8).filter(|other| *other != board).collect();
    let (same, added) = (random.pick(&[0, 300, 900]), random.pick(&[0, 100, 400]));
    let made_alike = List::new(true, list.config, list.start.clone());
    let mut maker = Maker::from(random, seen, mood, made_alike);
    for event in list.events() {
        let of_board = (1..=5).contains(&event.code) && event.board == board;
        if of_board || matches!(event.code, 6..=8) || maker.random.chance(same) {
            maker.put(event);
        }
        if !of_board && maker.random.chance(400) || maker.random.chance(added) {
            maker.on = maker.random.pick(&others);
            maker.any_here();
        }
    }
    maker.list
}
