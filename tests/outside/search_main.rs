//! The search alone, of what the model itself prints: what is built of an error that histories show. Called as
//! `board` or `simulate` it is that program.
#![allow(dead_code)]

mod common;
mod history;
mod list;
mod lists;
mod maker;
mod model;
mod programs;
mod random;
mod restarts;
mod search;
mod sharing;
mod ties;

use search::{Fault, ordered};
use std::process::exit;

fn main() {
    if programs::main() {
        return;
    }
    let numbers: Vec<u64> = std::env::args().skip(1).map(|a| a.parse().expect("SEED LISTS")).collect();
    exit(search_all(numbers[0], numbers[1]))
}

/// Histories of adverse, clearing, tied and shared lists in turn, up to the first without an order that fits. Where each has
/// one, tells the first in which the writes rise in none.
fn search_all(seed: u64, count: u64) -> i32 {
    let mut none_rises = None;
    for number in 0..count {
        let kinds = [lists::ADVERSE, lists::CLEARING, lists::TIED, lists::SHARED];
        let kind = kinds[number as usize % kinds.len()];
        let list = lists::list(seed, lists::KINDS * number + kind, &mut maker::Seen::default());
        let told = |what: String| {
            let what: String = what.chars().take(80).collect();
            format!("seed {seed}: history {} of {count}: {what}", number + 1)
        };
        match ordered(&list, &list.lines()) {
            Ok(_) => {}
            Err(Fault::NoneRises(what)) => _ = none_rises.get_or_insert_with(|| told(what)),
            Err(Fault::NoOrder(what)) => {
                println!("{}", told(what));
                return 1;
            }
        }
    }
    let rise = if none_rises.is_none() { ", in which writes rise" } else { "" };
    println!("seed {seed}: each of {count} histories has an order that fits{rise}");
    none_rises.iter().for_each(|what| println!("{what}"));
    none_rises.is_some() as i32
}
