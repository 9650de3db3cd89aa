//! Tests of the program `load` from outside, against an independent model of request L3 of document 02.
//! Called as `load` it is that program, run by the model.

mod common;
mod load;
mod load_checks;
mod load_runs;
mod random;

use alone::{model, programs};
use std::process::exit;

const USAGE: &str = "loads checks
loads compare SEED SEEDS FAILURES DIRECTORY BOARD LOAD";

fn main() {
    if load::main() {
        return;
    }
    let args: Vec<String> = std::env::args().collect();
    let number = |i: usize| args.get(i).and_then(|a| a.parse().ok()).unwrap_or_else(|| usage());
    let word = |i: usize| args.get(i).map(String::as_str).unwrap_or_else(|| usage());
    let failed = match word(1) {
        "checks" => load_checks::all() as u64,
        "compare" => load_runs::compare([number(2), number(3), number(4)], word(5), word(6), word(7)),
        _ => usage(),
    };
    exit(if failed == 0 { 0 } else { 1 })
}

fn usage() -> ! {
    eprintln!("{USAGE}");
    exit(2)
}
