//! Tests from outside: the programs `board` and `simulate` against an independent model of the documents.
//! Called as `board` or `simulate` it is that program, run by the model.

mod board_checks;
mod checks;
mod common;
mod compare;
mod directed;
mod directed_boards;
mod directed_ranks;
mod directed_restarts;
mod history;
mod list;
mod lists;
mod maker;
mod model;
mod pairs;
mod printed;
mod programs;
mod random;
mod rank_checks;
mod restart_checks;
mod restarts;
mod script;
mod search;
mod sharing;
mod speed;
mod ties;

use std::path::Path;
use std::process::exit;

const USAGE: &str = "outside checks
outside compare SEED LISTS FAILURES DIRECTORY BOARD SIMULATE
outside speed SEED DIRECTORY BOARD SIMULATE
outside edit EDIT SOURCES DIRECTORY";

fn main() {
    if programs::main() {
        return;
    }
    let args: Vec<String> = std::env::args().collect();
    let number = |i: usize| args.get(i).and_then(|a| a.parse().ok()).unwrap_or_else(|| usage());
    let word = |i: usize| args.get(i).map(String::as_str).unwrap_or_else(|| usage());
    let failed = match word(1) {
        "checks" => checks::all(),
        "compare" => compare::compare([number(2), number(3), number(4)], word(5), word(6), word(7)),
        "speed" => speed::speed(number(2), word(3), word(4), word(5)),
        "edit" => edit(word(2), word(3), word(4)),
        _ => usage(),
    };
    exit(if failed == 0 { 0 } else { 1 })
}

fn usage() -> ! {
    eprintln!("{USAGE}");
    exit(2)
}

/// Copies the sources with one of them changed, as the edit says: each old text by the new one after it.
fn edit(edit: &str, sources: &str, directory: &str) -> usize {
    let text = std::fs::read_to_string(edit).expect("the edit");
    let fields = |name: &str| -> Vec<&str> {
        let lines = text.lines().filter_map(|line| line.strip_prefix(name));
        lines.map(|line| line.strip_prefix(": ").expect("a field's text").trim()).collect()
    };
    let (file, changes) = (fields("file")[0], fields("old").into_iter().zip(fields("new")));
    std::fs::create_dir_all(directory).expect("the directory");
    for entry in std::fs::read_dir(sources).expect("the sources") {
        let path = entry.expect("a source").path();
        if path.extension().is_some_and(|e| e == "rs") {
            let mut source = std::fs::read_to_string(&path).expect("a source");
            for (old, new) in changes.clone().filter(|_| path.ends_with(file)) {
                assert_eq!(source.matches(old).count(), 1, "{edit}: old text stands once");
                source = source.replace(old, new);
            }
            std::fs::write(Path::new(directory).join(path.file_name().unwrap()), source).expect("a copy");
        }
    }
    0
}
