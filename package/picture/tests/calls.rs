//! The program as it is called: what it prints, what it says and its status.

use std::path::{Path, PathBuf};
use std::process::{Command, Output};

/// The directory of this package, or a file of the project.
fn here() -> &'static Path {
    Path::new(env!("CARGO_MANIFEST_DIR"))
}

fn project(path: &str) -> String {
    here().join("../..").join(path).display().to_string()
}

/// A file with this content, for one test.
fn file(name: &str, content: &[u8]) -> String {
    let path: PathBuf = Path::new(env!("CARGO_TARGET_TMPDIR")).join(name);
    std::fs::write(&path, content).unwrap();
    path.display().to_string()
}

fn call(words: &[&str]) -> Output {
    Command::new(env!("CARGO_BIN_EXE_picture")).args(words).output().unwrap()
}

/// The picture of a call that ends with status 0 and says nothing.
fn drawn(words: &[&str]) -> String {
    let output = call(words);
    let said = String::from_utf8_lossy(&output.stderr);
    assert!(output.status.success() && said.is_empty(), "{words:?}: {said}");
    String::from_utf8(output.stdout).unwrap()
}

/// What a call says that ends with status 1 and prints nothing.
fn told(words: &[&str]) -> String {
    let output = call(words);
    let said = String::from_utf8(output.stderr).unwrap();
    assert_eq!((output.status.code(), output.stdout.len()), (Some(1), 0), "{words:?}: {said}");
    assert!(said.starts_with("picture: ") && !said.contains("panicked"), "{words:?}: {said}");
    said
}

#[test]
fn the_programs_example() {
    let svg = drawn(&["board", &project("crates/board/stdin"), &project("crates/board/stdout")]);
    assert!(svg.contains(">read 0 0 00<") && svg.contains(">unended<") && svg.ends_with("</svg>\n"));
}

#[test]
fn figures_of_the_tests_from_outside() {
    let figure = |name: &str| {
        let [events, lines] =
            ["in", "out"].map(|end| project(&format!("tests/outside/figures/{name}.{end}")));
        drawn(&[name.split_once('_').unwrap().0, &events, &lines])
    };
    let asks_again = figure("board_4");
    assert!(asks_again.contains(">write ab<") && asks_again.contains(">read 1 2 ab<"));
    assert!(figure("simulate_3").contains(">read 1 2 22<"));
    assert!(figure("simulate_4").contains(">rank 1<"));
    assert!(!figure("simulate_5").contains(">rank 1<"));
}

#[test]
fn one_of_several_boards() {
    let [events, lines] =
        ["in", "out"].map(|end| project(&format!("tests/outside/figures/simulate_6.{end}")));
    let of = |board: &str| drawn(&["simulate", &events, &lines, "--board", board]);
    assert!(of("1").contains("board 1 of 2; 15 events"));
    assert!(of("2").contains("board 2 of 2; 15 events") && of("2").contains(">server 3<"));
    assert!(told(&["simulate", &events, &lines, "--board", "3"]).contains("the events have no board 3"));
}

/// Server 3 crashes and comes back. Restarts of one that is up and of one that is not there are refused, and drawn
/// nowhere.
#[test]
fn a_server_that_comes_back() {
    let record = |code, party| [code, party, 0, 0, 0, 0, 0];
    let events = [record(6, 3), record(2, 1), record(8, 3), record(8, 3), record(8, 4), record(9, 1)];
    let events = file("restart_events", &events.concat());
    let lines = file("restart_lines", b"1 ok\n2 ok\n3 ok\n4 no 9\n5 no 8\n6 no 7\n");
    let svg = drawn(&["board", &events, &lines]);
    assert!(svg.contains("server 3 crashes at event 1<") && svg.contains("server 3 restarts at event 3<"));
    assert_eq!(svg.matches(" restarts at ").count(), 1);
}

#[test]
fn the_example_is_the_picture_of_the_documents() {
    let [events, lines] =
        ["events", "lines"].map(|name| here().join("example").join(name).display().to_string());
    let svg = drawn(&["simulate", &events, &lines]);
    for part in [
        ">rank 1<",
        ">write 31<",
        ">read 2 3 31<",
        "client 3 crashes",
        ">server 5<",
        "number 10 of the order",
    ] {
        assert!(svg.contains(part), "{part}");
    }
    let kept = std::fs::read_to_string(project("docs/history.svg")).unwrap();
    assert!(
        svg == kept,
        "docs/history.svg is another picture; README.md beside this package has the command"
    );
}

#[test]
fn the_record_of_a_host() {
    let record = file("record", b"begin 1 write ab\nbegin 2 read\nend 2 read 0 0 -\nend 1 written 1 1\n");
    assert!(drawn(&["host", &record]).contains(">empty<"));
    assert!(drawn(&["host", &record, "--ranks", "0,3", "--title", "a & b"]).contains(">a &amp; b<"));
    let output = call(&["host", &record, "--start", "00"]);
    assert_eq!(output.status.code(), Some(1));
    assert_eq!(String::from_utf8_lossy(&output.stderr), "picture: no order fits\n");
    assert!(String::from_utf8_lossy(&output.stdout).contains(">no order fits<"));
}

#[test]
fn bad_input_is_told() {
    let (events, lines) = (project("crates/board/stdin"), project("crates/board/stdout"));
    let odd = file("odd", &[0xff, 0xfe, 1, 2]);
    let line = file("line", b"begin 1 write abc\n");
    assert!(told(&[]).contains("picture board EVENTS LINES"));
    assert!(told(&["board", &events]).contains("not a call"));
    assert!(told(&["board", &events, "missing"]).contains("can't read missing"));
    assert!(told(&["board", &events, &odd]).contains("isn't text"));
    assert!(told(&["board", &odd, &lines]).contains("the events give `1 short`"));
    assert!(told(&["simulate", &odd, &lines]).contains("within their head"));
    assert!(told(&["simulate", &events, &lines]).contains("makes no rig: no 4"));
    assert!(told(&["host", &odd]).contains("isn't text"));
    assert!(told(&["host", &line]).contains("line 1 of the record, `begin 1 write abc`: `abc` is no board"));
    assert!(told(&["host", &line, "--start"]).contains("--start needs a value"));
    assert!(told(&["host", &here().display().to_string()]).contains("can't read"));
}

#[test]
fn help_is_no_error() {
    assert!(drawn(&["--help"]).starts_with("picture board EVENTS LINES"));
}
