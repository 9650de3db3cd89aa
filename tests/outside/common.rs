//! What the tests of every program use: checks, running a program, the first difference.

use std::io::{self, Write};
use std::process::{Command, Output, Stdio};
use std::thread;

pub type Checks = Vec<(&'static str, bool)>;

/// Prints the checks that failed; their number.
pub fn tell(name: &str, checks: &Checks) -> usize {
    let failed: Vec<_> = checks.iter().filter(|(_, holds)| !holds).collect();
    failed.iter().for_each(|(what, _)| println!("FAILED: {what}"));
    println!("{name}: {} checks, {} failed", checks.len(), failed.len());
    failed.len()
}

/// The names of counts that are 0.
pub fn never(counts: &[(&'static str, usize)]) -> Vec<&'static str> {
    counts.iter().filter(|(_, count)| *count == 0).map(|(name, _)| *name).collect()
}

/// What a program puts out, handed the input in pieces of so many bytes.
pub fn output(command: &mut Command, input: &[u8], piece: usize) -> io::Result<Output> {
    let mut child = command.stdin(Stdio::piped()).stdout(Stdio::piped()).spawn()?;
    let mut stdin = child.stdin.take().unwrap();
    thread::scope(|scope| {
        // A program that has ended may leave input unread.
        scope.spawn(move || input.chunks(piece).try_for_each(|piece| stdin.write_all(piece)));
        child.wait_with_output()
    })
}

/// The first line in which two outputs differ.
pub fn difference(expected: &str, printed: &str) -> Option<String> {
    if expected == printed {
        return None;
    }
    let (mut e, mut p) = (expected.split('\n'), printed.split('\n'));
    for number in 1.. {
        let (due, got) = (e.next(), p.next());
        if due != got || due.is_none() {
            return Some(format!("line {number}: due {due:?}, printed {got:?}"));
        }
    }
    unreachable!()
}
