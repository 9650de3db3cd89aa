//! Events per second of the programs and of the model on the same list. Prints a table; decides nothing.

use crate::list::shared;
use crate::lists;
use crate::maker::Seen;
use crate::model::Config;
use crate::programs::PROGRAM;
use std::fs::File;
use std::path::Path;
use std::process::Command;
use std::time::Duration;

const ROUNDS: usize = 15;

/// Processor time of the children that have ended (Linux).
fn of_children() -> Duration {
    unsafe extern "C" {
        fn getrusage(who: i32, usage: *mut [i64; 18]) -> i32;
    }
    let mut usage = [0; 18];
    assert_eq!(unsafe { getrusage(-1, &mut usage) }, 0);
    Duration::from_micros((1_000_000 * (usage[0] + usage[2]) + usage[1] + usage[3]) as u64)
}

/// Processor time of one run from a file to a file.
fn time(program: &Path, input: &Path, output: &Path) -> Duration {
    let (stdin, stdout) = (File::open(input).unwrap(), File::create(output).unwrap());
    let before = of_children();
    let status = Command::new(program).stdin(stdin).stdout(stdout).status().expect("a program to run");
    assert!(status.success(), "{}: {status}", program.display());
    of_children() - before
}

/// Prints a row for each program; a difference in the last lines counts as a failure.
pub fn speed(seed: u64, directory: &str, board: &str, simulate: &str) -> usize {
    let large = Config { n: 16, k: 8, d: 7, e: 64, c: 16, m: 512, ..PROGRAM };
    let of_eight = shared(large, &[32; 8]);
    println!("seed {seed}: events a second of processor time, the best of {ROUNDS} rounds in turn");
    println!(
        "program  (N, k, E, D, C, M)   boards   events  written   read     model   program  program's time/model's"
    );
    let directory = Path::new(directory);
    row(seed, directory, "board", &PROGRAM, 2_000_000, board)
        + row(seed, directory, "simulate", &large, 100_000, simulate)
        + row(seed, directory, "simulate", &of_eight, 100_000, simulate)
}

fn row(seed: u64, directory: &Path, name: &str, config: &Config, events: usize, program: &str) -> usize {
    let mut seen = Seen::default();
    let list = lists::long(seed, *config, name == "simulate", events, &mut seen);
    let input = directory.join(format!("speed.{name}"));
    std::fs::write(&input, &list.input).unwrap();
    let (by_model, by_program) = (directory.join("speed.model.out"), directory.join("speed.program.out"));
    let (mut model_best, mut program_best) = (Duration::MAX, Duration::MAX);
    for _ in 0..ROUNDS {
        model_best = model_best.min(time(&directory.join(name), &input, &by_model));
        program_best = program_best.min(time(Path::new(program), &input, &by_program));
    }
    let Config { n, k, d, e, c, m, boards, .. } = config;
    let config = format!("({n}, {k}, {e}, {d}, {c}, {m})");
    let a_second = |best: Duration| events as f64 / best.as_secs_f64();
    println!(
        "{name:<9}{config:<22}{boards:>6}{events:>9}{:>9}{:>7}{:>10.0}{:>10.0}{:>8.2}",
        seen.written,
        seen.read,
        a_second(model_best),
        a_second(program_best),
        program_best.as_secs_f64() / model_best.as_secs_f64()
    );
    let same = std::fs::read(by_model).unwrap() == std::fs::read(by_program).unwrap();
    if !same {
        println!("FAILED: {name}: lines differ on {}", input.display());
    }
    !same as usize
}
