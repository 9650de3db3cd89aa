//! Steps a second: a server's step, a client's begin and a client's step, through `coded_board` and in the independent
//! model of `tests/outside`, on the same random lists. `bash bench/steps` builds the proved archive and runs it.
//!
//! Both run each list in this process before they are timed, and all that they answer and send is compared. Then rounds
//! of both take turns, and the least time of each counts. Parties are made, and records put in order, outside the time.

mod lists;
#[rustfmt::skip]
#[allow(dead_code, clippy::all)]
#[path = "../../../tests/outside/model.rs"]
mod model;
#[allow(dead_code)]
#[path = "../../coded_board/tests/board/random.rs"]
mod random;
mod same;
mod sides;

use lists::List;
use model::Config;
use sides::{Modelled, Party, Proved, Tally};
use std::time::{Duration, Instant};

const SEED: u64 = 20_261_117;
/// Steps in the lists of a configuration, at least.
const STEPS: usize = 20_000;
const ROUNDS: usize = 100;

/// N, k, D and E, for four clients.
const AT: [[usize; 4]; 3] = [[3, 1, 0, 1], [5, 3, 2, 64], [16, 8, 7, 64]];

fn config([n, k, d, e]: [usize; 4]) -> Config {
    let mut ranks = [0; 16];
    ranks[..4].copy_from_slice(&[1, 0, 2, 0]);
    Config { n, k, d, e, c: 4, m: 512, ranks, boards: 1, shares: [0; 8] }
}

/// All lists, run once each by fresh parties of one kind.
fn round<P: Party>(config: &Config, lists: &[List<P::Record>]) -> (Duration, Tally) {
    let mut parties: Vec<P> = lists.iter().map(|list| P::fresh(config, &list.start)).collect();
    let mut tally = Tally::default();
    let start = Instant::now();
    for (party, list) in parties.iter_mut().zip(lists) {
        list.steps.iter().for_each(|step| party.step(step, &mut tally));
    }
    (start.elapsed(), tally)
}

fn row(at: [usize; 4]) {
    let config = config(at);
    let modelled = lists::some(&config, SEED, STEPS);
    let proved: Vec<_> = modelled.iter().map(|list| list.with(same::record)).collect();
    if let Err(what) = modelled.iter().zip(&proved).try_for_each(|(a, b)| same::compare(&config, a, b)) {
        eprintln!("{at:?}: {what}");
        std::process::exit(1);
    }
    let (mut by_crate, mut by_model) = (Duration::MAX, Duration::MAX);
    let mut tally = Tally::default();
    for number in 0..ROUNDS {
        let (took, told) = round::<Proved>(&config, &proved);
        let (model_took, model_told) = round::<Modelled>(&config, &modelled);
        assert_eq!(told, model_told, "{at:?}, round {number}");
        (by_crate, by_model, tally) = (by_crate.min(took), by_model.min(model_took), told);
    }
    let steps = modelled.iter().map(|list| list.steps.len()).sum::<usize>();
    let [servers, begins, clients] = lists::kinds(&modelled);
    let a_second = |least: Duration| steps as f64 / least.as_secs_f64();
    println!(
        "{:<15}{steps:>7}{servers:>10}{begins:>8}{clients:>10}{:>9}{:>7}{:>13.0}{:>12.0}{:>21.2}",
        format!("({}, {}, {}, {})", at[0], at[1], at[2], at[3]),
        tally.written,
        tally.read,
        a_second(by_crate),
        a_second(by_model),
        a_second(by_crate) / a_second(by_model),
    );
}

fn main() {
    println!("steps a second, the best of {ROUNDS} rounds in turn; seed {SEED}");
    println!(
        "{:<15}{:>7}{:>10}{:>8}{:>10}{:>9}{:>7}{:>13}{:>12}{:>21}",
        "(N, k, D, E)",
        "steps",
        "servers'",
        "begins",
        "clients'",
        "written",
        "read",
        "coded_board",
        "model",
        "coded_board / model"
    );
    AT.into_iter().for_each(row);
    println!("all answers and records of both compared, all equal");
}

#[cfg(test)]
mod tests {
    use super::*;
    use coded_board::Record;
    use lists::Step;

    /// The lists of a configuration, those of the crate with this change.
    fn compared(at: [usize; 4], change: impl Fn(&mut List<Record>)) -> Result<(), String> {
        let config = config(at);
        lists::some(&config, 1, 3000).iter().try_for_each(|list| {
            let mut changed = list.with(same::record);
            change(&mut changed);
            same::compare(&config, list, &changed)
        })
    }

    #[test]
    fn both_answer_alike() {
        AT.into_iter().for_each(|at| assert_eq!(compared(at, |_| ()), Ok(())));
    }

    #[test]
    fn differences_show() {
        for at in AT {
            assert!(compared(at, |list| list.start[0] ^= 1).is_err());
            assert!(compared(at, |list| list.steps.swap(0, 1)).is_err());
            assert!(compared(at, |list| _ = list.steps.remove(100)).is_err());
        }
    }

    /// Reads and writes end in them, and where D is 0 reads ask again.
    #[test]
    fn what_lists_have() {
        for at in AT {
            let config = config(at);
            let lists = lists::some(&config, SEED, STEPS);
            let (_, tally) = round::<Modelled>(&config, &lists);
            assert!(tally.written >= 100 && tally.read >= 100, "{at:?}: {tally:?}");
            let cleared =
                |step: &&Step<model::Record>| matches!(step, Step::Client(_, r) if r.kind == model::CLEARED);
            let cleared = lists.iter().flat_map(|list| &list.steps).filter(cleared).count();
            assert!(config.d > 0 || cleared >= 100, "{at:?}: {cleared}");
        }
    }
}
