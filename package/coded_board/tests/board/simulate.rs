//! The crate's steps in a rig, held to the program `simulate` line by line.

use crate::lists::{list, Maker, Met};
use crate::random::Random;
use crate::rig::{line, Event, Rig, Unseen};
use coded_board::Config;
use std::io::Write;
use std::path::PathBuf;
use std::process::{Command, Stdio};

const SEED: u64 = 20_260_802;
const LISTS: u64 = 2400;

fn program() -> PathBuf {
    let folder = PathBuf::from(env!("CARGO_MANIFEST_DIR"));
    let named = std::env::var_os("CODED_BOARD_SIMULATE").map(PathBuf::from);
    folder.join(named.unwrap_or("../../crates/simulate/out/simulate".into()))
}

/// What `simulate` prints of an input.
pub fn printed(input: &[u8]) -> String {
    let program = program();
    let mut child =
        Command::new(&program).stdin(Stdio::piped()).stdout(Stdio::piped()).spawn().unwrap_or_else(|why| {
            panic!("{}: {why}; CODED_BOARD_SIMULATE can name another", program.display())
        });
    let mut stdin = child.stdin.take().expect("a pipe");
    let output = std::thread::scope(|scope| {
        scope.spawn(move || stdin.write_all(input).expect("the program reads its input"));
        child.wait_with_output().expect("the program ends")
    });
    assert!(output.status.success());
    String::from_utf8(output.stdout).expect("lines are text")
}

/// The first line that differs.
pub fn differs(printed: &str, due: &[String]) -> Option<String> {
    let mut lines = printed.lines();
    for due in due {
        let line = lines.next().unwrap_or("nothing");
        if line != due {
            return Some(format!("simulate has `{line}`, the crate `{due}`"));
        }
    }
    lines.next().map(|line| format!("simulate has `{line}` besides"))
}

#[test]
fn lines_are_those_of_simulate() {
    let (mut met, mut unseen) = (Met::default(), Unseen::default());
    for number in 0..LISTS {
        let random = &mut Random::new(SEED, number);
        let Maker { rig, input, lines, .. } = list(random, number, &mut met);
        if let Some(what) = differs(&printed(&input), &lines) {
            panic!("list {number} of seed {SEED}, {:?}: {what}", rig.config);
        }
        unseen.not_awaited += rig.unseen.not_awaited;
        unseen.to_crashed += rig.unseen.to_crashed;
        unseen.asked_again += rig.unseen.asked_again;
        unseen.remembered += rig.unseen.remembered;
        unseen.ended_by_restarted += rig.unseen.ended_by_restarted;
        unseen.most_in_flight = unseen.most_in_flight.max(rig.unseen.most_in_flight);
    }
    println!("{met:?} {unseen:?}");
    enough(&met, &unseen);
}

/// The lists have met what they are for.
fn enough(met: &Met, unseen: &Unseen) {
    assert!(met.written >= 5000 && met.read >= 5000, "{met:?}");
    assert!(met.read_empty >= 100 && met.read_part >= 500 && met.read_wide >= 50, "{met:?}");
    for number in [7, 8, 9, 10, 13, 19, 22] {
        assert!(met.refused[number] >= 100, "{number}: {met:?}");
    }
    assert!(
        unseen.not_awaited >= 5000 && unseen.to_crashed >= 500 && unseen.asked_again >= 200,
        "{unseen:?}"
    );
    assert!(met.restarted >= 500 && met.restart_of_none >= 500 && met.restart_of_up >= 500, "{met:?}");
    assert!(unseen.remembered >= 500 && unseen.ended_by_restarted >= 500, "{unseen:?}");
    assert_eq!(unseen.most_in_flight, 512);
}

/// Making is refused with the numbers that `simulate` prints, in its order.
#[test]
fn makings_are_refused_as_simulate_does() {
    let random = &mut Random::new(SEED, LISTS);
    let mut refused = [0; 23];
    for _ in 0..400 {
        let any = [
            random.within(1, 16),
            random.within(1, 5),
            random.below(8),
            random.within(1, 64),
            random.within(1, 16),
        ];
        let mut head = any.map(|number| number as u8);
        for _ in 0..random.below(3) {
            head[random.below(5)] = random.pick(&[0, 8, 17, 65, 255]);
        }
        let most = random.pick(&[3, 3, 4, 255]);
        let ranks: Vec<u8> = (0..16).map(|_| random.within(0, most) as u8).collect();
        let [n, k, d, e, c] = head;
        let one_board = [1, 0, 0];
        let input = [&head[..], &[1, 0], &ranks[..usize::from(c).min(16)], &one_board, &[0; 1024]].concat();
        let line = printed(&input).lines().next().unwrap_or("").to_string();
        match Config::new(n, k, d, e, c, &ranks) {
            Ok(_) => assert!(!line.starts_with("0 "), "{head:?} {ranks:?}: {line}"),
            Err(no) => {
                assert_eq!(line, format!("0 no {}", no.number()), "{head:?} {ranks:?}");
                refused[usize::from(no.number())] += 1;
            }
        }
    }
    assert!([1, 2, 3, 4, 5, 21].iter().all(|number| refused[*number] >= 10), "{refused:?}");
}

/// The lines of these codes, parties and positions in the configuration of the program `board`, which are held to
/// those of `simulate`. A write is of byte 11, hexadecimal.
fn lines_of(events: &[(u8, u8, u16)]) -> Vec<String> {
    let config = Config::new(3, 1, 0, 1, 2, &[]).expect("the program's configuration");
    let mut rig = Rig::fresh(&config, 64, &[0]).expect("a fresh rig");
    let mut input = vec![3, 1, 0, 1, 2, 64, 0, 0, 0, 1, 0, 0, 0];
    let mut lines = vec![];
    for (code, party, position) in events.iter().copied() {
        let event = Event { code, party, position, on: 1, board: vec![0x11], length: 1 };
        input.extend(event.bytes());
        lines.push(line(lines.len() + 1, &rig.event(&event)));
    }
    assert_eq!(differs(&printed(&input), &lines), None);
    lines
}

/// Document 01's ten events, with its lines.
#[test]
fn the_ten_events_of_document_01() {
    let events = [
        (2, 1, 0),
        (3, 0, 0),
        (3, 0, 0),
        (3, 0, 1),
        (3, 0, 1),
        (3, 0, 1),
        (3, 0, 1),
        (3, 0, 2),
        (3, 0, 2),
        (1, 3, 0),
    ];
    let due = "1 ok,2 ok,3 ok,4 ok,5 ok,6 ok,7 ok,8 ok,9 read 0 0 00,10 no 8";
    assert_eq!(lines_of(&events).join(","), due);
}

/// A write ends through servers 1 and 2; server 1 crashes and comes back; a read then ends through servers 1 and 3, and
/// shows what was written, which server 1 alone of the two has.
#[test]
fn a_server_comes_back_with_what_it_stored() {
    let hand_over = |positions: &[u16]| positions.iter().map(|p| (3, 0, *p)).collect::<Vec<_>>();
    let events = [
        vec![(1, 1, 0)],
        hand_over(&[0, 0, 1, 1, 1, 1, 2, 2, 2, 2, 3, 3]),
        vec![(6, 1, 0), (8, 1, 0), (2, 2, 0)],
        hand_over(&[3, 4, 4, 4, 4, 5, 5, 5]),
    ];
    let lines = lines_of(&events.concat());
    let ends = |line: &&String| !line.ends_with(" ok");
    assert_eq!(lines.iter().filter(ends).collect::<Vec<_>>(), ["13 written 1 1", "24 read 1 1 11"]);
    assert_eq!(lines.len(), 24);
}
