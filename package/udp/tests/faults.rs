//! Five servers and three clients as processes, for some seconds, under loss, doubling, delay and kills. What
//! the clients record must be what one board in one place could have shown.

mod common;

use board_udp::draws::Draws;
use board_udp::history::{events, operations, Operation};
use board_udp::search::{fits, search, Found};
use board_udp::shared::Shared;
use coded_board::{Config, Tag};
use common::{Place, Running};
use std::collections::HashMap;
use std::fs;
use std::process::{Child, Stdio};
use std::sync::atomic::{AtomicUsize, Ordering};
use std::thread::{scope, sleep};
use std::time::{Duration, Instant};

const LENGTH: Duration = Duration::from_secs(8);
const SERVERS: u8 = 5;
const CLIENTS: u8 = 3;
const STEPS: usize = 1_000_000;

/// A board's processes, and what is done to them on purpose.
struct Run {
    place: Place,
    until: Instant,
    started: AtomicUsize,
    server_kills: AtomicUsize,
    most_down: AtomicUsize,
    client_kills: AtomicUsize,
    given_up: AtomicUsize,
}

impl Run {
    fn new() -> Run {
        let [started, server_kills, most_down, client_kills, given_up] = [0; 5].map(AtomicUsize::new);
        let (place, until) = (Place::with_board("faults"), Instant::now() + LENGTH);
        Run { place, until, started, server_kills, most_down, client_kills, given_up }
    }

    /// The faults that a process makes, each from a seed of its own.
    fn faults(&self) -> String {
        let (seed, log) = (self.started.fetch_add(1, Ordering::Relaxed), self.place.folder.join("faults"));
        format!("--loss 8 --double 8 --delay 12 --seed {seed} --faults {}", log.display())
    }

    fn server(&self, place: usize) -> Running {
        self.place.start(place as u8 + 1, &self.faults())
    }

    fn client(&self, command: &str, rest: &str) -> Child {
        let history = self.place.folder.join("history");
        let options =
            format!("{rest} --wait 30 --seconds 3 --history {} {}", history.display(), self.faults());
        self.place.client(command, &options).stdout(Stdio::null()).stderr(Stdio::piped()).spawn().unwrap()
    }

    /// Kills servers and starts them again: one at a time mostly, which a quorum can spare, and now and then
    /// two or three.
    fn kill_servers(&self, servers: &mut [Option<Running>]) {
        let mut draws = Draws::new(1);
        while Instant::now() < self.until {
            pause(&mut draws, 10, 120);
            let down = if draws.percent(75) { 1 } else { 2 + draws.up_to(1) as usize };
            let first = draws.up_to(4) as usize;
            let chosen: Vec<usize> = (0..down).map(|more| (first + 2 * more) % servers.len()).collect();
            for place in &chosen {
                let mut running = servers[*place].take().unwrap();
                assert!(running.runs(), "server {} has stopped by itself", place + 1);
                running.kill();
            }
            self.server_kills.fetch_add(down, Ordering::Relaxed);
            self.most_down.fetch_max(down, Ordering::Relaxed);
            pause(&mut draws, 10, 120);
            chosen.iter().for_each(|place| servers[*place] = Some(self.server(*place)));
        }
    }

    /// Operations of a client, one process each; some are killed in the middle, and the next goes on with
    /// what they left.
    fn operate(&self, client: u8) {
        let mut draws = Draws::new(100 + u64::from(client));
        for count in 0.. {
            if Instant::now() >= self.until {
                break;
            }
            let text = format!("{client} {client}.{count}.{}", "x".repeat(draws.up_to(12) as usize));
            let call = if draws.percent(50) {
                self.client("put", &text)
            } else {
                self.client("get", &client.to_string())
            };
            let life = draws.percent(33).then(|| Duration::from_millis(draws.up_to(80)));
            self.end(call, life);
        }
    }

    /// Waits till a client's process ends, or kills it after a while.
    fn end(&self, mut call: Child, life: Option<Duration>) {
        life.into_iter().for_each(sleep);
        if life.is_some() && call.try_wait().unwrap().is_none() {
            call.kill().unwrap();
            call.wait().unwrap();
            self.client_kills.fetch_add(1, Ordering::Relaxed);
            return;
        }
        let output = call.wait_with_output().unwrap();
        let text = String::from_utf8(output.stderr).unwrap();
        assert!(output.status.success() || text.contains("gave up"), "{text}");
        self.given_up.fetch_add((!output.status.success()).into(), Ordering::Relaxed);
    }

    /// With all servers up, client 3 is killed for good in a write, and the others end what they left open,
    /// and read.
    fn rest(&self) {
        self.end(self.client("put", "3 the-last"), Some(Duration::from_millis(20)));
        for client in ["1", "2", "1"] {
            let output = self.client("get", client).wait_with_output().unwrap();
            assert!(output.status.success(), "{output:?}");
        }
    }

    fn told(&self, fault: &str) -> usize {
        let log = fs::read_to_string(self.place.folder.join("faults")).unwrap();
        log.lines().filter(|line| line.ends_with(fault)).count()
    }
}

fn pause(draws: &mut Draws, low: u64, high: u64) {
    sleep(Duration::from_millis(low + draws.up_to(high - low)));
}

#[test]
fn what_clients_see_is_one_board() {
    let run = &Run::new();
    let mut servers: Vec<Option<Running>> =
        (0..SERVERS.into()).map(|place| Some(run.server(place))).collect();
    scope(|threads| {
        (1..=CLIENTS).for_each(|client| _ = threads.spawn(move || run.operate(client)));
        run.kill_servers(&mut servers);
    });
    run.rest();
    assert!(servers.iter_mut().flatten().all(|server| server.runs()));
    let history = fs::read_to_string(run.place.folder.join("history")).unwrap();
    let operations = operations(&events(&history).unwrap()).unwrap();
    let shared = Shared::read(&run.place.board_folder().join("config")).unwrap();
    has_an_order(&operations, &shared);
    happened(run, &operations);
}

/// An order that fits is found, and the order of tags is one.
fn has_an_order(operations: &[Operation], shared: &Shared) {
    match search(operations, &shared.start, STEPS) {
        Found::Order(order) => assert!(fits(operations, &shared.start, &order)),
        other => panic!("{other:?}: {operations:#?}"),
    }
    let order = by_tags(operations, shared);
    assert!(fits(operations, &shared.start, &order), "{operations:#?}");
}

/// The operations by their tags, each write before the reads of its tag. An unended write has the tag of the
/// reads that show it; one that no read shows is left out.
fn by_tags(operations: &[Operation], shared: &Shared) -> Vec<usize> {
    let reads = operations.iter().filter(|operation| !operation.write);
    let shown: HashMap<&[u8], Option<Tag>> = reads.map(|read| (&read.board[..], read.tag)).collect();
    let tag = |place: &usize| {
        let operation = &operations[*place];
        operation.tag.or_else(|| shown.get(&operation.board[..]).copied().flatten())
    };
    let mut order: Vec<usize> = (0..operations.len()).filter(|place| tag(place).is_some()).collect();
    order.sort_by_key(|place| {
        (tag(place).map(|tag| key(tag, &shared.config)), !operations[*place].write, *place)
    });
    let writes = order.iter().filter(|place| operations[**place].write).filter_map(tag);
    let writes: Vec<Tag> = writes.collect();
    assert!(writes.windows(2).all(|two| two[0] != two[1]), "a tag was given twice");
    order
}

/// A tag's place among tags: by number, rank and client.
fn key(tag: Tag, config: &Config) -> (u32, u8, u8) {
    (tag.number, config.rank(tag.client), tag.client)
}

/// The run was worth its time.
fn happened(run: &Run, operations: &[Operation]) {
    let ended = operations.iter().filter(|operation| operation.end.is_some()).count();
    let read = operations.iter().filter(|operation| !operation.write).count();
    let [server_kills, most_down] =
        [&run.server_kills, &run.most_down].map(|count| count.load(Ordering::Relaxed));
    let [client_kills, given_up] =
        [&run.client_kills, &run.given_up].map(|count| count.load(Ordering::Relaxed));
    let [lost, doubled, delayed] = ["lost", "doubled", "delayed"].map(|fault| run.told(fault));
    println!("{ended} operations ended, {read} of them reads; {} writes unended", operations.len() - ended);
    println!("{server_kills} kills of servers, up to {most_down} down; {client_kills} kills of clients");
    println!("{given_up} calls gave up");
    println!("datagrams: {lost} lost, {doubled} doubled, {delayed} delayed");
    assert!(ended >= 30 && read >= 10 && ended - read >= 10);
    assert!(server_kills >= 10 && most_down >= 2 && client_kills >= 5);
    assert!(lost >= 20 && doubled >= 20 && delayed >= 20);
}
