//! A board in a folder of its own, its servers and its commands as processes.
#![allow(dead_code)]

pub mod servers;

use board_udp::network::Ports;
use std::fs;
use std::io::{BufRead, BufReader};
use std::path::PathBuf;
use std::process::{Child, Command, Output, Stdio};
use std::sync::Mutex;

/// The base given last; tests that run at once get different ones.
static LAST: Mutex<u16> = Mutex::new(0);

fn ports(servers: u8) -> Ports {
    let mut last = LAST.lock().unwrap_or_else(|poisoned| poisoned.into_inner());
    if *last == 0 {
        *last = 10_000 + (std::process::id() % 500) as u16 * 32;
    }
    let ports = Ports::free(*last + 32, servers).unwrap();
    *last = ports.base();
    ports
}

/// A board's folder, taken away at the end.
pub struct Place {
    pub folder: PathBuf,
    pub ports: Ports,
}

impl Place {
    /// An empty place.
    pub fn new(name: &str) -> Place {
        let folder =
            PathBuf::from(env!("CARGO_TARGET_TMPDIR")).join(format!("{name}-{}", std::process::id()));
        _ = fs::remove_dir_all(&folder);
        fs::create_dir_all(&folder).unwrap();
        Place { folder, ports: ports(5) }
    }

    /// A place with a board: five servers, any three elements of 8 bytes, three clients.
    pub fn with_board(name: &str) -> Place {
        let place = Place::new(name);
        let sizes = "--servers 5 --threshold 3 --depth 2 --width 8 --clients 3 --ranks 0,1,0 --start start";
        let made = place.init(sizes);
        assert!(made.status.success(), "{made:?}");
        place
    }

    /// The board's shared folder.
    pub fn board_folder(&self) -> PathBuf {
        self.folder.join("board")
    }

    /// A file that a client keeps, by its name.
    pub fn of_client(&self, client: u8, name: &str) -> PathBuf {
        self.board_folder().join(format!("client-{client}")).join(name)
    }

    /// A server's folder.
    pub fn disk(&self, server: u8) -> PathBuf {
        self.folder.join(format!("server-{server}"))
    }

    pub fn init(&self, sizes: &str) -> Output {
        board().arg("init").arg(self.board_folder()).args(sizes.split(' ')).output().unwrap()
    }

    /// A command of a client: `put`, `get` or `finish`, the client, the text, and options.
    pub fn client(&self, command: &str, rest: &str) -> Command {
        let mut all = board();
        all.arg(command).arg(self.board_folder()).args(rest.split_whitespace());
        all.args(["--ports", &self.ports.base().to_string()]);
        all
    }

    /// What such a command says, and whether it succeeds.
    pub fn said(&self, command: &str, rest: &str) -> (bool, String) {
        said(self.client(command, rest).output().unwrap())
    }

    /// A server's command. It ends by itself in the end.
    pub fn server(&self, server: u8, options: &str) -> Command {
        let mut all = Command::new(env!("CARGO_BIN_EXE_board-server"));
        all.arg(self.disk(server)).arg(server.to_string());
        all.arg(self.board_folder().join("config")).arg(self.ports.base().to_string());
        all.args(["--seconds", "60"]).args(options.split_whitespace());
        all
    }

    /// Starts a server, and waits till it answers.
    pub fn start(&self, server: u8, options: &str) -> Running {
        let mut child = self.server(server, options).stdout(Stdio::piped()).spawn().unwrap();
        let mut line = String::new();
        BufReader::new(child.stdout.take().unwrap()).read_line(&mut line).unwrap();
        let running = Running(child);
        assert!(line.starts_with(&format!("server {server} answers")), "{line}");
        running
    }

    pub fn start_all(&self) -> Vec<Running> {
        (1..=5).map(|server| self.start(server, "")).collect()
    }
}

impl Drop for Place {
    fn drop(&mut self) {
        if !std::thread::panicking() {
            _ = fs::remove_dir_all(&self.folder);
        }
    }
}

fn board() -> Command {
    Command::new(env!("CARGO_BIN_EXE_board"))
}

/// What a command printed, and whether it succeeded.
pub fn said(output: Output) -> (bool, String) {
    let text = [output.stdout, output.stderr].concat();
    (output.status.success(), String::from_utf8(text).unwrap())
}

/// A process that is killed at the end.
pub struct Running(Child);

impl Running {
    /// Whether it still runs.
    pub fn runs(&mut self) -> bool {
        self.0.try_wait().unwrap().is_none()
    }

    /// Kills it at once, as kill -9 does.
    pub fn kill(mut self) {
        self.end();
    }

    fn end(&mut self) {
        _ = self.0.kill();
        _ = self.0.wait();
    }
}

impl Drop for Running {
    fn drop(&mut self) {
        self.end();
    }
}
