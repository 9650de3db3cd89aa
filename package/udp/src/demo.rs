//! A board on five servers, of which one is killed: each step as a command of its own.

use crate::disk::said;
use crate::network::Ports;
use crate::text::say;
use crate::Result;
use std::fs;
use std::io::{BufRead, BufReader};
use std::path::PathBuf;
use std::process::{Child, Command, Stdio};

const SERVERS: u8 = 5;
/// A server of the demo ends by itself after so many seconds.
const SECONDS: &str = "60";

struct Demo {
    folder: PathBuf,
    ports: Ports,
    servers: Vec<Option<Child>>,
}

/// Runs the demo in a folder of its own, and takes it away again.
pub fn run() -> Result<()> {
    let ports = Ports::free(20_000 + (std::process::id() % 300) as u16 * 32, SERVERS)?;
    let folder = std::env::temp_dir().join(format!("board-demo-{}", std::process::id()));
    fs::create_dir(&folder).map_err(said(&folder))?;
    let mut demo = Demo { folder, ports, servers: (0..SERVERS).map(|_| None).collect() };
    demo.steps()
}

impl Demo {
    fn steps(&mut self) -> Result<()> {
        say("A board for 2 clients on 5 servers; any 3 elements give it back, 4 servers must answer.")?;
        self.board("init", "--servers 5 --threshold 3 --depth 2 --width 16 --clients 2 --start nothing-yet")?;
        (1..=SERVERS).try_for_each(|s| self.start(s))?;
        self.board("get", "2")?;
        self.board("put", "1 Amal,Bo,Chi,Dee")?;
        self.board("get", "2")?;
        say("Server 3 is killed.")?;
        self.kill(3);
        self.board("get", "2")?;
        self.board("put", "2 Amal,Chi,Dee")?;
        say("Server 3 starts again, from its disk.")?;
        self.start(3)?;
        self.board("get", "1")
    }

    /// Runs one command of `board` and prints it.
    fn board(&self, command: &str, rest: &str) -> Result<()> {
        let program = std::env::current_exe().map_err(|why| why.to_string())?;
        let ports = format!("--ports {}", self.ports.base());
        let ports = if command == "init" { "" } else { &ports };
        say(&format!("$ board {command} DIR {rest}"))?;
        let words = [rest, ports].into_iter().flat_map(str::split_whitespace);
        let status = Command::new(program).arg(command).arg(self.folder.join("board")).args(words).status();
        match status {
            Ok(status) if status.success() => Ok(()),
            Ok(_) => Err(format!("board {command} failed")),
            Err(why) => Err(why.to_string()),
        }
    }

    /// Starts a server and waits till it answers.
    fn start(&mut self, s: u8) -> Result<()> {
        let program = std::env::current_exe().map_err(|why| why.to_string())?.with_file_name("board-server");
        let mut command = Command::new(&program);
        command.arg(self.folder.join(format!("server-{s}"))).arg(s.to_string());
        command.arg(crate::shared::file(&self.folder.join("board"))).arg(self.ports.base().to_string());
        let child = command.args(["--seconds", SECONDS]).stdout(Stdio::piped()).spawn();
        let mut child = child.map_err(|why| format!("{}: {why}", program.display()))?;
        let mut line = String::new();
        let heard = child.stdout.take().map(|out| BufReader::new(out).read_line(&mut line));
        self.servers[usize::from(s) - 1] = Some(child);
        match heard {
            Some(Ok(length)) if length > 0 => say(line.trim_end()),
            _ => Err(format!("server {s} did not start")),
        }
    }

    /// Kills a server at once, as kill -9 does.
    fn kill(&mut self, s: u8) {
        if let Some(mut child) = self.servers[usize::from(s) - 1].take() {
            _ = child.kill();
            _ = child.wait();
        }
    }
}

impl Drop for Demo {
    fn drop(&mut self) {
        (1..=SERVERS).for_each(|s| self.kill(s));
        _ = fs::remove_dir_all(&self.folder);
    }
}
