//! A server: its state and its store in one file, and the loop that answers.

use crate::disk::{make_whole, remove, said, Folder};
use crate::network::Network;
use crate::shared::Shared;
use crate::Result;
use coded_board::{Record, Server};
use std::path::Path;
use std::time::{Duration, Instant};

const MARK: usize = 8;
const STATE: usize = 88;
/// How long the loop waits for a datagram before it looks at the time again.
const TURN: Duration = Duration::from_millis(500);

/// A server and the folder that it is kept in. The file's content is the board's mark (8 bytes), the state
/// (88) and the store, so that all change together.
#[derive(Debug)]
pub struct Kept {
    folder: Folder,
    mark: [u8; 8],
    server: Server,
    content: Vec<u8>,
}

impl Kept {
    /// From what was kept. The first start makes the folder, and uses up the server's ticket. After that a
    /// missing folder, and a folder without a sound file, are refused: a server that forgets what it has
    /// acknowledged breaks the board.
    pub fn open(path: &Path, number: u8, shared: &Shared, ticket: &Path) -> Result<Kept> {
        let mark = shared.mark();
        if !path.try_exists().map_err(said(path))? {
            if !ticket.try_exists().map_err(said(ticket))? {
                return Err(format!(
                    "{}: it is gone, and server {number} has started before",
                    path.display()
                ));
            }
            let fresh = Server::fresh(&shared.config, number, &shared.start);
            let fresh = content(mark, &fresh.map_err(|no| format!("server {number}: {no}"))?);
            make_whole(path, |unfinished| Folder::open(unfinished)?.keep(&fresh))?;
        }
        remove(ticket)?;
        let folder = Folder::open(path)?;
        let content = folder.kept()?;
        let server = read(&content, shared).filter(|server| server.number() == number);
        let server =
            server.ok_or_else(|| format!("{}: not of server {number} of this board", path.display()))?;
        Ok(Kept { folder, mark, server, content })
    }

    /// Takes a datagram and gives the answer to send, if there is one. What the answer tells of is on the
    /// disk then. After an error the server must stop: it comes back from what it kept.
    pub fn take(&mut self, datagram: &[u8]) -> Result<Option<Record>> {
        let Ok(answer) = Record::from_bytes(datagram).and_then(|record| self.server.step(&record)) else {
            return Ok(None);
        };
        let content = content(self.mark, &self.server);
        if content != self.content {
            self.folder.keep(&content)?;
            self.content = content;
        }
        Ok(Some(answer))
    }
}

/// Answers till the time is over, or for as long as the process lives. An answer goes where its record came
/// from.
pub fn serve(kept: &mut Kept, network: &mut Network, until: Option<Instant>) -> Result<()> {
    loop {
        let now = Instant::now();
        if until.is_some_and(|until| now >= until) {
            return Ok(());
        }
        let turn = until.map_or(now + TURN, |until| until.min(now + TURN));
        if let Some((from, datagram)) = network.receive(turn)? {
            if let Some(answer) = kept.take(&datagram)? {
                network.send(from, answer.bytes());
            }
        }
    }
}

fn content(mark: [u8; 8], server: &Server) -> Vec<u8> {
    [&mark[..], server.state(), server.store()].concat()
}

fn read(content: &[u8], shared: &Shared) -> Option<Server> {
    let (mark, rest) = content.split_at_checked(MARK)?;
    let (state, store) = rest.split_at_checked(STATE)?;
    Server::from_parts(&shared.config, state, store).ok().filter(|_| mark == shared.mark())
}
