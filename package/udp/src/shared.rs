//! What all parties of a board share: one file with the configuration (21 bytes) and the starting board
//! (k × E bytes), in a folder that has the clients' folders and the servers' tickets beside it.

use crate::client::fresh;
use crate::disk::{checksum, make, make_whole, said, write_through};
use crate::Result;
use coded_board::Config;
use std::fs;
use std::path::{Path, PathBuf};

const CONFIG: usize = 21;

/// A board's configuration and its starting board.
#[derive(Clone, Debug)]
pub struct Shared {
    /// The configuration.
    pub config: Config,
    /// The starting board, k × E bytes.
    pub start: Vec<u8>,
}

impl Shared {
    /// With a starting text, filled up with blanks.
    pub fn new(config: Config, text: &str) -> Result<Shared> {
        let (mut start, most) = (text.as_bytes().to_vec(), config.board_length());
        if start.len() > most {
            return Err(format!("the starting text has {} bytes, and a board at most {most}", start.len()));
        }
        start.resize(most, b' ');
        Ok(Shared { config, start })
    }

    /// From the shared file.
    pub fn read(path: &Path) -> Result<Shared> {
        let bytes = fs::read(path).map_err(said(path))?;
        let wrong = |why: String| format!("{}: not a board's configuration: {why}", path.display());
        let (config, start) = bytes.split_at_checked(CONFIG).ok_or_else(|| wrong("too short".to_string()))?;
        let config = Config::from_bytes(config).map_err(|no| wrong(no.to_string()))?;
        if start.len() != config.board_length() {
            return Err(wrong("the starting board has a wrong length".to_string()));
        }
        Ok(Shared { config, start: start.to_vec() })
    }

    /// The shared file's bytes.
    pub fn bytes(&self) -> Vec<u8> {
        [self.config.bytes(), &self.start[..]].concat()
    }

    /// What a party keeps, so that it never goes on with another board's file.
    pub fn mark(&self) -> [u8; 8] {
        checksum(&self.bytes()).to_le_bytes()
    }
}

/// Where the shared file is.
pub fn file(folder: &Path) -> PathBuf {
    folder.join("config")
}

/// Where a client's folder is.
pub fn client(folder: &Path, number: u8) -> PathBuf {
    folder.join(format!("client-{number}"))
}

/// Where the ticket is that lets a server start for the first time: beside the shared file.
pub fn ticket(file: &Path, number: u8) -> PathBuf {
    file.with_file_name(format!("server-{number}-first"))
}

/// Makes the shared folder, with its file, all clients, fresh, and a ticket for each server. This is the one
/// place where a client starts afresh: a client that did so twice could give two boards the same tag.
pub fn init(folder: &Path, shared: &Shared) -> Result<()> {
    make_whole(folder, |unfinished| {
        write_through(&file(unfinished), &shared.bytes())?;
        (1..=shared.config.n()).try_for_each(|s| write_through(&ticket(&file(unfinished), s), &[]))?;
        (1..=shared.config.c()).try_for_each(|c| make(&client(unfinished, c), &fresh(shared, c)?))
    })
}
