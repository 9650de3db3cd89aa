//! One board of bytes, kept as coded elements on servers and used by clients, over a network that reorders,
//! loses and repeats messages. This crate has the server's step and the client's, and the code; sockets,
//! disks and timers are the host's. The work is done by an archive of proved calls, those of `coded_board.h`.
//! Nothing here panics, whatever bytes come.
//!
//! # What a host does
//!
//! - It keeps all that a call changed, state and buffers, together, whole or not at all, before it lets out the
//!   call's records or tells its end. A call of which nothing was kept has not happened.
//! - One process at a time has a client's or a server's number, and goes on from what was kept last, and from no
//!   older copy.
//! - It hands a step no record that no call gave: its channel authenticates. Records may come late, twice or
//!   never.
//! - All use one configuration and one starting board.
//!
//! Then the history of all reads and writes, by the instants of the calls, is one that a single board could show
//! (proved: `crates/host/proofs/Atomic.antt`). Nothing sends a record again by itself; a host may, whenever it likes.
//!
//! # Example
//!
//! Five servers, a writer and a reader, in one program:
//!
//! ```
//! use coded_board::{Client, Config, Ended, Record, Refusal, Server};
//!
//! /// Takes an operation's records to the servers and their answers back, till it ends.
//! fn carry(client: &mut Client, mut sends: Vec<Record>, servers: &mut [Server]) -> Result<Ended, Refusal> {
//!     while !sends.is_empty() {
//!         let mut more = vec![];
//!         for (record, server) in sends.iter().zip(servers.iter_mut()) {
//!             match client.step(&server.step(record)?) {
//!                 Ok(step) if step.ended != Ended::Nothing => return Ok(step.ended),
//!                 Ok(step) => more.extend(step.sends),
//!                 Err(no) if no.number() == 14 => {} // late: enough servers have answered already
//!                 Err(no) => return Err(no),
//!             }
//!         }
//!         sends = more;
//!     }
//!     Ok(Ended::Nothing)
//! }
//!
//! // Any 3 of 5 servers give the board back. Boards have up to 12 bytes; there are two clients.
//! let config = Config::new(5, 3, 1, 4, 2, &[0, 0])?;
//! let start = [0; 12];
//! let mut servers = (1..=5).map(|s| Server::fresh(&config, s, &start)).collect::<Result<Vec<_>, _>>()?;
//!
//! let mut writer = Client::fresh(&config, 1)?;
//! let sends = writer.write(b"Room 4")?;
//! let written = carry(&mut writer, sends, &mut servers)?;
//! assert!(matches!(written, Ended::Written(tag) if tag.number == 1));
//!
//! let mut reader = Client::fresh(&config, 2)?;
//! let sends = reader.read()?;
//! let read = carry(&mut reader, sends, &mut servers)?;
//! assert!(matches!(read, Ended::Read(tag, board) if tag.client == 1 && board == b"Room 4"));
//! # Ok::<(), Refusal>(())
//! ```

#![deny(missing_docs)]
#![deny(unsafe_code)]

pub mod calls;
mod client;
mod code;
mod config;
mod record;
mod refusal;
mod server;

pub use client::{Client, Ended, Step};
pub use code::{decode, encode, encode_all};
pub use config::Config;
pub use record::{Record, Tag};
pub use refusal::Refusal;
pub use server::Server;
