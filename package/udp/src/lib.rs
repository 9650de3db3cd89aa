//! An example host of the coded board store. Servers and clients are processes that send each other records
//! over UDP on the loopback, and keep on disk what they must not forget. The steps themselves are those of
//! the crate `coded_board`.
//!
//! It authenticates nobody. A host for use carries the records in an authenticated channel.

#![forbid(unsafe_code)]

pub mod arguments;
pub mod client;
pub mod demo;
pub mod disk;
pub mod draws;
pub mod faults;
pub mod history;
pub mod network;
pub mod operation;
pub mod options;
pub mod search;
pub mod server;
pub mod shared;
pub mod text;

/// What is wrong is said in plain words.
pub type Result<T> = std::result::Result<T, String>;
