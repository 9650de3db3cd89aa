//! Tests of the crate, and through it of the archive.

mod bad_bytes;
mod call;
mod code;
mod lists;
mod numbers;
mod oracle;
mod parts;
mod plain;
mod random;
mod rig;
mod samples;
mod side_by_side;
mod simulate;
