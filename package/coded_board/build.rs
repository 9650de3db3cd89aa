//! Finds the archive of calls and has it linked: the file that the environment names in CODED_BOARD_ARCHIVE,
//! a path from this folder, or else `target/staticlib/libhost.a` of the repository.

use std::path::{Path, PathBuf};
use std::{env, fs, process};

const NAMED: &str = "CODED_BOARD_ARCHIVE";
const MADE: &str = "../../target/staticlib/libhost.a";

fn main() {
    println!("cargo:rerun-if-env-changed={NAMED}");
    let folder = PathBuf::from(env::var_os("CARGO_MANIFEST_DIR").unwrap_or_default());
    let out = PathBuf::from(env::var_os("OUT_DIR").unwrap_or_default());
    let named = env::var_os(NAMED).map(PathBuf::from);
    let archive = folder.join(named.as_deref().unwrap_or(Path::new(MADE)));
    println!("cargo:rerun-if-changed={}", archive.display());
    // Under a name of the crate's own, so that the file may have any.
    if let Err(why) = fs::copy(&archive, out.join("libcoded_board_calls.a")) {
        eprintln!("coded_board: no archive of calls at {}: {why}", archive.display());
        eprintln!("coded_board: make it with `package/archive`, or name one in {NAMED}");
        process::exit(1);
    }
    println!("cargo:rustc-link-search=native={}", out.display());
    println!("cargo:rustc-link-lib=static=coded_board_calls");
}
