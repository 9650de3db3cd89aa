//! The model as `board` and `simulate` alone, without the tests: what is built of an error that lines show. As a
//! library it is what `load` stands on.
#![allow(dead_code)]

pub mod model;
pub mod programs;

fn main() {
    programs::main();
}
