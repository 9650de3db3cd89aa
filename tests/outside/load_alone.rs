//! The model as the program `load` alone, without the tests: what is built of an error in `load.rs`. All else of the
//! model is the library `alone`.

mod load;

use alone::{model, programs};

fn main() {
    load::main();
}
