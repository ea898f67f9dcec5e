// The yardstick: reads a dense file into the same flat rows, in plain Rust, and tells how many rows and ones it has.
mod read_dense;
mod rows;

use std::process::ExitCode;
use std::{env, fs};

fn main() -> ExitCode {
    let name = env::args().nth(1).expect("the name of a file");
    let Ok(bytes) = fs::read(name) else {
        return ExitCode::from(4);
    };
    rows::tell(read_dense::read_dense(&bytes))
}
