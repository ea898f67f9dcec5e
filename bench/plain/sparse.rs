// The yardstick: reads a file that names each row's columns into the same flat rows, in plain Rust, and tells how many rows and ones it has.
mod read_sparse;
mod rows;

use std::process::ExitCode;
use std::{env, fs};

fn main() -> ExitCode {
    let name = env::args().nth(1).expect("the name of a file");
    let Ok(bytes) = fs::read(name) else {
        return ExitCode::from(4);
    };
    rows::tell(read_sparse::read_sparse(&bytes))
}
