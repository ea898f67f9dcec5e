// Flat rows and refusals, in plain Rust.

use std::process::ExitCode;

pub const MAX_FILE_BYTES: usize = 16_777_216;
pub const MAX_COLUMNS: usize = 2_048;
pub const MAX_ROWS: usize = 131_072;

/// The columns of row k stand in `members` from the k-th bound to the next.
pub struct Matrix {
    pub columns: usize,
    pub members: Vec<u32>,
    pub bounds: Vec<usize>,
}

/// The first thing that is wrong with a file.
pub struct Refusal {
    pub code: u8,
    pub line: usize,
}

/// A line without a carriage return at its end.
pub fn without_return(line: &[u8]) -> &[u8] {
    line.strip_suffix(b"\r").unwrap_or(line)
}

/// Prints how much was read, or why it was refused.
pub fn tell(read: Result<Matrix, Refusal>) -> ExitCode {
    match read {
        Ok(matrix) => {
            println!("columns {} rows {} ones {}", matrix.columns, matrix.bounds.len() - 1, matrix.members.len());
            ExitCode::SUCCESS
        }
        Err(refusal) => {
            println!("refused {} {}", refusal.code, refusal.line);
            ExitCode::from(3)
        }
    }
}
