// A dense file as flat rows, in plain Rust.

use crate::rows::{MAX_COLUMNS, MAX_FILE_BYTES, MAX_ROWS, Matrix, Refusal, without_return};

/// Whether a line has only spaces and tabs.
fn is_blank(line: &[u8]) -> bool {
    line.iter().all(|byte| matches!(byte, b' ' | b'\t'))
}

/// Appends the columns of a row and gives the number of its digits, if it has no other bytes.
fn read_row(line: &[u8], members: &mut Vec<u32>) -> Option<usize> {
    let mut digits = 0;
    for byte in line {
        match byte {
            b'0' => digits += 1,
            b'1' => {
                digits += 1;
                members.push(digits as u32);
            }
            b' ' | b'\t' => {}
            _ => return None,
        }
    }
    Some(digits)
}

/// The rows of a whole file, or its first refusal.
pub fn read_dense(bytes: &[u8]) -> Result<Matrix, Refusal> {
    if bytes.len() > MAX_FILE_BYTES {
        return Err(Refusal { code: 7, line: 0 });
    }
    let text = bytes.strip_prefix(b"\xef\xbb\xbf").unwrap_or(bytes);
    let mut matrix = Matrix { columns: 0, members: Vec::new(), bounds: vec![0] };
    for (number, line) in text.split(|byte| *byte == b'\n').enumerate() {
        let refused = |code| Err(Refusal { code, line: number + 1 });
        let line = without_return(line);
        if is_blank(line) {
            continue;
        }
        if matrix.bounds.len() > MAX_ROWS {
            return refused(7);
        }
        let Some(digits) = read_row(line, &mut matrix.members) else {
            return refused(2);
        };
        if matrix.columns == 0 {
            if digits > MAX_COLUMNS {
                return refused(7);
            }
            matrix.columns = digits;
        } else if digits != matrix.columns {
            return refused(3);
        }
        matrix.bounds.push(matrix.members.len());
    }
    if matrix.columns == 0 {
        return Err(Refusal { code: 1, line: 0 });
    }
    Ok(matrix)
}
