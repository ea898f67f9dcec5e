// A file that names the columns of each row as flat rows, in plain Rust.

use crate::rows::{MAX_COLUMNS, MAX_FILE_BYTES, MAX_ROWS, Matrix, Refusal, without_return};

/// What a word of digits writes; `None` within where that is past 64 bits, and none at all where it has another byte.
fn number(word: &[u8]) -> Option<Option<u64>> {
    if !word.iter().all(u8::is_ascii_digit) {
        return None;
    }
    Some(word.iter().try_fold(0u64, |value, byte| value.checked_mul(10)?.checked_add(u64::from(byte - b'0'))))
}

/// The words of a line, between spaces and tabs.
fn words(line: &[u8]) -> impl Iterator<Item = &[u8]> {
    line.split(|byte| matches!(byte, b' ' | b'\t')).filter(|word| !word.is_empty())
}

/// The number of columns of the first line, or the code of its refusal.
fn width(line: &[u8]) -> Result<usize, u8> {
    let mut words = words(line);
    let (Some(word), None) = (words.next(), words.next()) else {
        return Err(2);
    };
    match number(word).ok_or(2)? {
        Some(0) => Err(4),
        Some(columns) if columns <= MAX_COLUMNS as u64 => Ok(columns as usize),
        _ => Err(7),
    }
}

/// Appends the columns that a line names, ascending and each once. No mark is set before and after.
fn push_row(line: &[u8], marks: &mut [bool], members: &mut Vec<u32>) -> Result<(), u8> {
    for word in words(line) {
        match number(word).ok_or(2)? {
            Some(column) if 1 <= column && column <= marks.len() as u64 => marks[column as usize - 1] = true,
            _ => return Err(4),
        }
    }
    for (i, mark) in marks.iter_mut().enumerate() {
        if *mark {
            members.push(i as u32 + 1);
            *mark = false;
        }
    }
    Ok(())
}

/// The rows of a whole file, or its first refusal.
pub fn read_sparse(bytes: &[u8]) -> Result<Matrix, Refusal> {
    if bytes.len() > MAX_FILE_BYTES {
        return Err(Refusal { code: 7, line: 0 });
    }
    let text = bytes.strip_prefix(b"\xef\xbb\xbf").unwrap_or(bytes);
    if text.is_empty() {
        return Err(Refusal { code: 1, line: 0 });
    }
    let text = text.strip_suffix(b"\n").unwrap_or(text);
    let mut lines = text.split(|byte| *byte == b'\n').map(without_return);
    let columns = width(lines.next().unwrap_or_default()).map_err(|code| Refusal { code, line: 1 })?;
    let mut matrix = Matrix { columns, members: Vec::new(), bounds: vec![0] };
    let mut marks = vec![false; columns];
    for (i, line) in lines.enumerate() {
        let refusal = |code| Refusal { code, line: i + 2 };
        if i >= MAX_ROWS {
            return Err(refusal(7));
        }
        push_row(line, &mut marks, &mut matrix.members).map_err(refusal)?;
        matrix.bounds.push(matrix.members.len());
    }
    Ok(matrix)
}
