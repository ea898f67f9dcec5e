// The yardstick: reads a table of distances and derives the balls round each item into flat rows, in plain Rust, and tells how many rows
// and ones they have.
#[allow(dead_code)]
mod rows;

use rows::{MAX_FILE_BYTES, Matrix, Refusal, without_return};
use std::process::ExitCode;
use std::{env, fs};

const MAX_ITEMS: u64 = 256;

/// The distances of a number of items, row by row.
struct Table {
    items: usize,
    values: Vec<u64>,
}

/// The value of a word of digits, or the code of its refusal.
fn number(word: &str) -> Result<u64, u8> {
    if !word.bytes().all(|byte| byte.is_ascii_digit()) {
        return Err(2);
    }
    word.parse().map_err(|_| 4)
}

/// The number of items that the first line names, or the code of its refusal.
fn items_in(line: &str) -> Result<usize, u8> {
    let mut words = line.split([' ', '\t']).filter(|word| !word.is_empty());
    let (Some(word), None) = (words.next(), words.next()) else {
        return Err(2);
    };
    match number(word)? {
        0 => Err(4),
        items if items <= MAX_ITEMS => Ok(items as usize),
        _ => Err(7),
    }
}

impl Table {
    /// Adds a row, or gives the code of its refusal.
    fn push_row(&mut self, line: &str) -> Result<(), u8> {
        let before = self.values.len();
        let row = before / self.items;
        if row == self.items {
            return Err(3);
        }
        for word in line.split([' ', '\t']).filter(|word| !word.is_empty()) {
            self.values.push(number(word)?);
        }
        if self.values.len() != before + self.items {
            return Err(3);
        }
        let symmetric = |i: usize| self.values[before + i] == self.values[i * self.items + row];
        if self.values[before + row] == 0 && (0..row).all(symmetric) { Ok(()) } else { Err(6) }
    }

    /// Appends the balls round an item: each is the one before it with the items at the next distance.
    fn push_balls(&self, centre: usize, near: &mut Vec<(u64, u32)>, ball: &mut Vec<u32>, matrix: &mut Matrix) {
        near.clear();
        let row = &self.values[centre * self.items..][..self.items];
        near.extend(row.iter().zip(1..).map(|(&distance, item)| (distance, item)));
        near.sort_unstable();
        ball.clear();
        for rim in near.chunk_by(|a, b| a.0 == b.0) {
            for &(_, item) in rim {
                let place = ball.partition_point(|&other| other < item);
                ball.insert(place, item);
            }
            matrix.members.extend_from_slice(ball);
            matrix.bounds.push(matrix.members.len());
        }
    }

    /// The balls round all items.
    fn balls(&self) -> Matrix {
        let mut matrix = Matrix { columns: self.items, members: Vec::new(), bounds: vec![0] };
        let mut near = Vec::with_capacity(self.items);
        let mut ball = Vec::with_capacity(self.items);
        for centre in 0..self.items {
            self.push_balls(centre, &mut near, &mut ball, &mut matrix);
        }
        matrix
    }
}

/// The table of a whole file, or its first refusal.
fn read_table(bytes: &[u8]) -> Result<Table, Refusal> {
    if bytes.len() > MAX_FILE_BYTES {
        return Err(Refusal { code: 7, line: 0 });
    }
    let text = bytes.strip_prefix(b"\xef\xbb\xbf").unwrap_or(bytes);
    let filled = |line: &&[u8]| line.iter().any(|byte| !matches!(byte, b' ' | b'\t'));
    let mut table = None;
    for (i, line) in text.split(|byte| *byte == b'\n').map(without_return).enumerate().filter(|(_, line)| filled(line)) {
        let refusal = |code| Refusal { code, line: i + 1 };
        let line = str::from_utf8(line).map_err(|_| refusal(2))?;
        match &mut table {
            None => {
                let items = items_in(line).map_err(refusal)?;
                table = Some(Table { items, values: Vec::with_capacity(items * items) });
            }
            Some(table) => table.push_row(line).map_err(refusal)?,
        }
    }
    match table {
        None => Err(Refusal { code: 1, line: 0 }),
        Some(table) if table.values.len() < table.items * table.items => Err(Refusal { code: 3, line: 0 }),
        Some(table) => Ok(table),
    }
}

fn main() -> ExitCode {
    let name = env::args().nth(1).expect("the name of a file");
    let Ok(bytes) = fs::read(name) else {
        return ExitCode::from(4);
    };
    rows::tell(read_table(&bytes).map(|table| table.balls()))
}
