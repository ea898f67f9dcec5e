// The yardstick: reads a file of a kind, `matrix` or `rows`, and a verdict into flat lists, in plain Rust, and judges neither.
mod read_dense;
mod read_sparse;
mod rows;

use std::process::ExitCode;
use std::{env, fs};

/// A byte of a tree's brackets, or a column.
enum Token {
    Bracket(u8),
    Column(u32),
}

/// Why two pairs are joined.
enum Why {
    Flip,
    Row(u32),
}

/// A line of a cycle: a pair, and why it is joined to the next.
struct Line {
    a: u32,
    b: u32,
    why: Why,
}

/// What a verdict lists.
#[derive(Default)]
struct Verdict {
    tree: Vec<Token>,
    order: Vec<u32>,
    lines: Vec<Line>,
}

impl Verdict {
    /// The sum of the columns of the tree.
    fn columns(&self) -> u64 {
        self.tree.iter().map(|token| if let Token::Column(c) = token { u64::from(*c) } else { 0 }).sum()
    }

    /// The number of P-nodes.
    fn p_nodes(&self) -> usize {
        self.tree.iter().filter(|token| matches!(token, Token::Bracket(b'('))).count()
    }

    /// The sum of the numbers of the lines.
    fn numbers(&self) -> u64 {
        self.lines.iter().map(|line| u64::from(line.a + line.b) + if let Why::Row(k) = line.why { u64::from(k) } else { 0 }).sum()
    }
}

/// What a word of digits writes.
fn number(word: &[u8]) -> Option<u32> {
    if word.is_empty() {
        return None;
    }
    word.iter().try_fold(0u32, |value, byte| {
        let digit = byte.checked_sub(b'0').filter(|digit| *digit < 10)?;
        value.checked_mul(10)?.checked_add(u32::from(digit))
    })
}

/// The numbers between single spaces.
fn numbers(line: &[u8]) -> Option<Vec<u32>> {
    line.split(|byte| *byte == b' ').map(number).collect()
}

/// The brackets and columns of a tree.
fn tokens(line: &[u8]) -> Option<Vec<Token>> {
    let mut tree = Vec::new();
    let mut at = 0;
    while at < line.len() {
        match line[at] {
            byte @ (b'(' | b')' | b'[' | b']') => {
                tree.push(Token::Bracket(byte));
                at += 1;
            }
            b' ' => at += 1,
            _ => {
                let len = line[at..].iter().take_while(|byte| byte.is_ascii_digit()).count();
                tree.push(Token::Column(number(&line[at..at + len])?));
                at += len;
            }
        }
    }
    Some(tree)
}

/// A line of a cycle.
fn cycle_line(line: &[u8]) -> Option<Line> {
    let mut words = line.split(|byte| *byte == b' ');
    let (a, b) = (number(words.next()?)?, number(words.next()?)?);
    let why = match words.next()? {
        b"flip" => Why::Flip,
        _ => Why::Row(number(words.next()?)?),
    };
    Some(Line { a, b, why })
}

/// The lists of a verdict; none where it is not in the form.
fn read_verdict(bytes: &[u8]) -> Option<Verdict> {
    let mut verdict = Verdict::default();
    for line in bytes.split(|byte| *byte == b'\n') {
        if let Some(tree) = line.strip_prefix(b"tree ") {
            verdict.tree = tokens(tree)?;
        } else if let Some(order) = line.strip_prefix(b"order ") {
            verdict.order = numbers(order)?;
        } else if line.first().is_some_and(u8::is_ascii_digit) {
            verdict.lines.push(cycle_line(line)?);
        }
    }
    Some(verdict)
}

fn main() -> ExitCode {
    let words: Vec<String> = env::args().skip(1).collect();
    let [kind, file, verdict] = words.as_slice() else {
        return ExitCode::from(2);
    };
    let (Ok(file), Ok(verdict)) = (fs::read(file), fs::read(verdict)) else {
        return ExitCode::from(4);
    };
    let matrix = if kind == "rows" { read_sparse::read_sparse(&file) } else { read_dense::read_dense(&file) };
    let Some(verdict) = read_verdict(&verdict) else {
        return ExitCode::from(3);
    };
    println!("tree of {} in all and {} P-nodes", verdict.columns(), verdict.p_nodes());
    println!("order of {}, {} lines of {}", verdict.order.len(), verdict.lines.len(), verdict.numbers());
    rows::tell(matrix)
}
