//! Write text, which counts the bytes first, and read text, which checks all lines first.

use super::{answer, sizes};
use bindlewort_tests::code::*;
use bindlewort_tests::{Answered, Reading, NOW};
use bindlewort_tests::{EDGE_WIDTH, MOST_EDGES, MOST_NODES, MOST_REFS, NODE_WIDTH, REF_WIDTH};

fn digits(number: u32) -> usize {
    match number {
        0..=9 => 1,
        10..=99 => 2,
        100..=999 => 3,
        1_000..=9_999 => 4,
        10_000..=99_999 => 5,
        100_000..=999_999 => 6,
        1_000_000..=9_999_999 => 7,
        10_000_000..=99_999_999 => 8,
        100_000_000..=999_999_999 => 9,
        _ => 10,
    }
}

fn number_length(number: u32, is_end: bool) -> usize {
    if is_end && number == NOW {
        3
    } else {
        digits(number)
    }
}

fn lines_length(key: &[u8], width: usize, numbers: &[u32]) -> usize {
    let row = |row: &[u32]| -> usize {
        key.len() + row.iter().enumerate().map(|(i, &n)| number_length(n, i == 3) + 1).sum::<usize>()
    };
    numbers.chunks_exact(width).map(row).sum()
}

/// Bytes that are filled from the front.
struct Filled<'a> {
    out: &'a mut [u8],
    at: usize,
}

impl Filled<'_> {
    fn bytes(&mut self, bytes: &[u8]) {
        self.out[self.at..self.at + bytes.len()].copy_from_slice(bytes);
        self.at += bytes.len();
    }

    fn number(&mut self, mut number: u32, is_end: bool) {
        if is_end && number == NOW {
            return self.bytes(b"now");
        }
        let end = self.at + digits(number);
        for byte in self.out[self.at..end].iter_mut().rev() {
            *byte = b'0' + (number % 10) as u8;
            number /= 10;
        }
        self.at = end;
    }

    fn lines(&mut self, key: &[u8], width: usize, numbers: &[u32]) {
        for row in numbers.chunks_exact(width) {
            self.bytes(key);
            for (i, &number) in row.iter().enumerate() {
                self.number(number, i == 3);
                self.bytes(if i + 1 == width { b"\n" } else { b"," });
            }
        }
    }
}

#[inline(never)]
pub fn write_text(start: u32, nodes: &[u32], edges: &[u32], refs: &[u32], out: &mut [u8]) -> Answered {
    if let Some(refusal) = sizes(nodes, edges, refs) {
        return refusal;
    }
    let counts = [nodes.len() / NODE_WIDTH, edges.len() / EDGE_WIDTH, refs.len() / REF_WIDTH].map(|c| [c as u32]);
    let lines: [(&[u8], usize, &[u32]); 8] = [
        (b"edition=", 1, &[1]),
        (b"start=", 1, &[start]),
        (b"nodes=", 1, &counts[0]),
        (b"edges=", 1, &counts[1]),
        (b"refs=", 1, &counts[2]),
        (b"node=", NODE_WIDTH, nodes),
        (b"edge=", EDGE_WIDTH, edges),
        (b"ref=", REF_WIDTH, refs),
    ];
    let needed = lines.iter().map(|(key, width, numbers)| lines_length(key, *width, numbers)).sum();
    if out.len() < needed {
        return answer(TEXTROOM, 0, needed);
    }
    let mut filled = Filled { out, at: 0 };
    for (key, width, numbers) in lines {
        filled.lines(key, width, numbers);
    }
    answer(DONE, 0, needed)
}

// ---- Read text

/// The number at the front, at most `most`, and what follows it.
fn number(text: &[u8], most: u32) -> Option<(u32, &[u8])> {
    let (&first, mut rest) = text.split_first()?;
    if !first.is_ascii_digit() {
        return None;
    }
    let mut value = u64::from(first - b'0');
    while let Some((&byte, after)) = rest.split_first() {
        if !byte.is_ascii_digit() || first == b'0' {
            break;
        }
        value = value * 10 + u64::from(byte - b'0');
        if value > u64::from(most) {
            return None;
        }
        rest = after;
    }
    if value > u64::from(most) {
        None
    } else {
        Some((value as u32, rest))
    }
}

/// Reads a line and gives each of its numbers to `put`; answers what follows the line.
fn line<'a>(text: &'a [u8], key: &[u8], width: usize, mut put: impl FnMut(usize, u32)) -> Option<&'a [u8]> {
    let mut rest = text.strip_prefix(key)?;
    for i in 0..width {
        let (value, after) = match rest.strip_prefix(b"now") {
            Some(after) if i == 3 => (NOW, after),
            _ => number(rest, if i == 3 { NOW - 1 } else { NOW })?,
        };
        put(i, value);
        rest = after.strip_prefix(if i + 1 == width { b"\n" } else { b"," })?;
    }
    Some(rest)
}

/// Reads a line of one number within bounds, or answers what is left of the text.
fn one<'a>(text: &mut &'a [u8], key: &[u8], least: u32, most: u32) -> Result<u32, &'a [u8]> {
    let mut value = 0;
    let rest = line(text, key, 1, |_, number| value = number).ok_or(*text)?;
    if !(least..=most).contains(&value) {
        return Err(text);
    }
    *text = rest;
    Ok(value)
}

struct Head {
    start: u32,
    counts: [u32; 3],
}

const ROWS: [(&[u8], usize); 3] = [(b"node=", NODE_WIDTH), (b"edge=", EDGE_WIDTH), (b"ref=", REF_WIDTH)];

/// The first five lines, and the check of all lines after them.
fn scan<'a>(text: &mut &'a [u8]) -> Result<Head, &'a [u8]> {
    one(text, b"edition=", 1, 1)?;
    let start = one(text, b"start=", 0, NOW)?;
    let nodes = one(text, b"nodes=", 1, MOST_NODES as u32)?;
    let edges = one(text, b"edges=", 0, MOST_EDGES as u32)?;
    let refs = one(text, b"refs=", 0, MOST_REFS as u32)?;
    let counts = [nodes, edges, refs];
    let mut rest = *text;
    for ((key, width), count) in ROWS.into_iter().zip(counts) {
        for _ in 0..count {
            rest = line(rest, key, width, |_, _| ()).ok_or(rest)?;
        }
    }
    if rest.is_empty() {
        Ok(Head { start, counts })
    } else {
        Err(rest)
    }
}

#[inline(never)]
pub fn read_text(text: &[u8], nodes: &mut [u32], edges: &mut [u32], refs: &mut [u32]) -> Reading {
    let refused = |answer| Reading { answer, start: 0, nodes: 0, edges: 0, refs: 0 };
    let mut rest = text;
    let head = match scan(&mut rest) {
        Ok(head) => head,
        Err(left) => return refused(answer(TEXT, 0, text.len() - left.len())),
    };
    let tables = [nodes, edges, refs];
    for (place, ((_, width), count)) in ROWS.into_iter().zip(head.counts).enumerate() {
        if tables[place].len() < width * count as usize {
            return refused(answer(ROOM, 0, place));
        }
    }
    for (((key, width), count), table) in ROWS.into_iter().zip(head.counts).zip(tables) {
        for row in table.chunks_exact_mut(width).take(count as usize) {
            rest = line(rest, key, width, |i, value| row[i] = value).unwrap_or(rest);
        }
    }
    let [nodes, edges, refs] = head.counts;
    Reading { answer: answer(DONE, 0, 0), start: head.start, nodes, edges, refs }
}
