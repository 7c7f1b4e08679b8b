//! Write text and read text.

use super::{answer, size_refusal};
use crate::{Answered, Reading, EDGE_WIDTH, MOST_EDGES, MOST_NODES, MOST_REFS, NODE_WIDTH, NOW, REF_WIDTH};

/// "The fourth number of an edge or ref is `now` where it is 4294967295"
fn row_line(key: &str, numbers: &[u32]) -> String {
    let mut words: Vec<String> = numbers.iter().map(u32::to_string).collect();
    if numbers.len() == 4 && numbers[3] == NOW {
        words[3] = "now".to_string();
    }
    format!("{key}={}\n", words.join(","))
}

/// "judges table sizes only: 1, then 32. Otherwise place is the byte count, and bytes after it are unchanged."
pub fn write_text(start: u32, nodes: &[u32], edges: &[u32], refs: &[u32], out: &mut [u8]) -> Answered {
    if let Some(refusal) = size_refusal(nodes, edges, refs) {
        return refusal;
    }
    let mut text = format!(
        "edition=1\nstart={start}\nnodes={}\nedges={}\nrefs={}\n",
        nodes.len() / NODE_WIDTH,
        edges.len() / EDGE_WIDTH,
        refs.len() / REF_WIDTH
    );
    for (key, numbers, width) in [("node", nodes, NODE_WIDTH), ("edge", edges, EDGE_WIDTH), ("ref", refs, REF_WIDTH)] {
        for row in numbers.chunks(width) {
            text += &row_line(key, row);
        }
    }
    if out.len() < text.len() {
        return answer(32, 0, text.len());
    }
    out[..text.len()].copy_from_slice(text.as_bytes());
    answer(0, 0, text.len())
}

/// "Numbers are decimal, at most 4294967295, no sign, no leading zero except 0 itself."
fn number(word: &[u8]) -> Option<u32> {
    if word.is_empty() || !word.iter().all(u8::is_ascii_digit) || (word.len() > 1 && word[0] == b'0') {
        return None;
    }
    std::str::from_utf8(word).ok()?.parse().ok()
}

/// The text that is still to be read, line by line.
struct Lines<'a> {
    text: &'a [u8],
    at: usize,
}

impl<'a> Lines<'a> {
    /// What stands after `key=` on the next line, or none where that is not what stands there: "a line lacking its LF,
    /// or extra text, counts; for a missing line it is the text length".
    fn next(&mut self, key: &str) -> Option<&'a [u8]> {
        let rest = &self.text[self.at..];
        let length = rest.iter().position(|&byte| byte == b'\n')?;
        let value = rest[..length].strip_prefix(key.as_bytes())?.strip_prefix(b"=")?;
        self.at += length + 1;
        Some(value)
    }

    /// Reads a line by `form`; where it is wrong, answers the offset of its first byte.
    fn read<T>(&mut self, key: &str, form: impl Fn(&[u8]) -> Option<T>) -> Result<T, usize> {
        let at = self.at;
        self.next(key).and_then(form).ok_or(at)
    }

    fn rows(&mut self, key: &str, width: usize, count: u32) -> Result<Vec<u32>, usize> {
        let mut numbers = Vec::new();
        for _ in 0..count {
            numbers.extend(self.read(key, |value| row_numbers(value, width))?);
        }
        Ok(numbers)
    }
}

/// "Row numbers are joined by commas", and the fourth is `now` where it is the largest instant, "and those digits are
/// refused there".
fn row_numbers(value: &[u8], width: usize) -> Option<Vec<u32>> {
    let words: Vec<&[u8]> = value.split(|&byte| byte == b',').collect();
    if words.len() != width {
        return None;
    }
    let end = |word: &[u8]| if word == b"now" { Some(NOW) } else { number(word).filter(|&to| to != NOW) };
    words.iter().enumerate().map(|(i, word)| if i == 3 { end(word) } else { number(word) }).collect()
}

/// What a text says.
struct Told {
    start: u32,
    nodes: Vec<u32>,
    edges: Vec<u32>,
    refs: Vec<u32>,
}

/// The tables of a text, or the place of code 31.
fn told(text: &[u8]) -> Result<Told, usize> {
    let mut lines = Lines { text, at: 0 };
    // "Counts outside the sizes above make their line wrong."
    let count = |least: usize, most: usize| {
        move |value: &[u8]| number(value).filter(|&n| least as u32 <= n && n <= most as u32)
    };
    lines.read("edition", |value| if value == b"1" { Some(()) } else { None })?;
    let start = lines.read("start", number)?;
    let n = lines.read("nodes", count(1, MOST_NODES))?;
    let m = lines.read("edges", count(0, MOST_EDGES))?;
    let k = lines.read("refs", count(0, MOST_REFS))?;
    let nodes = lines.rows("node", NODE_WIDTH, n)?;
    let edges = lines.rows("edge", EDGE_WIDTH, m)?;
    let refs = lines.rows("ref", REF_WIDTH, k)?;
    if lines.at < text.len() {
        return Err(lines.at);
    }
    Ok(Told { start, nodes, edges, refs })
}

/// "31, then 21 (place 0, 1, 2: first table too short). Otherwise the rows fill the front of each table, the rest
/// unchanged"
pub fn read_text(text: &[u8], nodes: &mut [u32], edges: &mut [u32], refs: &mut [u32]) -> Reading {
    let refused = |answer| Reading { answer, start: 0, nodes: 0, edges: 0, refs: 0 };
    let told = match told(text) {
        Err(place) => return refused(answer(31, 0, place)),
        Ok(told) => told,
    };
    let short = [nodes.len() < told.nodes.len(), edges.len() < told.edges.len(), refs.len() < told.refs.len()];
    if let Some(table) = short.iter().position(|&s| s) {
        return refused(answer(21, 0, table));
    }
    nodes[..told.nodes.len()].copy_from_slice(&told.nodes);
    edges[..told.edges.len()].copy_from_slice(&told.edges);
    refs[..told.refs.len()].copy_from_slice(&told.refs);
    Reading {
        answer: answer(0, 0, 0),
        start: told.start,
        nodes: (told.nodes.len() / NODE_WIDTH) as u32,
        edges: (told.edges.len() / EDGE_WIDTH) as u32,
        refs: (told.refs.len() / REF_WIDTH) as u32,
    }
}
