//! The library beside the model: each function makes one call of both on equal inputs, and fails where the answers or
//! any number or byte of what was lent differ, also before the front and past the end of what was lent.

use crate::histories::History;
use crate::{code, model, Answered, Reading, EDGE_WIDTH, NODE_WIDTH, REF_WIDTH};
use std::fmt::Debug;
use std::ptr::read_volatile;

/// How often each code was answered by one of the calls.
pub struct Tally {
    call: &'static str,
    counts: [usize; CODES],
}

/// Codes are below this.
const CODES: usize = code::TEXTROOM as usize + 1;

impl Tally {
    pub fn of(call: &'static str) -> Tally {
        Tally { call, counts: [0; CODES] }
    }

    fn count(&mut self, answer: Answered) {
        self.counts[answer.code as usize] += 1;
    }

    /// Fails unless exactly these codes were met. Prints the count of calls, which `tests/run` adds up.
    pub fn met_exactly(&self, codes: &[u32]) {
        let met: Vec<(u32, usize)> = (0..).zip(self.counts).filter(|c| c.1 > 0).collect();
        let total: usize = self.counts.iter().sum();
        println!("{}: {total} calls; code and count: {met:?}", self.call);
        let met: Vec<u32> = met.into_iter().map(|c| c.0).collect();
        assert_eq!(met, codes, "the codes that {} answered", self.call);
    }
}

/// How many times as many inputs to try: 1 in the gate, more by the environment variable BW_ROUNDS.
pub fn rounds() -> usize {
    match std::env::var("BW_ROUNDS") {
        Ok(rounds) => rounds.parse().expect("BW_ROUNDS is a number"),
        Err(_) => 1,
    }
}

/// Numbers or bytes lent between guards: the library must leave the guards alone.
struct Lent<T> {
    all: Vec<T>,
    guard: T,
    length: usize,
}

const GUARDS: usize = 8;

impl<T: Copy + PartialEq + Debug> Lent<T> {
    fn of(content: &[T], guard: T) -> Lent<T> {
        let mut all = vec![guard; GUARDS];
        all.extend(content);
        all.extend([guard; GUARDS]);
        Lent { all, guard, length: content.len() }
    }

    fn content(&mut self) -> &mut [T] {
        &mut self.all[GUARDS..GUARDS + self.length]
    }

    /// What the library left, after a look at the guards. It is read anew, since the compiler may think that it knows
    /// what was only lent to be read, and what was not lent.
    fn back(self) -> Vec<T> {
        let all: Vec<T> = self.all.iter().map(|value| unsafe { read_volatile(value) }).collect();
        let (front, rest) = all.split_at(GUARDS);
        let (content, end) = rest.split_at(self.length);
        assert!(front.iter().chain(end).all(|v| *v == self.guard), "a guard was written to");
        content.to_vec()
    }
}

const GUARD: u32 = 0xA5A5_5A5A;

fn lent(numbers: &[u32]) -> Lent<u32> {
    Lent::of(numbers, GUARD)
}

fn lent_tables(history: &History) -> [Lent<u32>; 3] {
    [lent(&history.nodes), lent(&history.edges), lent(&history.refs)]
}

/// Fails where a table is not as it was lent.
fn unchanged(tables: [Lent<u32>; 3], history: &History) {
    let [nodes, edges, refs] = tables.map(Lent::back);
    let same = nodes == history.nodes && edges == history.edges && refs == history.refs;
    assert!(same, "a table changed: {history:?}");
}

pub fn check(tally: &mut Tally, history: &History) -> Answered {
    let History { start, nodes, edges, refs } = history;
    let [mut n, mut m, mut k] = lent_tables(history);
    let said = crate::check(*start, n.content(), m.content(), k.content());
    assert_eq!(said, model::check(*start, nodes, edges, refs), "check of {history:?}");
    unchanged([n, m, k], history);
    tally.count(said);
    said
}

pub fn repair(tally: &mut Tally, history: &History) -> (Answered, Vec<u32>) {
    let History { start, nodes, edges, .. } = history;
    let (mut n, mut m) = (lent(nodes), lent(edges));
    let said = crate::repair(*start, n.content(), m.content());
    let mut mended = edges.clone();
    let expected = model::repair(*start, nodes, &mut mended);
    let left = m.back();
    assert_eq!(said, expected, "repair of {history:?}");
    assert_eq!(left, mended, "repair of {history:?}");
    assert!(n.back() == *nodes, "the nodes changed: {history:?}");
    assert!(said.code == code::DONE || left == *edges, "a refusal wrote: {history:?}");
    tally.count(said);
    (said, left)
}

/// Numbers that an output holds before a call, each another, so that none can be swapped or cleared unseen.
fn unwritten(numbers: usize) -> Vec<u32> {
    (0..numbers as u32).map(|i| 0xC0DE_0000 + i).collect()
}

pub fn snapshot(tally: &mut Tally, history: &History, t: u32, room: usize) -> (Answered, Vec<u32>) {
    let History { start, nodes, edges, refs } = history;
    let before = unwritten(room);
    let mut out = lent(&before);
    let [mut n, mut m, mut k] = lent_tables(history);
    let said = crate::snapshot(*start, n.content(), m.content(), k.content(), t, out.content());
    let mut shown = before.clone();
    let expected = model::snapshot(*start, nodes, edges, refs, t, &mut shown);
    let left = out.back();
    assert_eq!(said, expected, "snapshot at {t} with room {room} of {history:?}");
    assert_eq!(left, shown, "snapshot at {t} with room {room} of {history:?}");
    assert!(
        said.code == code::DONE || left == before,
        "a refusal wrote: snapshot at {t} with room {room} of {history:?}"
    );
    unchanged([n, m, k], history);
    tally.count(said);
    (said, left)
}

pub fn write_text(tally: &mut Tally, history: &History, room: usize) -> (Answered, Vec<u8>) {
    let History { start, nodes, edges, refs } = history;
    let before: Vec<u8> = (0..room).map(|i| 128 + (i % 100) as u8).collect();
    let mut out = Lent::of(&before, 0xA5);
    let [mut n, mut m, mut k] = lent_tables(history);
    let said = crate::write_text(*start, n.content(), m.content(), k.content(), out.content());
    let mut written = before.clone();
    let expected = model::write_text(*start, nodes, edges, refs, &mut written);
    let left = out.back();
    assert_eq!(said, expected, "write text with room {room} of {history:?}");
    assert!(left == written, "other text with room {room} of {history:?}");
    assert!(said.code == code::DONE || left == before, "a refusal wrote: room {room}, {history:?}");
    unchanged([n, m, k], history);
    tally.count(said);
    (said, left)
}

/// Reads into tables with room for so many numbers each.
pub fn read_text(tally: &mut Tally, text: &[u8], room: [usize; 3]) -> (Reading, [Vec<u32>; 3]) {
    let before = room.map(unwritten);
    let mut source = Lent::of(text, 0xA5);
    let [mut n, mut m, mut k] = [lent(&before[0]), lent(&before[1]), lent(&before[2])];
    let said = crate::read_text(source.content(), n.content(), m.content(), k.content());
    let [mut nodes, mut edges, mut refs] = before.clone();
    let expected = model::read_text(text, &mut nodes, &mut edges, &mut refs);
    let input = || format!("read text: room {room:?} text\n{}", String::from_utf8_lossy(text));
    let left = [n.back(), m.back(), k.back()];
    assert_eq!(said, expected, "{}", input());
    assert!(left == [nodes, edges, refs], "other tables: {}", input());
    assert!(source.back() == text, "the text changed: {}", input());
    assert!(said.answer.code == code::DONE || left == before, "a refusal wrote: {}", input());
    tally.count(said.answer);
    (said, left)
}

/// The numbers of the rows that a reading counts.
pub fn numbers_read(reading: Reading) -> [usize; 3] {
    [reading.nodes as usize * NODE_WIDTH, reading.edges as usize * EDGE_WIDTH, reading.refs as usize * REF_WIDTH]
}
