//! A model of document 01 with Ask 1 of document 02, "Two patients on one session". It is written from their words and
//! from nothing else, clear rather than fast. What stands in quotes is theirs, and codes and kinds are their numbers.
//! Here are the rows and their rules; the other files have the faults at an instant, the calls on tables, and those on
//! text.

mod calls;
mod faults;
mod text;

pub use calls::{check, check_every_instant, repair, snapshot};
pub use text::{read_text, write_text};

use crate::{Answered, EDGE_WIDTH, MOST_EDGES, MOST_NODES, MOST_REFS, NODE_WIDTH, NOW, REF_WIDTH};

fn answer(code: u32, instant: u32, place: usize) -> Answered {
    Answered { code, instant, place: place as u32 }
}

// ---- Rows

struct Node {
    kind: u32,
    label: u32,
    value: u32,
}

/// A containment row: one is parent, other is child. A reference row: one is attribute, other is target.
#[derive(Clone, Copy)]
struct Row {
    one: usize,
    other: usize,
    from: u32,
    to: u32,
}

impl Row {
    /// "the row is in force at t when from ≤ t ≤ to"
    fn in_force(&self, t: u32) -> bool {
        self.from <= t && t <= self.to
    }
}

fn node_rows(numbers: &[u32]) -> Vec<Node> {
    numbers.chunks(NODE_WIDTH).map(|n| Node { kind: n[0], label: n[1], value: n[2] }).collect()
}

fn label_rows(numbers: &[u32]) -> Vec<Row> {
    numbers.chunks(4).map(|n| Row { one: n[0] as usize, other: n[1] as usize, from: n[2], to: n[3] }).collect()
}

// ---- Codes 1 to 5

/// "a table is not whole rows or is out of size"
fn out_of_size(numbers: usize, width: usize, least: usize, most: usize) -> bool {
    numbers % width != 0 || numbers / width < least || numbers / width > most
}

/// Code 1 for the tables that a call takes, in their order.
fn size_refusal(nodes: &[u32], edges: &[u32], refs: &[u32]) -> Option<Answered> {
    let wrong = [
        out_of_size(nodes.len(), NODE_WIDTH, 1, MOST_NODES),
        out_of_size(edges.len(), EDGE_WIDTH, 0, MOST_EDGES),
        out_of_size(refs.len(), REF_WIDTH, 0, MOST_REFS),
    ];
    let first = wrong.iter().position(|&w| w)?;
    Some(answer(1, 0, first))
}

/// "Label is 0 for kind 5 and 1 to 65,535 for the rest. Value is free for kind 5 and 0 for the rest. Row 0 has kind 0
/// and no other row has."
fn node_stands(place: usize, node: &Node) -> bool {
    let kind = node.kind <= 5 && (node.kind == 0) == (place == 0);
    let rest = if node.kind == 5 { node.label == 0 } else { (1..=65_535).contains(&node.label) && node.value == 0 };
    kind && rest
}

/// "start ≤ from ≤ to, and from is never Now"
fn label_stands(start: u32, row: &Row) -> bool {
    start <= row.from && row.from <= row.to && row.from != NOW
}

/// "parent of kind 0 or 1 with child of kind 1 to 5; parent of kind 2 or 3 with child of kind 5; nothing else"
fn edge_stands(start: u32, nodes: &[Node], row: &Row) -> bool {
    let allowed = |parent: &Node, child: &Node| match parent.kind {
        0 | 1 => (1..=5).contains(&child.kind),
        2 | 3 => child.kind == 5,
        _ => false,
    };
    match (nodes.get(row.one), nodes.get(row.other)) {
        (Some(parent), Some(child)) => allowed(parent, child) && label_stands(start, row),
        _ => false,
    }
}

/// "attribute (kind 4), target (kind 1)"
fn ref_stands(start: u32, nodes: &[Node], row: &Row) -> bool {
    match (nodes.get(row.one), nodes.get(row.other)) {
        (Some(attribute), Some(target)) => attribute.kind == 4 && target.kind == 1 && label_stands(start, row),
        _ => false,
    }
}

/// The tables of a history whose sizes and rows obey the rules.
struct History {
    start: u32,
    nodes: usize,
    edges: Vec<Row>,
    refs: Vec<Row>,
}

/// Codes 1 to 5 in order, or the history.
fn ruled(start: u32, nodes: &[u32], edges: &[u32], refs: &[u32]) -> Result<History, Answered> {
    if let Some(refusal) = size_refusal(nodes, edges, refs) {
        return Err(refusal);
    }
    if start == NOW {
        return Err(answer(2, 0, 0));
    }
    let nodes = node_rows(nodes);
    let edges = label_rows(edges);
    let refs = label_rows(refs);
    if let Some(i) = (0..nodes.len()).find(|&i| !node_stands(i, &nodes[i])) {
        return Err(answer(3, 0, i));
    }
    if let Some(i) = edges.iter().position(|row| !edge_stands(start, &nodes, row)) {
        return Err(answer(4, 0, i));
    }
    if let Some(i) = refs.iter().position(|row| !ref_stands(start, &nodes, row)) {
        return Err(answer(5, 0, i));
    }
    Ok(History { start, nodes: nodes.len(), edges, refs })
}
