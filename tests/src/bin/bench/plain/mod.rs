//! The counterparts: the algorithms of the library in plain Rust, as one would write them without proofs.

mod check;
mod repair;
mod snapshot;
mod text;

pub use check::check;
pub use repair::repair;
pub use snapshot::snapshot;
pub use text::{read_text, write_text};

use bindlewort_tests::code::*;
use bindlewort_tests::{Answered, NOW};
use bindlewort_tests::{EDGE_WIDTH, MOST_EDGES, MOST_NODES, MOST_REFS, NODE_WIDTH, REF_WIDTH};

fn answer(code: u32, instant: u32, place: usize) -> Answered {
    Answered { code, instant, place: place as u32 }
}

// ---- Codes 1 to 5

fn fits(numbers: usize, width: usize, least: usize, most: usize) -> bool {
    numbers % width == 0 && (least..=most).contains(&(numbers / width))
}

fn sizes(nodes: &[u32], edges: &[u32], refs: &[u32]) -> Option<Answered> {
    if !fits(nodes.len(), NODE_WIDTH, 1, MOST_NODES) {
        return Some(answer(SIZE, 0, 0));
    }
    if !fits(edges.len(), EDGE_WIDTH, 0, MOST_EDGES) {
        return Some(answer(SIZE, 0, 1));
    }
    if !fits(refs.len(), REF_WIDTH, 0, MOST_REFS) {
        return Some(answer(SIZE, 0, 2));
    }
    None
}

fn bad_node(i: usize, node: &[u32]) -> bool {
    let (kind, label, value) = (node[0], node[1], node[2]);
    let rest = if kind == 5 { label == 0 } else { kind < 5 && (1..=65_535).contains(&label) && value == 0 };
    (i == 0) != (kind == 0) || !rest
}

fn bad_row(start: u32, nodes: &[u32], row: &[u32], allowed: impl Fn(u32, u32) -> bool) -> bool {
    let kind = |n: u32| nodes.get(NODE_WIDTH * n as usize).copied();
    match (kind(row[0]), kind(row[1])) {
        (Some(one), Some(other)) => !(allowed(one, other) && start <= row[2] && row[2] <= row[3] && row[2] != NOW),
        _ => true,
    }
}

fn rules(start: u32, nodes: &[u32], edges: &[u32], refs: &[u32]) -> Option<Answered> {
    if let Some(refusal) = sizes(nodes, edges, refs) {
        return Some(refusal);
    }
    if start == NOW {
        return Some(answer(START, 0, 0));
    }
    if let Some(i) = nodes.chunks_exact(NODE_WIDTH).enumerate().position(|(i, node)| bad_node(i, node)) {
        return Some(answer(NODE, 0, i));
    }
    let holds = |parent, child| (parent <= 1 && (1..=5).contains(&child)) || ((2..=3).contains(&parent) && child == 5);
    if let Some(i) = edges.chunks_exact(EDGE_WIDTH).position(|row| bad_row(start, nodes, row, holds)) {
        return Some(answer(EDGE, 0, i));
    }
    let refers = |attribute, target| attribute == 4 && target == 1;
    if let Some(i) = refs.chunks_exact(REF_WIDTH).position(|row| bad_row(start, nodes, row, refers)) {
        return Some(answer(REFERENCE, 0, i));
    }
    None
}
