//! Repair: for each row a look at all rows.

use super::{answer, rules};
use bindlewort_tests::code::*;
use bindlewort_tests::{Answered, EDGE_WIDTH, MOST_EDGES, NOW};

fn first_tie(edges: &[u32]) -> Option<usize> {
    let tied = |(i, row): (usize, &[u32])| {
        edges[..EDGE_WIDTH * i].chunks_exact(EDGE_WIDTH).any(|other| other[1] == row[1] && other[2] == row[2])
    };
    edges.chunks_exact(EDGE_WIDTH).enumerate().position(tied)
}

/// The end of a row after repair: one instant before the next start among the rows into its child, or their largest
/// end.
fn new_end(edges: &[u32], row: &[u32]) -> u32 {
    let mut next = NOW;
    let mut last = 0;
    for other in edges.chunks_exact(EDGE_WIDTH) {
        if other[1] == row[1] {
            if row[2] < other[2] {
                next = next.min(other[2]);
            }
            last = last.max(other[3]);
        }
    }
    if next == NOW {
        last
    } else {
        next - 1
    }
}

#[inline(never)]
pub fn repair(start: u32, nodes: &[u32], edges: &mut [u32]) -> Answered {
    if let Some(refusal) = rules(start, nodes, edges, &[]) {
        return refusal;
    }
    if let Some(i) = first_tie(edges) {
        return answer(TIE, edges[EDGE_WIDTH * i + 2], i);
    }
    let mut ends = [0; MOST_EDGES];
    for (end, row) in ends.iter_mut().zip(edges.chunks_exact(EDGE_WIDTH)) {
        *end = new_end(edges, row);
    }
    let mut changed = 0;
    for (row, end) in edges.chunks_exact_mut(EDGE_WIDTH).zip(ends) {
        changed += usize::from(row[3] != end);
        row[3] = end;
    }
    answer(DONE, 0, changed)
}
