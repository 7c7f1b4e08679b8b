//! Snapshot: the children of each node linked, and a recursive walk.

use super::check::{after_gap, in_force, overlap, parents, NONE};
use super::{answer, rules};
use bindlewort_tests::code::*;
use bindlewort_tests::{Answered, MOST_NODES, NODE_WIDTH, NO_NODE, REF_WIDTH, SNAPSHOT_WIDTH};

struct Tree {
    first: [u32; MOST_NODES],
    next: [u32; MOST_NODES],
    referents: [u32; MOST_NODES],
}

impl Tree {
    /// The subtree of a node fills the front of out. Answers the number of rows.
    fn walk(&self, node: u32, parent: u32, out: &mut [u32]) -> usize {
        out[..SNAPSHOT_WIDTH].copy_from_slice(&[node, parent, self.referents[node as usize]]);
        let mut rows = 1;
        let mut child = self.first[node as usize];
        while child != NO_NODE {
            rows += self.walk(child, node, &mut out[rows * SNAPSHOT_WIDTH..]);
            child = self.next[child as usize];
        }
        rows
    }
}

#[inline(never)]
pub fn snapshot(start: u32, nodes: &[u32], edges: &[u32], refs: &[u32], t: u32, out: &mut [u32]) -> Answered {
    if let Some(refusal) = rules(start, nodes, edges, refs) {
        return refusal;
    }
    if t < start {
        return answer(EARLY, t, 0);
    }
    let n = nodes.len() / NODE_WIDTH;
    let up = parents(edges, t);
    if let Some(fault) = overlap(&up, n, t).or_else(|| after_gap(&up, n, refs, t)) {
        return fault;
    }
    let rows = 1 + up[..n].iter().filter(|&&parent| parent != NONE).count();
    if out.len() < rows * SNAPSHOT_WIDTH {
        return answer(ROOM, t, rows);
    }
    let mut tree = Tree { first: [NO_NODE; MOST_NODES], next: [NO_NODE; MOST_NODES], referents: [NO_NODE; MOST_NODES] };
    for row in refs.chunks_exact(REF_WIDTH) {
        let referent = &mut tree.referents[row[0] as usize];
        if in_force(row, t) && *referent == NO_NODE {
            *referent = row[1];
        }
    }
    for child in (0..n).rev() {
        if up[child] != NONE {
            tree.next[child] = std::mem::replace(&mut tree.first[up[child] as usize], child as u32);
        }
    }
    tree.walk(0, NO_NODE, out);
    answer(DONE, t, rows)
}
