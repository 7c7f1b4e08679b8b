//! The faults at an instant, and check: a pass over the rows at each instant at which something changes.

use super::{answer, rules};
use bindlewort_tests::code::*;
use bindlewort_tests::{Answered, EDGE_WIDTH, MOST_NODES, NODE_WIDTH, NOW, REF_WIDTH};

pub const NONE: u32 = u32::MAX;
const MANY: u32 = u32::MAX - 1;

pub fn in_force(row: &[u32], t: u32) -> bool {
    (row[2] <= t) & (t <= row[3])
}

/// For each node the parent of the row into it that is in force.
pub fn parents(edges: &[u32], t: u32) -> [u32; MOST_NODES] {
    let mut up = [NONE; MOST_NODES];
    for row in edges.chunks_exact(EDGE_WIDTH) {
        if in_force(row, t) {
            let slot = &mut up[row[1] as usize];
            *slot = if *slot == NONE { row[0] } else { MANY };
        }
    }
    up
}

fn absent(up: &[u32; MOST_NODES], n: usize) -> bool {
    n != 0 && up[n] == NONE
}

/// The smallest node that is absent and is the parent of another.
fn outside(up: &[u32; MOST_NODES], n: usize) -> Option<usize> {
    let mut best = n;
    for &parent in &up[..n] {
        let parent = parent as usize;
        if parent < best && absent(up, parent) {
            best = parent;
        }
    }
    if best < n {
        Some(best)
    } else {
        None
    }
}

/// Whether no walk up comes back to where it was: each node is passed once.
fn settled(up: &[u32; MOST_NODES], n: usize) -> bool {
    let mut mark = [0u32; MOST_NODES];
    for start in 0..n {
        let stamp = start as u32 + 1;
        let mut x = start;
        while x < n {
            if mark[x] == stamp {
                return false;
            }
            if mark[x] != 0 {
                break;
            }
            mark[x] = stamp;
            x = up[x] as usize;
        }
    }
    true
}

fn comes_back(up: &[u32; MOST_NODES], n: usize, c: usize) -> bool {
    let mut x = up[c] as usize;
    for _ in 0..n {
        if x == c {
            return true;
        }
        if n <= x {
            return false;
        }
        x = up[x] as usize;
    }
    false
}

/// LATE, DANGLING and DOUBLE: one pass finds the smallest row of the first two and the smallest attribute of the third.
fn references(up: &[u32; MOST_NODES], refs: &[u32], t: u32) -> Option<Answered> {
    let nowhere = usize::MAX;
    let (mut late, mut dangling, mut double) = (nowhere, nowhere, nowhere);
    let mut refers = [false; MOST_NODES];
    for (i, row) in refs.chunks_exact(REF_WIDTH).enumerate() {
        if !in_force(row, t) {
            continue;
        }
        let (attribute, target) = (row[0] as usize, row[1] as usize);
        if absent(up, attribute) {
            late = late.min(i);
        }
        if absent(up, target) {
            dangling = dangling.min(i);
        }
        if refers[attribute] {
            double = double.min(attribute);
        }
        refers[attribute] = true;
    }
    let found = [(LATE, late), (DANGLING, dangling), (DOUBLE, double)].into_iter().find(|fault| fault.1 != nowhere);
    found.map(|(code, place)| answer(code, t, place))
}

/// The codes after GAP.
pub fn after_gap(up: &[u32; MOST_NODES], n: usize, refs: &[u32], t: u32) -> Option<Answered> {
    if let Some(place) = outside(up, n) {
        return Some(answer(OUTSIDE, t, place));
    }
    if !settled(up, n) {
        if let Some(place) = (0..n).find(|&c| comes_back(up, n, c)) {
            return Some(answer(CYCLE, t, place));
        }
    }
    references(up, refs, t)
}

pub fn overlap(up: &[u32; MOST_NODES], n: usize, t: u32) -> Option<Answered> {
    up[..n].iter().position(|&parent| parent == MANY).map(|place| answer(OVERLAP, t, place))
}

/// The last instant before the next change.
fn until(rows: &[u32], t: u32) -> u32 {
    let mut best = NOW;
    for row in rows.chunks_exact(4) {
        let start = if t < row[2] { row[2] - 1 } else { NOW };
        let end = if t <= row[3] { row[3] } else { NOW };
        best = best.min(start.min(end));
    }
    best
}

#[inline(never)]
pub fn check(start: u32, nodes: &[u32], edges: &[u32], refs: &[u32]) -> Answered {
    if let Some(refusal) = rules(start, nodes, edges, refs) {
        return refusal;
    }
    let n = nodes.len() / NODE_WIDTH;
    let mut first = [NOW; MOST_NODES];
    let mut last = [0; MOST_NODES];
    for row in edges.chunks_exact(EDGE_WIDTH) {
        let child = row[1] as usize;
        first[child] = first[child].min(row[2]);
        last[child] = last[child].max(row[3]);
    }
    let mut t = start;
    loop {
        let up = parents(edges, t);
        if let Some(fault) = overlap(&up, n, t) {
            return fault;
        }
        if let Some(place) = (0..n).find(|&c| absent(&up, c) && first[c] < t && t < last[c]) {
            return answer(GAP, t, place);
        }
        if let Some(fault) = after_gap(&up, n, refs, t) {
            return fault;
        }
        let calm = until(edges, t).min(until(refs, t));
        if calm == NOW {
            return answer(DONE, 0, 0);
        }
        t = calm + 1;
    }
}
