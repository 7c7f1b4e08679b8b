//! Check, snapshot and repair.

use super::faults::{children, instants, Moment};
use super::{answer, ruled};
use crate::{Answered, EDGE_WIDTH, NO_NODE, SNAPSHOT_WIDTH};

/// "the earliest instant that has a fault, there the smallest code, and there the smallest place"
pub fn check(start: u32, nodes: &[u32], edges: &[u32], refs: &[u32]) -> Answered {
    match ruled(start, nodes, edges, refs) {
        Err(refusal) => refusal,
        Ok(history) => {
            instants(&history).into_iter().find_map(|t| Moment::at(&history, t).fault(true)).unwrap_or(answer(0, 0, 0))
        }
    }
}

/// Check by trying every instant from the start to `last`, for histories in which nothing begins or ends later.
pub fn check_every_instant(start: u32, nodes: &[u32], edges: &[u32], refs: &[u32], last: u32) -> Answered {
    match ruled(start, nodes, edges, refs) {
        Err(refusal) => refusal,
        Ok(history) => (start..=last).find_map(|t| Moment::at(&history, t).fault(true)).unwrap_or(answer(0, 0, 0)),
    }
}

/// "1 to 5 in order, 23, then the fault at t of smallest code and place with GAP set aside, .. 21"; Ask 8: "The other
/// refusals keep their order."
pub fn snapshot(start: u32, nodes: &[u32], edges: &[u32], refs: &[u32], t: u32, out: &mut [u32]) -> Answered {
    let history = match ruled(start, nodes, edges, refs) {
        Err(refusal) => return refusal,
        Ok(history) => history,
    };
    if t < start {
        return answer(23, t, 0);
    }
    let moment = Moment::at(&history, t);
    if let Some(fault) = moment.fault(false) {
        return fault;
    }
    let children = children(history.nodes, &moment.edges);
    let mut rows = Vec::new();
    subtree(&moment, &children, 0, NO_NODE, &mut rows);
    let count = rows.len() / SNAPSHOT_WIDTH;
    if out.len() < rows.len() {
        return answer(21, t, count);
    }
    out[..rows.len()].copy_from_slice(&rows);
    answer(0, t, count)
}

/// "a node is followed by the whole subtree of each child, children by rising node number"
fn subtree(moment: &Moment, children: &[Vec<usize>], node: usize, parent: u32, rows: &mut Vec<u32>) {
    // "the target of the smallest reference row in force from that node, or 4,294,967,295 if there is none"
    let referent = moment
        .history
        .refs
        .iter()
        .find(|row| row.one == node && row.in_force(moment.t))
        .map_or(NO_NODE, |row| row.other as u32);
    rows.extend([node as u32, parent, referent]);
    for &child in &children[node] {
        subtree(moment, children, child, node as u32, rows);
    }
}

/// "1 to 4 in order, then 22 with place the smallest row that shares its child and its start with a smaller row"
pub fn repair(start: u32, nodes: &[u32], edges: &mut [u32]) -> Answered {
    let rows = match ruled(start, nodes, edges, &[]) {
        Err(refusal) => return refusal,
        Ok(history) => history.edges,
    };
    let tied = |i: usize| rows[..i].iter().any(|row| row.other == rows[i].other && row.from == rows[i].from);
    if let Some(i) = (0..rows.len()).find(|&i| tied(i)) {
        return answer(22, rows[i].from, i);
    }
    let mut changed = 0;
    for (i, row) in rows.iter().enumerate() {
        let siblings = || rows.iter().filter(|other| other.other == row.other);
        // "each ends one instant before the next later start, and the row with the latest start ends at the largest end
        // that any of them had"
        let next = siblings().map(|other| other.from).filter(|&from| from > row.from).min();
        let last = siblings().map(|other| other.to).max().unwrap();
        let end = next.map_or(last, |from| from - 1);
        changed += usize::from(end != row.to);
        edges[i * EDGE_WIDTH + 3] = end;
    }
    answer(0, 0, changed)
}
