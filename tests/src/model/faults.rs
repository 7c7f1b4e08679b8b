//! The faults at an instant, and the instants to look at.

use super::{answer, History, Row};
use crate::{Answered, NOW};

/// What is in force at an instant.
pub(super) struct Moment<'a> {
    pub(super) history: &'a History,
    pub(super) t: u32,
    /// The containment rows in force.
    pub(super) edges: Vec<Row>,
    /// For each node the count of rows into it that are in force.
    into: Vec<usize>,
}

impl<'a> Moment<'a> {
    pub(super) fn at(history: &'a History, t: u32) -> Moment<'a> {
        let edges: Vec<Row> = history.edges.iter().copied().filter(|row| row.in_force(t)).collect();
        let mut into = vec![0; history.nodes];
        for row in &edges {
            into[row.other] += 1;
        }
        Moment { history, t, edges, into }
    }

    /// "The root is present from the start on. Another node is present at t when some containment row into it is in
    /// force."
    fn present(&self, n: usize) -> bool {
        if n == 0 {
            self.t >= self.history.start
        } else {
            self.into[n] > 0
        }
    }

    /// 11: "two or more containment rows into node n are in force"
    fn overlap(&self) -> Option<usize> {
        (0..self.history.nodes).find(|&n| self.into[n] >= 2)
    }

    /// 12: "n is not the root, no row into n is in force, one ended before t and one starts after t"
    fn gap(&self) -> Option<usize> {
        let mut ended = vec![false; self.history.nodes];
        let mut starts = vec![false; self.history.nodes];
        for row in &self.history.edges {
            ended[row.other] |= row.to < self.t;
            starts[row.other] |= row.from > self.t;
        }
        (1..self.history.nodes).find(|&n| self.into[n] == 0 && ended[n] && starts[n])
    }

    /// 13: "n is not the root, a row out of n is in force and none into n"
    fn outside(&self) -> Option<usize> {
        let mut out_of = vec![false; self.history.nodes];
        for row in &self.edges {
            out_of[row.one] = true;
        }
        (1..self.history.nodes).find(|&n| out_of[n] && self.into[n] == 0)
    }

    /// 14: "a chain of one or more containment rows, all in force, leads from n to n"
    fn cycle(&self) -> Option<usize> {
        let children = children(self.history.nodes, &self.edges);
        // No such chain passes a node that no row leads into, so these are taken away, again and again, before any
        // search.
        let mut into = self.into.clone();
        let mut bare: Vec<usize> = (0..self.history.nodes).filter(|&n| into[n] == 0).collect();
        while let Some(n) = bare.pop() {
            for &child in &children[n] {
                into[child] -= 1;
                if into[child] == 0 {
                    bare.push(child);
                }
            }
        }
        (0..self.history.nodes).find(|&n| into[n] > 0 && leads(&children, n, n))
    }

    /// 15: "a reference is in force and its attribute is not present"
    fn late(&self) -> Option<usize> {
        self.history.refs.iter().position(|row| row.in_force(self.t) && !self.present(row.one))
    }

    /// 16: "a reference is in force and its target is not present"
    fn dangling(&self) -> Option<usize> {
        self.history.refs.iter().position(|row| row.in_force(self.t) && !self.present(row.other))
    }

    /// 17: "two or more references from one attribute are in force at t, place the attribute's node number"
    fn double(&self) -> Option<usize> {
        let mut from = vec![0; self.history.nodes];
        for row in self.history.refs.iter().filter(|row| row.in_force(self.t)) {
            from[row.one] += 1;
        }
        (0..self.history.nodes).find(|&n| from[n] >= 2)
    }

    /// The smallest code, and there the smallest place. "17 after 16, in check and snapshot".
    pub(super) fn fault(&self, with_gap: bool) -> Option<Answered> {
        let said = |code: u32, place: Option<usize>| place.map(|p| answer(code, self.t, p));
        said(11, self.overlap())
            .or_else(|| if with_gap { said(12, self.gap()) } else { None })
            .or_else(|| said(13, self.outside()))
            .or_else(|| said(14, self.cycle()))
            .or_else(|| said(15, self.late()))
            .or_else(|| said(16, self.dangling()))
            .or_else(|| said(17, self.double()))
    }
}

/// For each node the children that rows lead to, by rising number.
pub(super) fn children(nodes: usize, edges: &[Row]) -> Vec<Vec<usize>> {
    let mut children = vec![Vec::new(); nodes];
    for row in edges {
        children[row.one].push(row.other);
    }
    for list in &mut children {
        list.sort_unstable();
    }
    children
}

/// Whether a chain of one or more rows leads from one node to another.
fn leads(children: &[Vec<usize>], from: usize, to: usize) -> bool {
    let mut seen = vec![false; children.len()];
    let mut todo = children[from].clone();
    while let Some(n) = todo.pop() {
        if n == to {
            return true;
        }
        if !seen[n] {
            seen[n] = true;
            todo.extend(&children[n]);
        }
    }
    false
}

/// The instants to look at: every number of a label and its neighbours, the start, and the last ones. Between two of
/// them nothing begins or ends.
pub(super) fn instants(history: &History) -> Vec<u32> {
    let mut all = vec![history.start, NOW - 1, NOW];
    for row in history.edges.iter().chain(&history.refs) {
        for number in [row.from, row.to] {
            all.extend([number.saturating_sub(1), number, number.saturating_add(1)]);
        }
    }
    all.retain(|&t| t >= history.start);
    all.sort_unstable();
    all.dedup();
    all
}
