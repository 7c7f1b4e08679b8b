//! Sound histories that grow as a ward does.

use super::History;
use crate::kind::{ELEMENT, REF_ATTRIBUTE, VALUE};
use crate::random::Random;
use crate::NOW;

/// A ward at work: what is open now, and the rows so far.
struct Ward {
    now: u32,
    kinds: Vec<u32>,
    edges: Vec<[u32; 4]>,
    refs: Vec<[u32; 4]>,
    /// For each node its row in force, if it is present.
    open: Vec<Option<usize>>,
    /// Whether a node was ever present: one that left does not come back, since it would leave a gap.
    known: Vec<bool>,
}

impl Ward {
    fn present(&self, n: usize) -> bool {
        n == 0 || self.open[n].is_some()
    }

    fn parent(&self, n: usize) -> Option<usize> {
        self.open[n].map(|row| self.edges[row][0] as usize)
    }

    /// Whether n is node or stands below it.
    fn below(&self, n: usize, node: usize) -> bool {
        let mut at = Some(n);
        while let Some(x) = at {
            if x == node {
                return true;
            }
            at = self.parent(x);
        }
        false
    }

    fn may_hold(&self, parent: usize, child: usize) -> bool {
        match self.kinds[parent] {
            0 | 1 => self.kinds[child] >= 1,
            2 | 3 => self.kinds[child] == VALUE,
            _ => false,
        }
    }

    fn admit(&mut self, child: usize, parent: usize) {
        if child == 0 || self.known[child] || !self.present(parent) || !self.may_hold(parent, child) {
            return;
        }
        self.known[child] = true;
        self.open_row(child, parent);
    }

    fn open_row(&mut self, child: usize, parent: usize) {
        self.open[child] = Some(self.edges.len());
        self.edges.push([parent as u32, child as u32, self.now, NOW]);
    }

    fn move_to(&mut self, child: usize, parent: usize) {
        let row = match self.open[child] {
            Some(row) => row,
            None => return,
        };
        let fits = self.present(parent) && self.may_hold(parent, child) && !self.below(parent, child);
        if fits && self.edges[row][2] < self.now {
            self.edges[row][3] = self.now - 1;
            self.open_row(child, parent);
        }
    }

    /// Everything below the node leaves with it, and the references that meet any of it end.
    fn discharge(&mut self, node: usize) {
        if node == 0 || !self.present(node) {
            return;
        }
        let gone: Vec<usize> = (1..self.kinds.len()).filter(|&n| self.present(n) && self.below(n, node)).collect();
        let meets = |r: &[u32; 4]| r[3] == NOW && (gone.contains(&(r[0] as usize)) || gone.contains(&(r[1] as usize)));
        let new = gone.iter().any(|&n| self.edges[self.open[n].unwrap()][2] == self.now);
        if new || self.refs.iter().any(|r| meets(r) && r[2] == self.now) {
            return;
        }
        for r in self.refs.iter_mut().filter(|r| meets(r)) {
            r[3] = self.now - 1;
        }
        for n in gone {
            let row = self.open[n].take().unwrap();
            self.edges[row][3] = self.now - 1;
        }
    }

    /// The nodes of a kind that are present.
    fn of_kind(&self, kind: u32) -> Vec<usize> {
        (1..self.kinds.len()).filter(|&n| self.kinds[n] == kind && self.present(n)).collect()
    }

    /// The row of an attribute's current reference.
    fn reference(&self, attribute: usize) -> Option<usize> {
        self.refs.iter().position(|r| r[0] == attribute as u32 && r[3] == NOW)
    }

    /// An attribute refers to one target at a time: its current reference ends first. One that starts only now cannot
    /// end before, and stays.
    fn refer(&mut self, attribute: usize, target: usize) {
        if let Some(row) = self.reference(attribute) {
            self.end_reference(row);
        }
        if self.reference(attribute).is_none() {
            self.refs.push([attribute as u32, target as u32, self.now, NOW]);
        }
    }

    fn end_reference(&mut self, row: usize) {
        let r = &mut self.refs[row];
        if r[3] == NOW && r[2] < self.now {
            r[3] = self.now - 1;
        }
    }
}

/// A sound history: it grows by admissions, moves, discharges and references, and its rows stand in random order.
pub fn grown(random: &mut Random, nodes: usize, steps: usize) -> History {
    let start = match random.below(4) {
        0 => 0,
        1 => NOW - 1 - random.below(2 * steps + 2) as u32,
        2 => random.word().min(NOW - 1),
        _ => random.below(50) as u32,
    };
    let mut ward = Ward {
        now: start,
        kinds: (0..nodes).map(|n| if n == 0 { 0 } else { random.pick(&[1, 1, 1, 1, 2, 3, 4, 4, 4, 5]) }).collect(),
        edges: vec![],
        refs: vec![],
        open: vec![None; nodes],
        known: vec![false; nodes],
    };
    for _ in 0..steps {
        let here: Vec<usize> = (0..nodes).filter(|&n| ward.present(n)).collect();
        let (any, one, other) = (random.below(nodes), random.pick(&here), random.pick(&here));
        match random.below(10) {
            0..=2 => ward.admit(any, one),
            3 | 4 => ward.move_to(one, other),
            5..=7 => {
                let (attributes, targets) = (ward.of_kind(REF_ATTRIBUTE), ward.of_kind(ELEMENT));
                if !attributes.is_empty() && !targets.is_empty() {
                    ward.refer(random.pick(&attributes), random.pick(&targets));
                }
            }
            8 if random.once_in(3) => ward.discharge(one),
            _ if !ward.refs.is_empty() => ward.end_reference(random.below(ward.refs.len())),
            _ => {}
        }
        ward.now = ward.now.saturating_add(random.below(3) as u32).min(NOW - 1);
    }
    random.shuffle(&mut ward.edges);
    random.shuffle(&mut ward.refs);
    let mut history = History { start, nodes: vec![], edges: ward.edges.concat(), refs: ward.refs.concat() };
    for kind in ward.kinds {
        history.nodes.extend(match kind {
            VALUE => [VALUE, 0, random.word()],
            _ => [kind, random.between(1, 65_535) as u32, 0],
        });
    }
    history
}
