//! Sound histories of full size, and of parts of it, in three shapes; and two with a fault at their end.

use super::History;
use crate::kind::{ELEMENT, REF_ATTRIBUTE};
use crate::random::Random;
use crate::NOW;

/// How large: `parts` of 8, so that 8 is full size: 1,024 nodes, 2,048 containment rows and 1,024 references.
#[derive(Clone, Copy)]
pub struct Size {
    pub nodes: usize,
    pub edges: usize,
    pub refs: usize,
}

impl Size {
    pub const FULL: Size = Size::eighths(8);

    pub const fn eighths(parts: usize) -> Size {
        Size { nodes: 128 * parts, edges: 256 * parts, refs: 128 * parts }
    }
}

/// Nodes of these kinds after the root.
fn nodes_of(kinds: impl Iterator<Item = u32>) -> Vec<u32> {
    let mut nodes = vec![0, 1, 0];
    nodes.extend(kinds.flat_map(|kind| [kind, 1, 0]));
    nodes
}

/// A shallow ward: an eighth of the nodes are beds under the root that stay; an eighth are REF attributes in beds that
/// stay; the rest are patients who move from bed to bed, stay after stay, and leave. References from attributes to
/// patients, one at a time from each.
pub fn ward(size: Size) -> History {
    let mut random = Random::seeded(1);
    let beds = size.nodes / 8;
    let attributes = size.nodes / 8;
    let patients = size.nodes - 1 - beds - attributes;
    let first_patient = 1 + beds + attributes;
    let kind = |n: usize| if n > beds && n < first_patient { REF_ATTRIBUTE } else { ELEMENT };
    let mut edges = vec![];
    for bed in 1..=beds {
        edges.push([0, bed as u32, 0, NOW]);
        edges.push([bed as u32, (beds + bed) as u32, 0, NOW]);
    }
    let stays = size.edges - edges.len();
    let mut refs = vec![];
    for i in 0..patients {
        let patient = (first_patient + i) as u32;
        let mut from = 1 + random.below(20 * size.nodes) as u32;
        let admitted = from;
        let count = stays / patients + usize::from(i < stays % patients);
        for _ in 0..count {
            let to = from + random.between(1_000, 20_000) as u32;
            edges.push([random.between(1, beds) as u32, patient, from, to]);
            from = to + 1;
        }
        let referred = size.refs / patients + usize::from(i < size.refs % patients);
        for _ in 0..referred {
            // Drawn anew until the attribute refers to nobody else meanwhile.
            let reference = loop {
                let attribute = random.between(beds + 1, beds + attributes) as u32;
                let from_ref = random.between(admitted as usize, from as usize - 2) as u32;
                let to_ref = random.between(from_ref as usize, from as usize - 1) as u32;
                let meets = |row: &[u32; 4]| row[0] == attribute && row[2] <= to_ref && from_ref <= row[3];
                if !refs.iter().any(meets) {
                    break [attribute, patient, from_ref, to_ref];
                }
            };
            refs.push(reference);
        }
    }
    History { start: 0, nodes: nodes_of((1..size.nodes).map(kind)), edges: edges.concat(), refs: refs.concat() }
}

/// A chain: all nodes but 24 hold one another, a thousand deep at full size, and stay; the others move along the chain.
/// Half of these are REF attributes, each with one reference after another to nodes of the chain.
pub fn chain(size: Size) -> History {
    let mut random = Random::seeded(2);
    let deep = size.nodes - 24;
    let kind = |n: usize| if n > deep && n % 2 == 0 { REF_ATTRIBUTE } else { ELEMENT };
    let mut edges: Vec<[u32; 4]> = (1..=deep as u32).map(|n| [n - 1, n, 0, NOW]).collect();
    let movers = size.nodes - 1 - deep;
    let stays = size.edges - edges.len();
    for i in 0..movers {
        let mut from = 0;
        let count = stays / movers + usize::from(i < stays % movers);
        for stay in 1..=count {
            let to = if stay == count { NOW } else { from + random.between(1_000, 20_000) as u32 };
            edges.push([random.between(1, deep) as u32, (deep + 1 + i) as u32, from, to]);
            from = to.wrapping_add(1);
        }
    }
    let attributes: Vec<u32> =
        (deep as u32 + 1..size.nodes as u32).filter(|&n| kind(n as usize) == REF_ATTRIBUTE).collect();
    let mut free = vec![0; size.nodes];
    let mut refs = vec![];
    for _ in 0..size.refs {
        let attribute = random.pick(&attributes);
        let from = free[attribute as usize] + random.below(4_000) as u32;
        let to = from + random.below(8_000) as u32;
        free[attribute as usize] = to + 1;
        refs.push([attribute, random.between(1, deep) as u32, from, to]);
    }
    History { start: 0, nodes: nodes_of((1..size.nodes).map(kind)), edges: edges.concat(), refs: refs.concat() }
}

/// The most change instants that an accepted history can have, 5,119 at full size: every row starts at an instant of
/// its own, and so does what is one past the last end of each node and past the end of each reference.
///
/// In this order: the nodes come, the references start, the nodes move on (some twice), the references end, the nodes
/// leave. The first sixteenth of the nodes are beds, which come first and leave last. The others are REF attributes
/// that refer to beds: some twice, one reference after the other.
pub fn most_instants(size: Size) -> History {
    let mut random = Random::seeded(3);
    let others = size.nodes as u32 - 1;
    let beds = others / 16;
    let attributes = others - beds;
    let kind = |n: usize| if n as u32 > beds { REF_ATTRIBUTE } else { ELEMENT };
    let mut clock = 0;
    let mut tick = || {
        clock += 1;
        clock - 1
    };
    let mut edges: Vec<[u32; 4]> = vec![];
    let mut open = vec![0; size.nodes];
    let mut refs: Vec<[u32; 4]> = vec![];
    let mut bed = |n: u32| if n <= beds { 0 } else { random.between(1, beds as usize) as u32 };
    for n in 1..=others {
        open[n as usize] = edges.len();
        edges.push([bed(n), n, tick(), NOW]);
    }
    for k in 0..size.refs as u32 {
        if k >= attributes {
            refs[(k - attributes) as usize][3] = tick() - 1;
        }
        refs.push([beds + 1 + k % attributes, 1 + k % beds, tick(), NOW]);
    }
    for i in 0..size.edges as u32 - others {
        let n = 1 + i % others;
        let from = tick();
        edges[open[n as usize]][3] = from - 1;
        open[n as usize] = edges.len();
        edges.push([bed(n), n, from, NOW]);
    }
    for row in refs.iter_mut().filter(|row| row[3] == NOW) {
        row[3] = tick() - 1;
    }
    for n in (1..=others).rev() {
        edges[open[n as usize]][3] = tick() - 1;
    }
    History { start: 0, nodes: nodes_of((1..size.nodes).map(kind)), edges: edges.concat(), refs: refs.concat() }
}

/// The same with a fault at the last instant at which anything happens: the last bed to leave holds a node that stays.
pub fn late_fault(size: Size) -> History {
    let mut history = most_instants(size);
    let last = history.edges.chunks(4).map(|row| row[3]).max().unwrap();
    let stays = history.edges.chunks(4).rposition(|row| row[0] == 1).unwrap();
    assert!(history.edges[4 * stays + 3] < last);
    history.edges[4 * stays + 3] = NOW;
    history
}

/// The chain with two references of its last REF attribute from the last instant on at which a row may start. They are
/// the first and the last of the table.
pub fn late_double(size: Size) -> History {
    let mut history = chain(size);
    let attribute = size.nodes as u32 - 2;
    let last = history.refs.len() - 4;
    for (row, target) in [(0, 1), (last, 2)] {
        history.refs[row..row + 4].copy_from_slice(&[attribute, target, NOW - 1, NOW]);
    }
    history
}
