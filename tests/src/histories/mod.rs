//! Histories for tests and the benchmark: document 01's H, sound ones, hurt ones, wild ones, and sound ones of full
//! size.

mod full;
mod grown;
mod hurt;

pub use full::{chain, late_double, late_fault, most_instants, ward, Size};
pub use grown::grown;
pub use hurt::{any, hurt, random_tables, refer_twice, wild};

use crate::kind::ELEMENT;
use crate::random::Random;
use crate::NOW;

#[derive(Clone, Debug)]
pub struct History {
    pub start: u32,
    pub nodes: Vec<u32>,
    pub edges: Vec<u32>,
    pub refs: Vec<u32>,
}

impl History {
    /// A root and elements, no rows.
    pub fn of_elements(elements: usize) -> History {
        let mut history = History { start: 0, nodes: vec![0, 1, 0], edges: vec![], refs: vec![] };
        for _ in 0..elements {
            history.nodes.extend([ELEMENT, 1, 0]);
        }
        history
    }

    /// The same with these containment rows.
    pub fn with_edges(mut self, rows: &[[u32; 4]]) -> History {
        self.edges = rows.concat();
        self
    }

    /// The numbers of all instants in the rows.
    fn label_numbers(&self) -> Vec<u32> {
        self.edges.chunks(4).chain(self.refs.chunks(4)).filter(|r| r.len() == 4).flat_map(|r| [r[2], r[3]]).collect()
    }

    /// An instant at which something happens, or nearly so.
    pub fn some_instant(&self, random: &mut Random) -> u32 {
        let numbers = self.label_numbers();
        let near = if numbers.is_empty() { self.start } else { random.pick(&numbers) };
        match random.below(8) {
            0 => self.start,
            1 => self.start.wrapping_sub(1),
            2 => NOW,
            3 => random.word(),
            4 => near.wrapping_sub(1),
            5 => near.wrapping_add(1),
            _ => near,
        }
    }
}

/// Document 01's input H: beds 1 and 2, patient 3, session 4 and its REF attribute 5.
pub fn h() -> History {
    History {
        start: 0,
        nodes: vec![0, 1, 0, 1, 2, 0, 1, 2, 0, 1, 3, 0, 1, 4, 0, 4, 5, 0],
        edges: vec![0, 1, 0, NOW, 0, 2, 0, NOW, 1, 3, 10, 49, 2, 3, 50, 99, 1, 4, 20, 120, 4, 5, 20, 120],
        refs: vec![5, 3, 20, 120],
    }
}

/// The same as text.
pub const H_TEXT: &str = "edition=1\nstart=0\nnodes=6\nedges=6\nrefs=1\n\
node=0,1,0\nnode=1,2,0\nnode=1,2,0\nnode=1,3,0\nnode=1,4,0\nnode=4,5,0\n\
edge=0,1,0,now\nedge=0,2,0,now\nedge=1,3,10,49\nedge=2,3,50,99\nedge=1,4,20,120\nedge=4,5,20,120\n\
ref=5,3,20,120\n";
