//! The calls of Bindlewort for Rust: a safe function for each, over the C boundary that `include/bindlewort.h`
//! declares. This file stands by itself: a Rust program can take it as it is.
//!
//! A table is a slice of 32-bit numbers, row after row: three to a node row, four to a containment or a reference row.
//! A slice passes as its pointer and its length. Each call takes slices of every length and content and ends with one
//! answer; one that refuses leaves everything lent to it as it was.

/// The largest instant: a row that ends there is current.
pub const NOW: u32 = u32::MAX;

/// In a row of a snapshot: no parent, no referent.
pub const NO_NODE: u32 = u32::MAX;

/// How many numbers a row has.
pub const NODE_WIDTH: usize = 3;
pub const EDGE_WIDTH: usize = 4;
pub const REF_WIDTH: usize = 4;
pub const SNAPSHOT_WIDTH: usize = 3;

/// How many rows a table has at least and at most.
pub const LEAST_NODES: usize = 1;
pub const MOST_NODES: usize = 1024;
pub const MOST_EDGES: usize = 2048;
pub const MOST_REFS: usize = 1024;

/// How many bytes the longest text of tables in size has.
pub const MOST_TEXT: usize = 188_475;

/// The largest label of a node.
pub const MOST_LABEL: u32 = 65_535;

/// The kinds of nodes.
pub mod kind {
    pub const ROOT: u32 = 0;
    pub const ELEMENT: u32 = 1;
    pub const PLAIN_ATTRIBUTE: u32 = 2;
    pub const ID_ATTRIBUTE: u32 = 3;
    pub const REF_ATTRIBUTE: u32 = 4;
    pub const VALUE: u32 = 5;
}

/// The codes of answers. What each names stands in `include/bindlewort.h`.
pub mod code {
    /// No refusal.
    pub const DONE: u32 = 0;
    /// A table is not whole rows or is out of size.
    pub const SIZE: u32 = 1;
    /// The start is `NOW`.
    pub const START: u32 = 2;
    /// A node row breaks its rule.
    pub const NODE: u32 = 3;
    /// A containment row breaks its rule.
    pub const EDGE: u32 = 4;
    /// A reference row breaks its rule.
    pub const REFERENCE: u32 = 5;
    /// Two or more rows into a node are in force.
    pub const OVERLAP: u32 = 11;
    /// A node is away between two of its rows.
    pub const GAP: u32 = 12;
    /// A node holds another and is not present.
    pub const OUTSIDE: u32 = 13;
    /// A node holds itself, by one row or a chain of rows.
    pub const CYCLE: u32 = 14;
    /// A reference is in force and its attribute is not present.
    pub const LATE: u32 = 15;
    /// A reference is in force and its target is not present.
    pub const DANGLING: u32 = 16;
    /// Two or more references from one attribute are in force.
    pub const DOUBLE: u32 = 17;
    /// An output is too short.
    pub const ROOM: u32 = 21;
    /// Rows into one child start together.
    pub const TIE: u32 = 22;
    /// The asked instant is before the start.
    pub const EARLY: u32 = 23;
    /// The text is not of the form.
    pub const TEXT: u32 = 31;
    /// The text output is too short.
    pub const TEXTROOM: u32 = 32;
}

/// An answer: `code::DONE` where the call did its work, else the code of the refusal. Parts that a code does not name
/// are 0.
#[repr(C)]
#[derive(Clone, Copy, Debug, PartialEq, Eq)]
pub struct Answered {
    pub code: u32,
    pub instant: u32,
    pub place: u32,
}

/// The answer of `read_text`, with the start and the counts of rows that were read, which are 0 on refusal.
#[repr(C)]
#[derive(Clone, Copy, Debug, PartialEq, Eq)]
pub struct Reading {
    pub answer: Answered,
    pub start: u32,
    pub nodes: u32,
    pub edges: u32,
    pub refs: u32,
}

mod boundary {
    use super::{Answered, Reading};

    extern "C" {
        pub fn bw_check(
            start: u32,
            nodes: *const u32,
            nodes_len: usize,
            edges: *const u32,
            edges_len: usize,
            refs: *const u32,
            refs_len: usize,
        ) -> Answered;

        pub fn bw_repair(
            start: u32,
            nodes: *const u32,
            nodes_len: usize,
            edges: *mut u32,
            edges_len: usize,
        ) -> Answered;

        pub fn bw_snapshot(
            start: u32,
            nodes: *const u32,
            nodes_len: usize,
            edges: *const u32,
            edges_len: usize,
            refs: *const u32,
            refs_len: usize,
            t: u32,
            out: *mut u32,
            out_len: usize,
        ) -> Answered;

        pub fn bw_write_text(
            start: u32,
            nodes: *const u32,
            nodes_len: usize,
            edges: *const u32,
            edges_len: usize,
            refs: *const u32,
            refs_len: usize,
            out: *mut u8,
            out_len: usize,
        ) -> Answered;

        pub fn bw_read_text(
            text: *const u8,
            text_len: usize,
            nodes: *mut u32,
            nodes_len: usize,
            edges: *mut u32,
            edges_len: usize,
            refs: *mut u32,
            refs_len: usize,
        ) -> Reading;
    }
}

// Why these are safe: the library takes slices of every length and content, reads and writes within the lengths alone,
// writes to nothing that is shared, and keeps no pointer.

/// Calls the boundary with the start and the three tables first, each as its pointer and its length.
macro_rules! on_tables {
    ($call:ident, $start:ident, $nodes:ident, $edges:ident, $refs:ident $(, $more:expr)*) => {
        unsafe {
            boundary::$call(
                $start,
                $nodes.as_ptr(),
                $nodes.len(),
                $edges.as_ptr(),
                $edges.len(),
                $refs.as_ptr(),
                $refs.len(),
                $($more),*
            )
        }
    };
}

/// `code::DONE` where the history has no fault at any instant, else the rule that a table breaks or the earliest fault.
pub fn check(start: u32, nodes: &[u32], edges: &[u32], refs: &[u32]) -> Answered {
    on_tables!(bw_check, start, nodes, edges, refs)
}

/// Makes the rows into each child follow one another; the place is the count of rows whose end was changed.
pub fn repair(start: u32, nodes: &[u32], edges: &mut [u32]) -> Answered {
    unsafe { boundary::bw_repair(start, nodes.as_ptr(), nodes.len(), edges.as_mut_ptr(), edges.len()) }
}

/// Writes what the history contains at instant `t` to the front of `out`; the place is the count of rows.
pub fn snapshot(start: u32, nodes: &[u32], edges: &[u32], refs: &[u32], t: u32, out: &mut [u32]) -> Answered {
    on_tables!(bw_snapshot, start, nodes, edges, refs, t, out.as_mut_ptr(), out.len())
}

/// Writes the tables as text to the front of `out`; the place is the count of bytes, those needed on `TEXTROOM`.
pub fn write_text(start: u32, nodes: &[u32], edges: &[u32], refs: &[u32], out: &mut [u8]) -> Answered {
    on_tables!(bw_write_text, start, nodes, edges, refs, out.as_mut_ptr(), out.len())
}

/// Reads the tables from text to the front of each table.
pub fn read_text(text: &[u8], nodes: &mut [u32], edges: &mut [u32], refs: &mut [u32]) -> Reading {
    unsafe {
        boundary::bw_read_text(
            text.as_ptr(),
            text.len(),
            nodes.as_mut_ptr(),
            nodes.len(),
            edges.as_mut_ptr(),
            edges.len(),
            refs.as_mut_ptr(),
            refs.len(),
        )
    }
}
