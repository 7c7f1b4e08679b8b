/*
 * Bindlewort: the history of a ward, kept in three tables and judged by five calls.
 *
 * A table is an array of 32-bit numbers, row after row, lent as a pointer and a length. A length counts numbers (bytes
 * for text), not rows. A row's number is its place, from 0.
 *
 *   nodes       BW_NODE_WIDTH numbers a row: kind, label, value. Row 0 is the root.
 *   edges       BW_EDGE_WIDTH numbers a row: parent, child, from, to. The containment rows.
 *   refs        BW_REF_WIDTH numbers a row: attribute, target, from, to. The reference rows.
 *   start       the instant at which the history starts.
 *
 * Instants are whole seconds from 2000-01-01 00:00:00 on. A row is in force from `from` to `to`, both included; one
 * whose `to` is BW_NOW is current.
 *
 * Every call takes tables of every kind and ends with one answer: a code, an instant and a place. Parts of an answer
 * that its code does not name are 0. A call that refuses (any code but BW_DONE) leaves everything lent to it as it
 * was, and no call keeps a pointer. A pointer is that of an array of at least the given length; where the length is 0,
 * it may be NULL. What a call may write to overlaps nothing else that is lent to it. Calls share nothing, so that any
 * number of threads may call at once.
 *
 * The archive that `rt lib` writes in crates/bindlewort_c is for Linux on x86-64, called in the way of System V. The kit
 * compiles for no other machine; what is said of aarch64 was tried with the library as an earlier kit compiled it.
 *
 * An answer, 12 bytes, comes back in registers. A result past 16 bytes, as struct bw_reading with its 28, comes back in
 * memory of the caller, whose address is handed over before all other arguments, in rdi, and comes back in rax; on
 * aarch64 it is handed over in x8. Compilers of C, C++ and Rust see to that by themselves.
 *
 * A call takes its memory from the stack of its thread and nowhere else. So many bytes are enough for tables of full
 * size, as measured with an earlier kit (docs/PERFORMANCE.md) and rounded up; today's takes no more on x86-64:
 *
 *                                       x86-64   aarch64
 *   bw_check                            17,000    17,000
 *   bw_snapshot, tree of 20 levels      21,000    21,000
 *   bw_snapshot, tree of 1,023 levels  181,000   164,500   the deepest; 160 and 144 bytes a level
 *   bw_repair                            8,500     8,500
 *   bw_write_text                          300       300
 *   bw_read_text                           500       500
 *
 * memset of the C library is all that the library calls. Where a program binds it only at its first call, that takes
 * stack too, which is not counted here.
 */
#ifndef BINDLEWORT_H
#define BINDLEWORT_H

#include <stddef.h>
#include <stdint.h>

#ifdef __cplusplus
extern "C" {
#endif

/* The largest instant. */
#define BW_NOW UINT32_C(4294967295)

/* In a row of a snapshot: no parent, no referent. */
#define BW_NO_NODE UINT32_C(4294967295)

/* How many numbers a row has. */
#define BW_NODE_WIDTH 3
#define BW_EDGE_WIDTH 4
#define BW_REF_WIDTH 4
#define BW_SNAPSHOT_WIDTH 3

/* How many rows a table has at least and at most. */
#define BW_LEAST_NODES 1
#define BW_MOST_NODES 1024
#define BW_MOST_EDGES 2048
#define BW_MOST_REFS 1024

/* How many bytes the longest text of tables in size has: every number has ten digits. */
#define BW_MOST_TEXT 188475

/* The largest label of a node. */
#define BW_MOST_LABEL 65535

/* The kinds of nodes. */
enum bw_kind {
    BW_ROOT = 0,
    BW_ELEMENT = 1,
    BW_PLAIN_ATTRIBUTE = 2,
    BW_ID_ATTRIBUTE = 3,
    BW_REF_ATTRIBUTE = 4,
    BW_VALUE = 5
};

/* The codes of answers, with what each names. */
enum bw_code {
    BW_DONE = 0,       /* no refusal */
    BW_SIZE = 1,       /* a table is not whole rows or is out of size: place 0 nodes, 1 edges, 2 refs, the first such */
    BW_START = 2,      /* the start is BW_NOW */
    BW_NODE = 3,       /* a node row breaks its rule: place the smallest such row */
    BW_EDGE = 4,       /* a containment row breaks its rule: place the smallest such row */
    BW_REFERENCE = 5,  /* a reference row breaks its rule: place the smallest such row */
    BW_OVERLAP = 11,   /* two or more rows into a node are in force: instant, place the node */
    BW_GAP = 12,       /* a node is away between two of its rows: instant, place the node */
    BW_OUTSIDE = 13,   /* a node holds another and is not present: instant, place the node */
    BW_CYCLE = 14,     /* a node holds itself, by one row or a chain of rows: instant, place the node */
    BW_LATE = 15,      /* a reference is in force and its attribute is not present: instant, place the reference row */
    BW_DANGLING = 16,  /* a reference is in force and its target is not present: instant, place the reference row */
    BW_DOUBLE = 17,    /* two or more references from one attribute are in force: instant, place the attribute's node */
    BW_ROOM = 21,      /* an output is too short: see bw_snapshot and bw_read_text */
    BW_TIE = 22,       /* rows into one child start together: instant that start, place the first row with one before */
    BW_EARLY = 23,     /* the asked instant is before the start: instant the asked one */
    BW_TEXT = 31,      /* the text is not of the form: place the first byte of the first wrong line */
    BW_TEXTROOM = 32   /* the text output is too short: place the bytes needed */
};

/* An answer. */
struct bw_answered {
    uint32_t code;
    uint32_t instant;
    uint32_t place;
};

/* The answer of bw_read_text, with the start and the counts of rows that were read. */
struct bw_reading {
    struct bw_answered answer;
    uint32_t start;
    uint32_t nodes;
    uint32_t edges;
    uint32_t refs;
};

/*
 * Checks a history. Answers BW_DONE where it has no fault at any instant. Refuses with BW_SIZE, BW_START, BW_NODE,
 * BW_EDGE, BW_REFERENCE in this order, then with the earliest fault (BW_OVERLAP to BW_DOUBLE): the earliest instant
 * that has one, there the smallest code, and there the smallest place. Writes nothing.
 */
struct bw_answered bw_check(uint32_t start, const uint32_t *nodes, size_t nodes_len, const uint32_t *edges,
                            size_t edges_len, const uint32_t *refs, size_t refs_len);

/*
 * Writes what the history contains at instant t. Answers BW_DONE with instant t and place k, and the first 3k numbers
 * of out hold k rows of node, parent, referent: the root first, each node followed by the whole subtree of each of its
 * children, these by rising node number. The referent is the target of the reference in force from the node, of which
 * there is at most one. BW_NO_NODE stands for the root's parent and for no referent. The rest of out is left as it was.
 * Refuses with BW_SIZE to BW_REFERENCE, BW_EARLY, the fault at t of smallest code and place with BW_GAP set aside, and
 * BW_ROOM (instant t, place the rows needed), in this order; then all of out is left as it was. Room for BW_MOST_NODES
 * rows is always enough.
 */
struct bw_answered bw_snapshot(uint32_t start, const uint32_t *nodes, size_t nodes_len, const uint32_t *edges,
                               size_t edges_len, const uint32_t *refs, size_t refs_len, uint32_t t, uint32_t *out,
                               size_t out_len);

/*
 * Repairs overlaps and gaps. Answers BW_DONE with place the count of rows whose end was changed; only ends change.
 * Among the rows into one child, each then ends one instant before the next later start, and the row with the latest
 * start ends at the largest end that any of them had. Refuses with BW_SIZE, BW_START, BW_NODE, BW_EDGE, BW_TIE in this
 * order; then edges is left as it was. Faults from BW_OUTSIDE on may remain, and all but BW_DOUBLE may come: check
 * afterwards.
 */
struct bw_answered bw_repair(uint32_t start, const uint32_t *nodes, size_t nodes_len, uint32_t *edges,
                             size_t edges_len);

/*
 * Writes the tables as text. Answers BW_DONE with place the count of bytes written to the front of out; the rest is
 * left as it was, and no zero byte is added. Applies no row rules. Refuses with BW_SIZE, then BW_TEXTROOM (place the
 * bytes needed); then all of out is left as it was. The bytes needed can be asked for with an out of length 0, and room
 * for BW_MOST_TEXT is always enough.
 */
struct bw_answered bw_write_text(uint32_t start, const uint32_t *nodes, size_t nodes_len, const uint32_t *edges,
                                 size_t edges_len, const uint32_t *refs, size_t refs_len, uint8_t *out, size_t out_len);

/*
 * Reads the tables from text. Answers BW_DONE with the start and the counts of rows, which fill the front of each
 * table; the rest is left as it was. Applies no row rules. Refuses with BW_TEXT (place the first byte of the first
 * wrong line, or the length of the text where a line is missing), then BW_ROOM (place 0 nodes, 1 edges, 2 refs: the
 * first table too short); then start and counts are 0 and all tables are left as they were.
 */
struct bw_reading bw_read_text(const uint8_t *text, size_t text_len, uint32_t *nodes, size_t nodes_len, uint32_t *edges,
                               size_t edges_len, uint32_t *refs, size_t refs_len);

#ifdef __cplusplus
}
#endif

#endif
