/*
 * Calls every function of the library from C with document 01's input H, and compares what comes back; and holds the
 * header's numbers to the documents'.
 */
#include "bindlewort.h"

#include <stdio.h>
#include <string.h>

#define LENGTH(array) (sizeof(array) / sizeof((array)[0]))

static const uint32_t nodes[] = {0, 1, 0, 1, 2, 0, 1, 2, 0, 1, 3, 0, 1, 4, 0, 4, 5, 0};
static const uint32_t edges[] = {0, 1, 0, BW_NOW, 0, 2, 0, BW_NOW, 1, 3, 10, 49,
                                 2, 3, 50, 99, 1, 4, 20, 120, 4, 5, 20, 120};
static const uint32_t refs[] = {5, 3, 20, 120};
/* Two references of one attribute: both are in force from 60 to 70. */
static const uint32_t two[] = {5, 3, 20, 99, 5, 1, 60, 70};

static int failures = 0;

static void expect(const char *what, int holds) {
    if (!holds) {
        printf("not as expected: %s\n", what);
        failures++;
    }
}

static int is(struct bw_answered a, uint32_t code, uint32_t instant, uint32_t place) {
    return a.code == code && a.instant == instant && a.place == place;
}

static void numbers(void) {
    static const uint32_t codes[] = {BW_DONE, BW_SIZE, BW_START, BW_NODE, BW_EDGE, BW_REFERENCE,
                                     BW_OVERLAP, BW_GAP, BW_OUTSIDE, BW_CYCLE, BW_LATE, BW_DANGLING,
                                     BW_DOUBLE, BW_ROOM, BW_TIE, BW_EARLY, BW_TEXT, BW_TEXTROOM};
    static const uint32_t stated[] = {0, 1, 2, 3, 4, 5, 11, 12, 13, 14, 15, 16, 17, 21, 22, 23, 31, 32};
    expect("the codes", sizeof codes == sizeof stated && memcmp(codes, stated, sizeof codes) == 0);
    expect("the widths", BW_NODE_WIDTH == 3 && BW_EDGE_WIDTH == 4 && BW_REF_WIDTH == 4 && BW_SNAPSHOT_WIDTH == 3);
    expect("the sizes", BW_LEAST_NODES == 1 && BW_MOST_NODES == 1024 && BW_MOST_EDGES == 2048 && BW_MOST_REFS == 1024);
    expect("the largest instant", BW_NOW == 4294967295u && BW_NO_NODE == 4294967295u);
}

static void check(void) {
    static const uint32_t shorter[] = {5, 3, 20, 99};
    struct bw_answered a = bw_check(0, nodes, LENGTH(nodes), edges, LENGTH(edges), refs, LENGTH(refs));
    expect("check of H", is(a, BW_DANGLING, 100, 0));
    a = bw_check(0, nodes, LENGTH(nodes), edges, LENGTH(edges), shorter, LENGTH(shorter));
    expect("check of H with the reference ending at 99", is(a, BW_DONE, 0, 0));
    a = bw_check(0, nodes, LENGTH(nodes), edges, LENGTH(edges), two, LENGTH(two));
    expect("check of H with two references at once", is(a, BW_DOUBLE, 60, 5));
    a = bw_check(0, nodes, LENGTH(nodes), edges, LENGTH(edges) - 1, refs, LENGTH(refs));
    expect("check of a table that is not whole rows", is(a, BW_SIZE, 0, 1));
    a = bw_check(BW_NOW, nodes, LENGTH(nodes), edges, LENGTH(edges), refs, 0);
    expect("check with a start of now", is(a, BW_START, 0, 0));
    a = bw_check(0, nodes, BW_NODE_WIDTH, NULL, 0, NULL, 0);
    expect("check of the root alone", is(a, BW_DONE, 0, 0));
    a = bw_check(0, NULL, 0, NULL, 0, NULL, 0);
    expect("check of nothing", is(a, BW_SIZE, 0, 0));
}

static void repair(void) {
    uint32_t mended[LENGTH(edges)];
    struct bw_answered a;
    memcpy(mended, edges, sizeof edges);
    mended[4 * 3 + 2] = 45;
    a = bw_repair(0, nodes, LENGTH(nodes), mended, LENGTH(mended));
    expect("repair of H with row 3 from 45", is(a, BW_DONE, 0, 1));
    expect("the new end of row 2", mended[4 * 2 + 3] == 44);
    mended[4 * 2 + 3] = 49;
    mended[4 * 3 + 2] = 50;
    expect("all else as it was", memcmp(mended, edges, sizeof edges) == 0);
    mended[4 * 3 + 2] = 10;
    a = bw_repair(0, nodes, LENGTH(nodes), mended, LENGTH(mended));
    expect("repair of two rows that start together", is(a, BW_TIE, 10, 3));
    a = bw_repair(0, nodes, LENGTH(nodes), NULL, 0);
    expect("repair of no rows", is(a, BW_DONE, 0, 0));
}

static void snapshot(void) {
    static const uint32_t shown[] = {0, BW_NO_NODE, BW_NO_NODE, 1, 0, BW_NO_NODE, 4, 1, BW_NO_NODE,
                                     5, 4, 3, 2, 0, BW_NO_NODE, 3, 2, BW_NO_NODE};
    uint32_t out[LENGTH(shown) + 1] = {0};
    struct bw_answered a = bw_snapshot(0, nodes, LENGTH(nodes), edges, LENGTH(edges), refs, LENGTH(refs), 50, out,
                                       LENGTH(shown) - 1);
    expect("snapshot with too little room", is(a, BW_ROOM, 50, 6) && out[0] == 0 && out[1] == 0);
    out[LENGTH(shown)] = 77;
    a = bw_snapshot(0, nodes, LENGTH(nodes), edges, LENGTH(edges), refs, LENGTH(refs), 50, out, LENGTH(out));
    expect("snapshot of H at 50", is(a, BW_DONE, 50, 6));
    expect("its rows", memcmp(out, shown, sizeof shown) == 0);
    expect("the number after them", out[LENGTH(shown)] == 77);
    a = bw_snapshot(0, nodes, LENGTH(nodes), edges, LENGTH(edges), two, LENGTH(two), 60, out, LENGTH(out));
    expect("snapshot of H with two references at once", is(a, BW_DOUBLE, 60, 5));
    expect("the rows as they were", memcmp(out, shown, sizeof shown) == 0 && out[LENGTH(shown)] == 77);
    a = bw_snapshot(0, nodes, BW_NODE_WIDTH, NULL, 0, NULL, 0, 0, NULL, 0);
    expect("snapshot of the root alone without room", is(a, BW_ROOM, 0, 1));
}

/* Every number has ten digits: an end of BW_NOW would be written as a word of three letters. */
static void longest_text(void) {
    static uint32_t n[BW_MOST_NODES * BW_NODE_WIDTH], e[BW_MOST_EDGES * BW_EDGE_WIDTH], r[BW_MOST_REFS * BW_REF_WIDTH];
    static uint8_t written[BW_MOST_TEXT];
    struct bw_answered a;
    memset(n, 0xFE, sizeof n);
    memset(e, 0xFE, sizeof e);
    memset(r, 0xFE, sizeof r);
    a = bw_write_text(BW_NOW, n, LENGTH(n), e, LENGTH(e), r, LENGTH(r), written, BW_MOST_TEXT - 1);
    expect("one byte too little for the longest text", is(a, BW_TEXTROOM, 0, BW_MOST_TEXT));
    a = bw_write_text(BW_NOW, n, LENGTH(n), e, LENGTH(e), r, LENGTH(r), written, BW_MOST_TEXT);
    expect("the longest text", is(a, BW_DONE, 0, BW_MOST_TEXT));
}

static void text(void) {
    uint8_t written[256];
    uint32_t n[LENGTH(nodes)], e[LENGTH(edges)], r[LENGTH(refs)];
    struct bw_reading reading;
    struct bw_answered a = bw_write_text(0, nodes, LENGTH(nodes), edges, LENGTH(edges), refs, LENGTH(refs), NULL, 0);
    uint32_t needed = a.place;
    expect("the bytes that the text of H needs", is(a, BW_TEXTROOM, 0, 214));
    memset(written, '#', sizeof written);
    a = bw_write_text(0, nodes, LENGTH(nodes), edges, LENGTH(edges), refs, LENGTH(refs), written, sizeof written);
    expect("write text", is(a, BW_DONE, 0, needed));
    expect("its first line", memcmp(written, "edition=1\n", 10) == 0);
    expect("its last line", memcmp(written + needed - 15, "ref=5,3,20,120\n#", 16) == 0);

    reading = bw_read_text(written, needed, n, LENGTH(n), e, LENGTH(e), r, LENGTH(r));
    expect("read text", is(reading.answer, BW_DONE, 0, 0));
    expect("the start and the counts",
           reading.start == 0 && reading.nodes == 6 && reading.edges == 6 && reading.refs == 1);
    expect("the tables", memcmp(n, nodes, sizeof n) == 0 && memcmp(e, edges, sizeof e) == 0 &&
                             memcmp(r, refs, sizeof r) == 0);
    reading = bw_read_text(written, needed - 1, n, LENGTH(n), e, LENGTH(e), r, LENGTH(r));
    expect("read text without its last byte", is(reading.answer, BW_TEXT, 0, needed - 15));
    expect("no counts on refusal", reading.start == 0 && reading.nodes == 0 && reading.edges == 0 && reading.refs == 0);
    reading = bw_read_text(written, needed, n, LENGTH(n), e, LENGTH(e) - 1, r, LENGTH(r));
    expect("read text with too little room", is(reading.answer, BW_ROOM, 0, 1));
    reading = bw_read_text(NULL, 0, NULL, 0, NULL, 0, NULL, 0);
    expect("read no text", is(reading.answer, BW_TEXT, 0, 0));
}

int main(void) {
    numbers();
    check();
    repair();
    snapshot();
    text();
    longest_text();
    return failures != 0;
}
