// Calls every function of the library from C++ with document 01's input H, and compares what comes back.
#include "bindlewort.h"

#include <algorithm>
#include <cstdio>
#include <string>
#include <vector>

namespace {

typedef std::vector<uint32_t> Table;

const Table nodes = {0, 1, 0, 1, 2, 0, 1, 2, 0, 1, 3, 0, 1, 4, 0, 4, 5, 0};
const Table edges = {0, 1, 0, BW_NOW, 0, 2, 0, BW_NOW, 1, 3, 10, 49, 2, 3, 50, 99, 1, 4, 20, 120, 4, 5, 20, 120};
const Table refs = {5, 3, 20, 120};

int failures = 0;

void expect(const char *what, bool holds) {
    if (!holds) {
        std::printf("not as expected: %s\n", what);
        failures++;
    }
}

bool is(const bw_answered &a, bw_code code, uint32_t instant, uint32_t place) {
    return a.code == static_cast<uint32_t>(code) && a.instant == instant && a.place == place;
}

void check() {
    bw_answered a = bw_check(0, nodes.data(), nodes.size(), edges.data(), edges.size(), refs.data(), refs.size());
    expect("check of H", is(a, BW_DANGLING, 100, 0));
    Table shorter = refs;
    shorter[3] = 99;
    a = bw_check(0, nodes.data(), nodes.size(), edges.data(), edges.size(), shorter.data(), shorter.size());
    expect("check of H with the reference ending at 99", is(a, BW_DONE, 0, 0));
    const Table none;
    a = bw_check(0, nodes.data(), BW_NODE_WIDTH, none.data(), none.size(), none.data(), none.size());
    expect("check of the root alone", is(a, BW_DONE, 0, 0));
}

void repair() {
    Table overlapping = edges;
    overlapping[4 * 3 + 2] = 45;
    Table mended = overlapping;
    bw_answered a = bw_repair(0, nodes.data(), nodes.size(), mended.data(), mended.size());
    expect("repair of H with row 3 from 45", is(a, BW_DONE, 0, 1));
    overlapping[4 * 2 + 3] = 44;
    expect("the table that it leaves", mended == overlapping);
}

void snapshot() {
    const uint32_t N = BW_NO_NODE;
    const Table shown = {0, N, N, 1, 0, N, 4, 1, N, 5, 4, 3, 2, 0, N, 3, 2, N};
    Table out(BW_MOST_NODES * BW_SNAPSHOT_WIDTH, 77);
    bw_answered a = bw_snapshot(0, nodes.data(), nodes.size(), edges.data(), edges.size(), refs.data(), refs.size(), 50,
                                out.data(), out.size());
    expect("snapshot of H at 50", is(a, BW_DONE, 50, 6));
    expect("its rows", std::equal(shown.begin(), shown.end(), out.begin()));
    expect("the numbers after them", std::count(out.begin(), out.end(), 77u) == long(out.size() - shown.size()));
}

void text() {
    std::vector<uint8_t> out(1);
    bw_answered a = bw_write_text(0, nodes.data(), nodes.size(), edges.data(), edges.size(), refs.data(), refs.size(),
                                  out.data(), out.size());
    expect("write text with too little room", is(a, BW_TEXTROOM, 0, 214));
    out.resize(a.place);
    a = bw_write_text(0, nodes.data(), nodes.size(), edges.data(), edges.size(), refs.data(), refs.size(), out.data(),
                      out.size());
    expect("write text", is(a, BW_DONE, 0, 214));
    expect("its first line", std::string(out.begin(), out.begin() + 10) == "edition=1\n");

    Table n(BW_MOST_NODES * BW_NODE_WIDTH), e(BW_MOST_EDGES * BW_EDGE_WIDTH), r(BW_MOST_REFS * BW_REF_WIDTH);
    bw_reading reading =
        bw_read_text(out.data(), out.size(), n.data(), n.size(), e.data(), e.size(), r.data(), r.size());
    expect("read text", is(reading.answer, BW_DONE, 0, 0) && reading.start == 0);
    n.resize(reading.nodes * BW_NODE_WIDTH);
    e.resize(reading.edges * BW_EDGE_WIDTH);
    r.resize(reading.refs * BW_REF_WIDTH);
    expect("the tables", n == nodes && e == edges && r == refs);
}

}  // namespace

int main() {
    check();
    repair();
    snapshot();
    text();
    return failures != 0;
}
