/*
 * How much stack each call takes. It runs in a thread whose stack is a block of our own. Below where the stack stands the
 * block is filled with a pattern, and what is no longer the pattern after the call was taken by it: its return address
 * is counted, its arguments where they are pushed, and not the frame of the caller.
 *
 * Prints a line for each of three histories of full size: how many levels its tree has below the root, then the bytes
 * for check, snapshot, repair, write text and read text.
 *
 * Takes no header of a C library, since there may be none for the machine that it is compiled for.
 */
#include "bindlewort.h"

int printf(const char *form, ...);
int pthread_attr_init(void *attributes);
int pthread_attr_setstack(void *attributes, void *block, size_t size);
int pthread_create(unsigned long *thread, const void *attributes, void *(*run)(void *), void *argument);
int pthread_join(unsigned long thread, void **result);

#define WORDS 65536
#define PATTERN UINT64_C(0x5AA5C33C0FF09669)
#define LENGTH(array) (sizeof(array) / sizeof((array)[0]))
#define TABLES 0, nodes, LENGTH(nodes), edges, LENGTH(edges)

#if defined __x86_64__
#define STAND(top) __asm__ volatile("movq %%rsp, %0" : "=r"(top))
#elif defined __aarch64__
#define STAND(top) __asm__ volatile("mov %0, sp" : "=r"(top))
#else
#error "the kit has no compiler for this machine"
#endif

/* Stores the bytes that a call takes. Not a function, since the frame of one would be filled too. */
#define MEASURE(bytes, call)                                \
    do {                                                    \
        uintptr_t top;                                      \
        size_t i, words;                                    \
        STAND(top);                                         \
        words = (top - (uintptr_t)block) / sizeof block[0]; \
        for (i = 0; i < words; i++)                         \
            block[i] = PATTERN;                             \
        call;                                               \
        for (i = 0; i < words && block[i] == PATTERN; i++)  \
            ;                                               \
        bytes = (unsigned)((words - i) * sizeof block[0]);  \
    } while (0)

static volatile uint64_t block[WORDS] __attribute__((aligned(65536)));

static uint32_t nodes[BW_MOST_NODES * BW_NODE_WIDTH];
static uint32_t edges[BW_MOST_EDGES * BW_EDGE_WIDTH];
static uint32_t refs[BW_MOST_REFS * BW_REF_WIDTH];
static uint32_t shown[BW_MOST_NODES * BW_SNAPSHOT_WIDTH];
static uint8_t text[BW_MOST_TEXT];

/* What each call takes, and its answer. */
static unsigned check, snapshot, repair, write_text, read_text;
static struct bw_answered checked, taken, repaired, written;
static struct bw_reading reading;

static void *measure(void *nothing) {
    MEASURE(check, checked = bw_check(TABLES, refs, LENGTH(refs)));
    MEASURE(snapshot, taken = bw_snapshot(TABLES, refs, LENGTH(refs), 0, shown, LENGTH(shown)));
    MEASURE(repair, repaired = bw_repair(TABLES));
    MEASURE(write_text, written = bw_write_text(TABLES, refs, LENGTH(refs), text, sizeof text));
    MEASURE(read_text, reading = bw_read_text(text, written.place, nodes, LENGTH(nodes), edges, LENGTH(edges), refs,
                                              LENGTH(refs)));
    return nothing;
}

static void put(uint32_t *row, uint32_t first, uint32_t second, uint32_t from, uint32_t to) {
    row[0] = first;
    row[1] = second;
    row[2] = from;
    row[3] = to;
}

/*
 * Tables of full size without a fault: a chain of so many levels below the root, the other nodes right below it. Each
 * node has two stays, node 1 four. The last node is a REF attribute with a reference to node 1 at each early instant.
 */
static void fill(uint32_t levels) {
    uint32_t i, *row = edges;
    for (i = 0; i < BW_MOST_NODES; i++) {
        nodes[3 * i] = i == 0 ? BW_ROOT : i < BW_MOST_NODES - 1 ? BW_ELEMENT : BW_REF_ATTRIBUTE;
        nodes[3 * i + 1] = 1;
    }
    for (i = 1; i < BW_MOST_NODES; i++, row += 8) {
        uint32_t parent = i <= levels ? i - 1 : 0;
        put(row, parent, i, 0, 4999);
        put(row + 4, parent, i, 5000, i == 1 ? 5999 : BW_NOW);
    }
    put(row, 0, 1, 6000, 6999);
    put(row + 4, 0, 1, 7000, BW_NOW);
    for (i = 0; i < BW_MOST_REFS; i++)
        put(refs + 4 * i, BW_MOST_NODES - 1, 1, i, i);
}

int main(void) {
    static const uint32_t levels[] = {20, 1000, 1023};
    static uint64_t attributes[32]; /* at least as large as a pthread_attr_t */
    unsigned long thread;
    size_t i;
    for (i = 0; i < LENGTH(levels); i++) {
        fill(levels[i]);
        bw_repair(TABLES); /* so that memset is bound */
        if (pthread_attr_init(attributes) || pthread_attr_setstack(attributes, (void *)block, sizeof block) ||
            pthread_create(&thread, attributes, measure, NULL) || pthread_join(thread, NULL))
            return 1;
        if (checked.code || taken.code || taken.place != BW_MOST_NODES || repaired.code || written.code ||
            reading.answer.code)
            return 1;
        printf("%u %u %u %u %u %u\n", (unsigned)levels[i], check, snapshot, repair, write_text, read_text);
    }
    return 0;
}
