#include <stdio.h>
#include "bindlewort.h"

int main(void) {
    const uint32_t nodes[] = {0, 1, 0, 1, 2, 0, 1, 2, 0, 1, 3, 0, 1, 4, 0, 4, 5, 0};
    const uint32_t edges[] = {0, 1, 0, BW_NOW, 0, 2, 0, BW_NOW, 1, 3, 10, 49,
                              2, 3, 50, 99, 1, 4, 20, 120, 4, 5, 20, 120};
    const uint32_t refs[] = {5, 3, 20, 120};
    struct bw_answered a = bw_check(0, nodes, 18, edges, 24, refs, 4);
    printf("%u %u %u\n", a.code, a.instant, a.place);
}
