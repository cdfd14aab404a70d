/* Reads a number from standard input. Has one process get a key of the 31 others of its node in turn, so often, through libpmixgroup. */
#include "pmixgroup.h"

#include <inttypes.h>
#include <stdio.h>
#include <stdlib.h>
#include <string.h>

#define BYTES(text) (const uint8_t *)(text), strlen(text)
#define PROCS 32

static void done(uint32_t code) {
    if (code != PMIXGROUP_DONE) {
        fprintf(stderr, "gets: code %" PRIu32 "\n", code);
        exit(1);
    }
}

int main(void) {
    static const char group[] = "nodes n0\nspace j 0 0 0 0 0 0 0 0 0 0 0 0 0 0 0 0 0 0 0 0 0 0 0 0 0 0 0 0 0 0 0 0\n";
    pmixgroup_node node = PMIXGROUP_NODE_INIT;
    uint64_t count = 0, number = 0, sum = 0;
    if (scanf("%" SCNu64, &count) != 1) return 2;
    done(pmixgroup_open(&node, 0, BYTES(group)));
    for (uint32_t rank = 0; rank < PROCS; rank++) {
        uint8_t value[] = {9, (uint8_t)rank};
        done(pmixgroup_put(&node, BYTES("j"), rank, PMIXGROUP_GLOBAL, BYTES("addr"), value, sizeof value));
        done(pmixgroup_commit(&node, BYTES("j"), rank, &number));
    }
    for (uint64_t i = 0; i < count; i++) {
        uint8_t value[16];
        size_t len = 0;
        done(pmixgroup_get(&node, BYTES("j"), 0, BYTES("j"), 1 + (uint32_t)(i % (PROCS - 1)), BYTES("addr"), PMIXGROUP_NOW));
        done(pmixgroup_value(&node, value, sizeof value, &len));
        sum += value[1];
    }
    done(pmixgroup_close(&node));
    return sum == 0 && count > 0;
}
