/* Two daemons with two clients each, in one program. Their frames cross a socket pair, in pieces that do not follow the frames. Each of
 * four processes puts its address and commits it, and all meet in a collecting fence. Each gets the address of the next, and the last
 * process ends. The program prints what `pmixgroup replay` prints for examples/c/two-nodes.script. */
#include "pmixgroup.h"

#include <inttypes.h>
#include <stdio.h>
#include <stdlib.h>
#include <string.h>
#include <sys/socket.h>
#include <unistd.h>

#define BYTES(text) (const uint8_t *)(text), strlen(text)
#define NODES 2
#define PIECE 7

/* The first lines of the script. */
static const char GROUP[] = "nodes n0 n1\nspace j 0 0 1 1\n";

static pmixgroup_node nodes[NODES] = {PMIXGROUP_NODE_INIT, PMIXGROUP_NODE_INIT};
static int sockets[NODES];
static uint8_t buffer[1 << 16];

static void fail(const char *what) {
    fprintf(stderr, "two_nodes: %s\n", what);
    exit(1);
}

static pmixgroup_node *home(uint32_t rank) { return &nodes[rank / 2]; }

/* Prints the refusal of that code; any other code is a failure. */
static void print_refusal(uint32_t code) {
    size_t len = 0;
    if (pmixgroup_refusal(code, buffer, sizeof buffer, &len) != PMIXGROUP_DONE) fail("a code that is none");
    printf("refused %" PRIu32 " %.*s\n", code - PMIXGROUP_NO_MEMORY, (int)len, buffer);
}

/* Prints the value of the last call, which is a string: its tag, four bytes of length, and its text, here in hexadecimal. */
static void print_value(pmixgroup_node *node) {
    size_t len = 0;
    if (pmixgroup_value(node, buffer, sizeof buffer, &len) != PMIXGROUP_DONE) fail("no value");
    printf("found string:");
    for (size_t i = 5; i < len; i++) printf("%02x", buffer[i]);
    printf("\n");
}

static void put_address(uint32_t rank) {
    uint8_t value[] = {3, 0, 0, 0, 2, '/', (uint8_t)('0' + rank)};
    uint32_t code = pmixgroup_put(home(rank), BYTES("j"), rank, PMIXGROUP_GLOBAL, BYTES("addr"), value, sizeof value);
    if (code == PMIXGROUP_DONE) printf("ok\n");
    else print_refusal(code);
}

static void commit(uint32_t rank) {
    uint64_t number = 0;
    uint32_t code = pmixgroup_commit(home(rank), BYTES("j"), rank, &number);
    if (code == PMIXGROUP_DONE) printf("commit %" PRIu64 "\n", number);
    else print_refusal(code);
}

static void enter(uint32_t rank) {
    uint64_t number = 0;
    uint32_t code = pmixgroup_enter(home(rank), BYTES("j"), rank, true, &number);
    if (code == PMIXGROUP_DONE) printf("entered %" PRIu64 "\n", number);
    else print_refusal(code);
}

static void leave(uint32_t rank) {
    uint64_t number = 0;
    uint32_t gone = 0;
    size_t len = 0;
    uint32_t code = pmixgroup_leave(home(rank), BYTES("j"), rank, &number);
    if (code == PMIXGROUP_WAITS) printf("waiting\n");
    else if (code == PMIXGROUP_IDLE) printf("idle\n");
    else if (code != PMIXGROUP_DONE) print_refusal(code);
    else if (pmixgroup_gone(home(rank), 0, buffer, sizeof buffer, &len, &gone) == PMIXGROUP_IDLE) printf("released %" PRIu64 " gone -\n", number);
    else fail("somebody is gone");
}

static void get(uint32_t rank, uint32_t target, const char *key, uint32_t mode) {
    uint32_t code = pmixgroup_get(home(rank), BYTES("j"), rank, BYTES("j"), target, BYTES(key), mode);
    if (code == PMIXGROUP_DONE) print_value(home(rank));
    else if (code == PMIXGROUP_WAITS) printf("parked\n");
    else print_refusal(code);
}

static void take(uint32_t rank) {
    uint32_t code = pmixgroup_take(home(rank), BYTES("j"), rank);
    if (code == PMIXGROUP_DONE) print_value(home(rank));
    else if (code == PMIXGROUP_WAITS) printf("waiting\n");
    else if (code == PMIXGROUP_IDLE) printf("idle\n");
    else print_refusal(code);
}

static void end(uint32_t rank) {
    uint64_t number = 0;
    uint32_t code = pmixgroup_end(home(rank), BYTES("j"), rank, &number);
    if (code == PMIXGROUP_DONE) printf("ended %" PRIu64 "\n", number);
    else print_refusal(code);
}

/* Sends all waiting frames of a node, as a daemon would over its connection to the other. */
static void send_frames(int from) {
    uint32_t to = 0, code;
    size_t len = 0;
    while ((code = pmixgroup_next(&nodes[from], &to, buffer, sizeof buffer, &len)) == PMIXGROUP_DONE)
        if (send(sockets[from], buffer, len, 0) != (ssize_t)len) fail("a frame was not sent");
    if (code != PMIXGROUP_IDLE) fail("a frame was not taken");
}

/* Feeds a node the bytes of its connection, some at a time, and delivers each frame once it is whole. Returns how many it delivered. */
static int receive_frames(int at) {
    int delivered = 0;
    ssize_t count;
    while ((count = recv(sockets[at], buffer, PIECE, MSG_DONTWAIT)) > 0) {
        uint32_t code;
        if (pmixgroup_feed(&nodes[at], (uint32_t)(1 - at), buffer, (size_t)count) != PMIXGROUP_DONE) fail("bytes were not taken");
        while ((code = pmixgroup_deliver(&nodes[at], (uint32_t)(1 - at))) == PMIXGROUP_DONE || code == PMIXGROUP_IGNORED) delivered++;
        if (code != PMIXGROUP_IDLE) fail("a frame was not delivered");
    }
    return delivered;
}

/* Carries the waiting frames; the frames that their delivery sends wait for the next time. */
static void flow(void) {
    send_frames(0);
    send_frames(1);
    int delivered = receive_frames(0);
    printf("delivered %d\n", delivered + receive_frames(1));
}

int main(void) {
    if (socketpair(AF_UNIX, SOCK_STREAM, 0, sockets) != 0) fail("no sockets");
    for (uint32_t id = 0; id < NODES; id++)
        if (pmixgroup_open(&nodes[id], id, BYTES(GROUP)) != PMIXGROUP_DONE) fail("no node");
    printf("ok\nok\n");

    for (uint32_t rank = 0; rank < 4; rank++) {
        put_address(rank);
        commit(rank);
    }
    for (uint32_t rank = 0; rank < 4; rank++) enter(rank);
    leave(0);
    flow();
    for (uint32_t rank = 0; rank < 4; rank++) leave(rank);
    for (uint32_t rank = 0; rank < 4; rank++) get(rank, (rank + 1) % 4, "addr", PMIXGROUP_NOW);
    get(1, 1, "addr", PMIXGROUP_NOW);
    get(0, 3, "none", PMIXGROUP_NOW);
    get(0, 3, "none", PMIXGROUP_WAIT);
    commit(2);
    take(0);
    end(3);
    flow();
    flow();
    take(0);
    put_address(3);

    for (int id = 0; id < NODES; id++) {
        if (pmixgroup_close(&nodes[id]) != PMIXGROUP_DONE) fail("not closed");
        if (pmixgroup_close(&nodes[id]) != PMIXGROUP_WRONG_HANDLE) fail("closed twice");
        close(sockets[id]);
    }
    return 0;
}
