/* Makes each call of the library on two nodes, whose frames cross in pieces of three bytes, and checks its code and its results. Then it
 * repeats the run while one allocation fails in turn, every STEP-th (codes STEP). It repeats the call that reports the failure, and the run
 * has to end in the same way. */
#include "pmixgroup.h"

#include <inttypes.h>
#include <stdio.h>
#include <stdlib.h>
#include <string.h>

#define BYTES(text) (const uint8_t *)(text), strlen(text)
#define EXPECT(condition) \
    do { \
        if (!(condition)) fail(__LINE__, 0); \
    } while (0)
/* Checks that the call answers that code; after a failed allocation, when it is repeated. */
#define ASK(wanted, call) \
    do { \
        uint32_t code_ = (call); \
        if (code_ == PMIXGROUP_NO_MEMORY) { \
            told++; \
            code_ = (call); \
        } \
        if (code_ != (wanted)) fail(__LINE__, code_); \
    } while (0)

static const char GROUP[] = "nodes n0 n1\nspace j 0 1\n";

/* How many allocations were requested, which one fails, and how many failures the calls reported. */
static long asked, failing, told;

void *__real_malloc(size_t size);
void *__real_realloc(void *block, size_t size);

void *__wrap_malloc(size_t size) { return ++asked == failing ? NULL : __real_malloc(size); }
void *__wrap_realloc(void *block, size_t size) { return ++asked == failing ? NULL : __real_realloc(block, size); }

static void fail(int line, uint32_t code) {
    fprintf(stderr, "codes: line %d, code %" PRIu32 ", while allocation %ld failed\n", line, code, failing);
    exit(1);
}

static pmixgroup_node zero, one;
static uint8_t buffer[512];
static uint64_t number;
static uint32_t rank;
static size_t len;

/* Carries all waiting frames of one node to the other, which has that number. */
static void carry(pmixgroup_node *from, pmixgroup_node *to, uint32_t wanted) {
    for (;;) {
        uint32_t node = 9, code = pmixgroup_next(from, &node, buffer, sizeof buffer, &len);
        if (code == PMIXGROUP_NO_MEMORY) {
            told++;
            continue;
        }
        if (code == PMIXGROUP_IDLE) return;
        EXPECT(code == PMIXGROUP_DONE && node == wanted);
        for (size_t at = 0; at < len; at += 3) {
            ASK(PMIXGROUP_DONE, pmixgroup_feed(to, 1 - wanted, buffer + at, len - at < 3 ? len - at : 3));
            while ((code = pmixgroup_deliver(to, 1 - wanted)) != PMIXGROUP_IDLE) {
                told += code == PMIXGROUP_NO_MEMORY;
                EXPECT(code == PMIXGROUP_DONE || code == PMIXGROUP_IGNORED || code == PMIXGROUP_NO_MEMORY);
            }
        }
    }
}

static void flow(void) {
    for (int round = 0; round < 3; round++) {
        carry(&zero, &one, 1);
        carry(&one, &zero, 0);
    }
}

/* Tries empty handles, and groups without a node of that index. */
static void opening(void) {
    EXPECT(pmixgroup_nudge(&zero) == PMIXGROUP_WRONG_HANDLE);
    ASK(PMIXGROUP_BAD_PARAM, pmixgroup_open(&zero, 2, BYTES(GROUP)));
    ASK(PMIXGROUP_BAD_PARAM, pmixgroup_open(&zero, 0, BYTES("")));
    ASK(PMIXGROUP_BAD_PARAM, pmixgroup_open(&zero, 0, BYTES("space j 0\nnodes n0\n")));
    ASK(PMIXGROUP_BAD_PARAM, pmixgroup_open(&zero, 0, BYTES("nodes n0\nspace j 1\n")));
    ASK(PMIXGROUP_BAD_PARAM, pmixgroup_open(&zero, 0, BYTES("nodes n0\ncommit j 0\n")));
    ASK(PMIXGROUP_EXISTS, pmixgroup_open(&zero, 0, BYTES("nodes n0\nspace j 0\nspace j 0\n")));
    ASK(PMIXGROUP_DONE, pmixgroup_open(&zero, 0, BYTES("nodes n0\r\n\nspace j 0")));
    EXPECT(pmixgroup_close(&zero) == PMIXGROUP_DONE);
    ASK(PMIXGROUP_DONE, pmixgroup_open(&zero, 0, BYTES(GROUP)));
    EXPECT(pmixgroup_open(&zero, 0, BYTES(GROUP)) == PMIXGROUP_WRONG_HANDLE);
    ASK(PMIXGROUP_DONE, pmixgroup_open(&one, 1, BYTES(GROUP)));
}

/* Opens the largest group: each of 64 nodes is home to one rank of 64. One node more is too many. */
static void largest(void) {
    static char text[1 << 14];
    size_t at = (size_t)sprintf(text, "nodes");
    for (int node = 0; node < 64; node++) at += (size_t)sprintf(text + at, " n%d", node);
    size_t nodes = at;
    at += (size_t)sprintf(text + at, "\nspace j");
    for (int ranks = 0; ranks < 4096; ranks++) at += (size_t)sprintf(text + at, " %d", ranks % 64);
    EXPECT(pmixgroup_open(&zero, 63, BYTES(text)) == PMIXGROUP_DONE);
    EXPECT(pmixgroup_put(&zero, BYTES("j"), 4095, PMIXGROUP_GLOBAL, BYTES("a"), (const uint8_t *)"\x09\x07", 2) == PMIXGROUP_DONE);
    EXPECT(pmixgroup_commit(&zero, BYTES("j"), 4095, &number) == PMIXGROUP_DONE && number == 1);
    EXPECT(pmixgroup_get(&zero, BYTES("j"), 63, BYTES("j"), 4095, BYTES("a"), PMIXGROUP_NOW) == PMIXGROUP_DONE);
    EXPECT(pmixgroup_value(&zero, buffer, sizeof buffer, &len) == PMIXGROUP_DONE && len == 2 && buffer[1] == 7);
    EXPECT(pmixgroup_close(&zero) == PMIXGROUP_DONE);
    sprintf(text + nodes, " n64\n");
    EXPECT(pmixgroup_open(&zero, 0, BYTES(text)) == PMIXGROUP_TOO_MANY);
}

/* Checks refusals by their codes; a refused call leaves its results. */
static void refusals(void) {
    static const uint8_t byte[] = {9, 1, 1};
    uint32_t status = 9;
    number = 7;
    ASK(PMIXGROUP_BAD_PARAM, pmixgroup_put(&zero, BYTES("j"), 0, 5, BYTES("a"), byte, 2));
    ASK(PMIXGROUP_BAD_PARAM, pmixgroup_put(&zero, BYTES("j"), 0, 3, BYTES("pmix.a"), byte, 2));
    ASK(PMIXGROUP_BAD_FRAME, pmixgroup_put(&zero, BYTES("j"), 0, 3, BYTES("a"), byte, 3));
    ASK(PMIXGROUP_NOT_MINE, pmixgroup_commit(&zero, BYTES("j"), 1, &number));
    ASK(PMIXGROUP_UNKNOWN_NAMESPACE, pmixgroup_commit(&zero, BYTES("k"), 0, &number));
    EXPECT(number == 7);
    ASK(PMIXGROUP_DONE, pmixgroup_status(&zero, BYTES("j"), 0, &status));
    EXPECT(status == 1);
    ASK(PMIXGROUP_BAD_PARAM, pmixgroup_feed(&zero, 2, byte, 0));
    ASK(PMIXGROUP_BAD_PARAM, pmixgroup_deliver(&zero, 2));
    ASK(PMIXGROUP_DONE, pmixgroup_nudge(&zero));
    ASK(PMIXGROUP_DONE, pmixgroup_refusal(PMIXGROUP_NOT_MINE, buffer, sizeof buffer, &len));
    EXPECT(len == 7 && memcmp(buffer, "NotMine", 7) == 0);
    ASK(PMIXGROUP_IDLE, pmixgroup_refusal(PMIXGROUP_DONE, buffer, sizeof buffer, &len));
    ASK(PMIXGROUP_IDLE, pmixgroup_value(&zero, buffer, sizeof buffer, &len));
}

/* Defines a set of the named processes, and deletes it. */
static void sets(void) {
    static const uint8_t members[] = {0x13, 0x10, 0, 0, 0, 1, 1, 'j', 0, 0, 0, 1};
    ASK(PMIXGROUP_BAD_PARAM, pmixgroup_name(&zero, BYTES(""), 1));
    ASK(PMIXGROUP_DONE, pmixgroup_name(&zero, BYTES("j"), 1));
    ASK(PMIXGROUP_DONE, pmixgroup_define(&zero, BYTES("s"), &number));
    EXPECT(number == 1);
    ASK(PMIXGROUP_DONE, pmixgroup_members(&zero, BYTES("s"), buffer, sizeof buffer, &len));
    EXPECT(len == sizeof members && memcmp(buffer, members, len) == 0);
    ASK(PMIXGROUP_BAD_PARAM, pmixgroup_define(&zero, BYTES("t"), &number));
    ASK(PMIXGROUP_DONE, pmixgroup_delete(&zero, BYTES("s"), &number));
    EXPECT(number == 2);
    ASK(PMIXGROUP_NOT_FOUND, pmixgroup_members(&zero, BYTES("s"), buffer, sizeof buffer, &len));
}

/* Has both enter a collecting fence, and then one get what the other committed. */
static void fence(void) {
    static const uint8_t five[] = {9, 5};
    ASK(PMIXGROUP_DONE, pmixgroup_put(&zero, BYTES("j"), 0, PMIXGROUP_GLOBAL, BYTES("a"), five, 2));
    ASK(PMIXGROUP_DONE, pmixgroup_commit(&zero, BYTES("j"), 0, &number));
    EXPECT(number == 1);
    ASK(PMIXGROUP_DONE, pmixgroup_name(&zero, BYTES("j"), 1));
    ASK(PMIXGROUP_DONE, pmixgroup_name(&zero, BYTES("j"), 0));
    ASK(PMIXGROUP_DONE, pmixgroup_enter(&zero, BYTES("j"), 0, true, &number));
    ASK(PMIXGROUP_WAITS, pmixgroup_leave(&zero, BYTES("j"), 0, &number));
    ASK(PMIXGROUP_BUSY, pmixgroup_put(&zero, BYTES("j"), 0, PMIXGROUP_GLOBAL, BYTES("a"), five, 2));
    ASK(PMIXGROUP_IDLE, pmixgroup_leave(&one, BYTES("j"), 1, &number));
    ASK(PMIXGROUP_DONE, pmixgroup_enter(&one, BYTES("j"), 1, true, &number));
    flow();
    ASK(PMIXGROUP_DONE, pmixgroup_leave(&zero, BYTES("j"), 0, &number));
    ASK(PMIXGROUP_DONE, pmixgroup_leave(&one, BYTES("j"), 1, &number));
    EXPECT(number == 1);
    ASK(PMIXGROUP_IDLE, pmixgroup_gone(&one, 0, buffer, sizeof buffer, &len, &rank));
    ASK(PMIXGROUP_DONE, pmixgroup_get(&one, BYTES("j"), 1, BYTES("j"), 0, BYTES("a"), PMIXGROUP_NOW));
}

/* Asks for a value with a buffer that is too small: the call says how much it needs, and may be repeated. */
static void values(void) {
    memset(buffer, 0xee, sizeof buffer);
    ASK(PMIXGROUP_TOO_SMALL, pmixgroup_value(&one, buffer, 1, &len));
    EXPECT(len == 2 && buffer[0] == 0xee);
    ASK(PMIXGROUP_DONE, pmixgroup_value(&one, buffer, sizeof buffer, &len));
    EXPECT(len == 2 && buffer[0] == 9 && buffer[1] == 5 && buffer[2] == 0xee);
    ASK(PMIXGROUP_DONE, pmixgroup_get(&zero, BYTES("j"), 0, BYTES("j"), 0, BYTES("a"), PMIXGROUP_NOW));
    ASK(PMIXGROUP_DONE, pmixgroup_value(&zero, buffer, sizeof buffer, &len));
    EXPECT(len == 2 && buffer[1] == 5);
}

/* A frame that does not fit waits on. A get waits until the other process ends, which is then gone from the next fence. */
static void ends(void) {
    uint32_t to = 9;
    ASK(PMIXGROUP_WAITS, pmixgroup_get(&one, BYTES("j"), 1, BYTES("j"), 0, BYTES("b"), PMIXGROUP_WAIT));
    ASK(PMIXGROUP_TOO_SMALL, pmixgroup_next(&one, &to, buffer, 5, &len));
    EXPECT(to == 9 && len > 5);
    ASK(PMIXGROUP_WAITS, pmixgroup_take(&one, BYTES("j"), 1));
    ASK(PMIXGROUP_DONE, pmixgroup_end(&zero, BYTES("j"), 0, &number));
    EXPECT(number == 2);
    flow();
    ASK(PMIXGROUP_NOT_FOUND, pmixgroup_take(&one, BYTES("j"), 1));
    ASK(PMIXGROUP_TERMINATED, pmixgroup_commit(&zero, BYTES("j"), 0, &number));
    ASK(PMIXGROUP_DONE, pmixgroup_enter(&one, BYTES("j"), 1, true, &number));
    flow();
    ASK(PMIXGROUP_DONE, pmixgroup_leave(&one, BYTES("j"), 1, &number));
    EXPECT(number == 2);
    ASK(PMIXGROUP_DONE, pmixgroup_gone(&one, 0, buffer, sizeof buffer, &len, &rank));
    EXPECT(len == 1 && buffer[0] == 'j' && rank == 0);
    ASK(PMIXGROUP_IDLE, pmixgroup_gone(&one, 1, buffer, sizeof buffer, &len, &rank));
}

/* Feeds bytes that are not a frame: the fault is reported, and no more bytes are taken. */
static void faults(void) {
    uint64_t offset = 0;
    ASK(PMIXGROUP_IDLE, pmixgroup_fault(&zero, 1, &offset, buffer, sizeof buffer, &len));
    ASK(PMIXGROUP_DONE, pmixgroup_feed(&zero, 1, (const uint8_t *)"\x09\x01\0\0\0\0", 6));
    ASK(PMIXGROUP_IDLE, pmixgroup_deliver(&zero, 1));
    ASK(PMIXGROUP_DONE, pmixgroup_fault(&zero, 1, &offset, buffer, sizeof buffer, &len));
    EXPECT(len == 7 && memcmp(buffer, "Version", 7) == 0 && offset > 0);
    ASK(PMIXGROUP_CLOSED, pmixgroup_feed(&zero, 1, (const uint8_t *)"\x01", 1));
}

static void closing(void) {
    EXPECT(pmixgroup_close(&zero) == PMIXGROUP_DONE && pmixgroup_close(&one) == PMIXGROUP_DONE);
    EXPECT(pmixgroup_close(&one) == PMIXGROUP_WRONG_HANDLE);
    EXPECT(pmixgroup_value(&one, buffer, sizeof buffer, &len) == PMIXGROUP_WRONG_HANDLE);
}

int main(int count, char **words) {
    long step = count > 1 ? atol(words[1]) : 1, most = 0, runs = 0;
    largest();
    for (failing = 0; failing <= most; failing += step, runs++) {
        asked = told = 0;
        opening();
        refusals();
        sets();
        fence();
        values();
        ends();
        faults();
        closing();
        if (failing == 0) most = asked;
        EXPECT(told <= (failing > 0));
    }
    printf("%ld runs of %ld allocations each, one of which failed\n", runs, most);
    return 0;
}
