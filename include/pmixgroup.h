/* libpmixgroup: one node of a PMIx group inside a daemon.
 *
 * The daemon hands in the calls of its processes and the bytes from other nodes. It takes out replies, and bytes for other nodes. The
 * library opens no socket, starts no thread, and waits for nobody. All its state is in its handles. Each call below is proved to do
 * what its contract says (crates/pmixgroup_c), if the caller meets the obligations on this page.
 *
 *     pmixgroup_node node = PMIXGROUP_NODE_INIT;
 *     const char *group = "nodes n0 n1\nspace j 0 1\n";                               // homes: j 0 (node 0), j 1 (node 1)
 *     uint8_t frame[1 << 16], value[64];
 *     const uint8_t five[] = {9, 5};                                  // the value 5: its tag, then its byte (docs/FORMATS.md)
 *     uint64_t number;
 *     uint32_t to;
 *     size_t len;
 *
 *     if (pmixgroup_open(&node, 0, BYTES(group)) != PMIXGROUP_DONE) abort();         // node 0 of the group
 *     pmixgroup_put(&node, BYTES("j"), 0, PMIXGROUP_GLOBAL, BYTES("a"), five, 2);    // process j 0 puts 5 under the key a
 *     pmixgroup_commit(&node, BYTES("j"), 0, &number);                               // number is 1: its first commit
 *     pmixgroup_enter(&node, BYTES("j"), 0, true, &number);                          // a fence of all of j, which collects data
 *     while (pmixgroup_next(&node, &to, frame, sizeof frame, &len) == PMIXGROUP_DONE)
 *         send_to_node(to, frame, len);                                              // what the other nodes have to know
 *     ...                                                                            // bytes come from node 1
 *     pmixgroup_feed(&node, 1, bytes, count);                                        // in whatever pieces
 *     while ((code = pmixgroup_deliver(&node, 1)) == PMIXGROUP_DONE || code == PMIXGROUP_IGNORED) continue;
 *     if (pmixgroup_leave(&node, BYTES("j"), 0, &number) == PMIXGROUP_DONE)          // released: all have entered
 *         if (pmixgroup_get(&node, BYTES("j"), 0, BYTES("j"), 1, BYTES("a"), PMIXGROUP_WAIT) == PMIXGROUP_DONE)
 *             pmixgroup_value(&node, value, sizeof value, &len);                     // what j 1 put under a
 *     pmixgroup_close(&node);
 *
 * with `#define BYTES(text) (const uint8_t *)(text), strlen(text)`. examples/c has whole programs.
 *
 * RESULTS. Each call returns a code. Codes 0 to 15 are answers. A refusal is 16 plus its number. PMIXGROUP_TOO_SMALL says that a buffer
 * is too small, and PMIXGROUP_WRONG_HANDLE that the handle holds no node. After PMIXGROUP_NO_MEMORY and PMIXGROUP_TOO_SMALL nothing
 * has changed and nothing is lost: the caller may repeat the call. Any other refused call has no observable effect, with one
 * exception: pmixgroup_enter and pmixgroup_define still clear the list that pmixgroup_name built.
 *
 * OBLIGATIONS OF THE CALLER. Nothing checks them.
 *  - A handle begins as PMIXGROUP_NODE_INIT. It is never copied, and only the library writes it.
 *
 *  - Calls with one handle come one at a time, always from the same thread. None comes from a signal handler or the child of a fork.
 *
 *  - A pointer to bytes is not NULL, even if the length is 0, and points to at least that many bytes. Arguments of one call do not
 *    overlap, except those that the call only reads.
 *
 *  - malloc, realloc and free belong to one allocator, whose blocks are aligned to 16 bytes, as the C standard requires.
 *
 * OWNERSHIP. The library copies what it keeps. Buffers stay the caller's, and a call writes only their first *len bytes. The caller
 * closes an open node once, which frees everything that the node holds. An empty handle may be opened again.
 */
#ifndef PMIXGROUP_H
#define PMIXGROUP_H

#include <stdbool.h>
#include <stddef.h>
#include <stdint.h>

#ifdef __cplusplus
extern "C" {
#endif

/* A handle: it holds one node, or it is empty. */
typedef struct pmixgroup_node {
    void *at;
    bool full;
} pmixgroup_node;

#define PMIXGROUP_NODE_INIT {NULL, false}

/* Codes of answers. */
#define PMIXGROUP_DONE 0u    /* The call is done, or its result is there. */
#define PMIXGROUP_WAITS 1u   /* The fence or the get waits. */
#define PMIXGROUP_IDLE 2u    /* There is nothing to do, or no result. */
#define PMIXGROUP_IGNORED 3u /* The frame does not concern the node. */

/* Codes of refusals. The codes 28 to 30 are faults of audits, and no call here returns them. */
#define PMIXGROUP_NO_MEMORY 16u          /* An allocation failed, after names, keys and numbers were accepted. */
#define PMIXGROUP_BAD_PARAM 17u          /* An argument is outside its rules. */
#define PMIXGROUP_NOT_FOUND 18u          /* Nothing is there under that name. */
#define PMIXGROUP_OUTSIDE_SCOPE 19u      /* The value's scope does not reach the process that asks. */
#define PMIXGROUP_UNKNOWN_NAMESPACE 20u  /* No namespace of that name is registered. */
#define PMIXGROUP_NOT_MINE 21u           /* The process is of another node. */
#define PMIXGROUP_BUSY 22u               /* The process has a call in progress; in pmixgroup_feed: frames wait to be delivered. */
#define PMIXGROUP_TERMINATED 23u         /* The process has ended. */
#define PMIXGROUP_NOT_A_PARTICIPANT 24u  /* The process is not a participant of the fence. */
#define PMIXGROUP_TOO_MANY 25u           /* A limit would be passed. */
#define PMIXGROUP_BAD_FRAME 26u          /* The bytes are not a value. */
#define PMIXGROUP_EXISTS 27u             /* The name is taken. */
#define PMIXGROUP_CLOSED 31u             /* Earlier bytes of the node had a fault. */
#define PMIXGROUP_TOO_SMALL 254u         /* The buffer is too small: *len is the length that it needs. */
#define PMIXGROUP_WRONG_HANDLE 255u      /* The handle holds no node; in pmixgroup_open: it holds one already. */

/* Scopes of puts (PMIx Standard 5.0, pmix_scope_t). */
#define PMIXGROUP_LOCAL 1u
#define PMIXGROUP_REMOTE 2u
#define PMIXGROUP_GLOBAL 3u
#define PMIXGROUP_INTERNAL 4u

/* Modes of a get. */
#define PMIXGROUP_WAIT 0u    /* The get waits until there is an answer. */
#define PMIXGROUP_NOW 1u     /* The get looks only at the data of its node. */
#define PMIXGROUP_REFRESH 2u /* The get asks the target's node anew (PMIX_GET_REFRESH_CACHE). */

/* Ranks that do not name a single process (PMIx Standard 5.0, pmix_rank_t). */
#define PMIXGROUP_RANK_UNDEF UINT32_MAX
#define PMIXGROUP_RANK_WILDCARD (UINT32_MAX - 1)

/* Opens node `id` (0, 1, ...) of the group that a text describes. The text has a line `nodes NAME ...` with the names of the nodes. For
 * each namespace it then has a line `space NAMESPACE NODE ...` with the homes of ranks 0, 1, ... One blank separates words, and LF ends
 * a line. There are at most 64 nodes, 16 namespaces, and 4,096 ranks in each. All nodes of a group are opened with the same text.
 * Errors: BAD_PARAM for another line, an invalid name, or a node that the group lacks; EXISTS for a namespace that is named twice;
 * TOO_MANY past a limit; NO_MEMORY; WRONG_HANDLE if the handle holds a node. */
uint32_t pmixgroup_open(pmixgroup_node *node, uint32_t id, const uint8_t *group, size_t group_len);

/* Closes the node. Errors: WRONG_HANDLE. */
uint32_t pmixgroup_close(pmixgroup_node *node);

/* ---- calls of processes. Errors of each: BAD_PARAM for an invalid name; NO_MEMORY; for the calling process, if there is one,
 * UNKNOWN_NAMESPACE, NOT_MINE and TERMINATED. All except leave, take and end also return BUSY if that process has a call in progress. */

/* Puts a value, given by its canonical bytes (docs/FORMATS.md), under a key. The process itself gets its last put, and others get
 * committed data. Errors: BAD_FRAME if the bytes are not a value; TOO_MANY past a limit. */
uint32_t pmixgroup_put(pmixgroup_node *node, const uint8_t *nspace, size_t nspace_len, uint32_t rank, uint32_t scope,
                       const uint8_t *key, size_t key_len, const uint8_t *value, size_t value_len);

/* Commits what the process put; *number is the number of the commit. */
uint32_t pmixgroup_commit(pmixgroup_node *node, const uint8_t *nspace, size_t nspace_len, uint32_t rank, uint64_t *number);

/* Adds a process to the list for the next fence or set. Rank PMIXGROUP_RANK_WILDCARD names a whole namespace. */
uint32_t pmixgroup_name(pmixgroup_node *node, const uint8_t *nspace, size_t nspace_len, uint32_t rank);

/* The process enters its next fence of the named processes, or of its whole namespace if none was named; *number is the instance,
 * from 1. A collecting fence releases a process only when it finds the data that the others committed before they entered.
 * Errors: NOT_A_PARTICIPANT; TOO_MANY past 4,096 participants or 4,294,967,295 entries. */
uint32_t pmixgroup_enter(pmixgroup_node *node, const uint8_t *nspace, size_t nspace_len, uint32_t rank, bool collect, uint64_t *number);

/* The process leaves its fence. DONE: it was released; *number is the instance, and pmixgroup_gone has the participants that ended
 * before they entered. WAITS: it is not released yet. IDLE: it is in no fence. */
uint32_t pmixgroup_leave(pmixgroup_node *node, const uint8_t *nspace, size_t nspace_len, uint32_t rank, uint64_t *number);

/* The process gets a key of a target. DONE: pmixgroup_value has the value. WAITS: pmixgroup_take will have the answer. NOT_FOUND and
 * OUTSIDE_SCOPE are answers too. */
uint32_t pmixgroup_get(pmixgroup_node *node, const uint8_t *nspace, size_t nspace_len, uint32_t rank, const uint8_t *target,
                       size_t target_len, uint32_t target_rank, const uint8_t *key, size_t key_len, uint32_t mode);

/* The process takes the answer of its get, as pmixgroup_get gives it. WAITS: it is not there yet. IDLE: the process has no get. */
uint32_t pmixgroup_take(pmixgroup_node *node, const uint8_t *nspace, size_t nspace_len, uint32_t rank);

/* The process ends; *number is the number of its last commit, which is its end. */
uint32_t pmixgroup_end(pmixgroup_node *node, const uint8_t *nspace, size_t nspace_len, uint32_t rank, uint64_t *number);

/* Defines a process set of the named processes, or deletes one, at node 0; *number is the number of the change. Errors: NOT_MINE at
 * another node; EXISTS (define); NOT_FOUND (delete); TOO_MANY past a limit. */
uint32_t pmixgroup_define(pmixgroup_node *node, const uint8_t *name, size_t name_len, uint64_t *number);
uint32_t pmixgroup_delete(pmixgroup_node *node, const uint8_t *name, size_t name_len, uint64_t *number);

/* Asks other nodes again for missing frames, if the transport loses some. */
uint32_t pmixgroup_nudge(pmixgroup_node *node);

/* ---- results beside the code. A call fills its buffer up to *len; after TOO_SMALL *len is the length that it needs. */

/* The value of the last answered call, in canonical bytes. IDLE: it had no value. The call may be repeated. */
uint32_t pmixgroup_value(pmixgroup_node *node, uint8_t *buffer, size_t buffer_len, size_t *len);

/* After a leave: the participant of that index, from 0, among those that ended before they entered the fence. IDLE: there is no such
 * participant. */
uint32_t pmixgroup_gone(pmixgroup_node *node, size_t index, uint8_t *buffer, size_t buffer_len, size_t *len, uint32_t *rank);

/* The members of a process set, as the node knows it: the canonical bytes of their array. Errors: BAD_PARAM; NOT_FOUND. */
uint32_t pmixgroup_members(pmixgroup_node *node, const uint8_t *name, size_t name_len, uint8_t *buffer, size_t buffer_len, size_t *len);

/* The status of a process: 0 not of this node, 1 in no call, 2 in a fence, 3 released, 4 get waits, 5 get is answered, 6 ended. */
uint32_t pmixgroup_status(pmixgroup_node *node, const uint8_t *nspace, size_t nspace_len, uint32_t rank, uint32_t *status);

/* ---- frames */

/* Takes the next bytes of node `from`, in any pieces, all of them or none. Errors: BUSY while earlier frames wait to be delivered;
 * CLOSED after a fault; BAD_PARAM if there is no such node; TOO_MANY past 2^64 - 1 bytes; NO_MEMORY. */
uint32_t pmixgroup_feed(pmixgroup_node *node, uint32_t from, const uint8_t *bytes, size_t bytes_len);

/* Delivers the next frame of node `from`: DONE or IGNORED. IDLE: no frame waits. */
uint32_t pmixgroup_deliver(pmixgroup_node *node, uint32_t from);

/* Takes the next frame that the node sends, and in *to the node that it is for. IDLE: no frame waits. A frame that does not fit into
 * the buffer waits on. A frame has at most 16,777,222 bytes. */
uint32_t pmixgroup_next(pmixgroup_node *node, uint32_t *to, uint8_t *buffer, size_t buffer_len, size_t *len);

/* The fault in the bytes of node `from`: its offset in all of that node's bytes, and the name of its cause. IDLE: there is no fault. */
uint32_t pmixgroup_fault(pmixgroup_node *node, uint32_t from, uint64_t *offset, uint8_t *buffer, size_t buffer_len, size_t *len);

/* The name of a code of 16 to 31, for example "NotFound". IDLE: any other code. */
uint32_t pmixgroup_refusal(uint32_t code, uint8_t *buffer, size_t buffer_len, size_t *len);

#ifdef __cplusplus
}
#endif

#endif
