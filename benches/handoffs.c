/* Reads a number from standard input. Has two threads hand a turn to each other, so often, by a lock and a condition. */
#include <inttypes.h>
#include <pthread.h>
#include <stdio.h>

static pthread_mutex_t lock = PTHREAD_MUTEX_INITIALIZER;
static pthread_cond_t turned = PTHREAD_COND_INITIALIZER;
static uint64_t left = 0;

/* Waits for each turn of that side, and hands the next turn over, until no turn is left. */
static void *take_turns(void *side) {
    const uint64_t mine = *(uint64_t *)side;
    pthread_mutex_lock(&lock);
    while (left > 0) {
        if (left % 2 == mine) {
            left--;
            pthread_cond_signal(&turned);
        } else {
            pthread_cond_wait(&turned, &lock);
        }
    }
    pthread_cond_signal(&turned);
    pthread_mutex_unlock(&lock);
    return NULL;
}

int main(void) {
    uint64_t sides[] = {0, 1};
    pthread_t other;
    if (scanf("%" SCNu64, &left) != 1) return 2;
    if (pthread_create(&other, NULL, take_turns, &sides[1]) != 0) return 1;
    take_turns(&sides[0]);
    return pthread_join(other, NULL) != 0;
}
