/* Loaded before a program (LD_PRELOAD), this makes one of its allocations, its reads of standard input or its writes to standard output
   fail, as the environment says. At the end it reports how many of each there were, and how much was held at most.

   FAIL_ALLOCATION, FAIL_READ, FAIL_WRITE   the number, from 1, of the one that fails
   FAIL_AS                                  how a read or write fails: by a fault of the device; as if a signal interrupted it
                                            (interrupt); as if it would block (wait); or a write that takes nothing (nothing)
   FAIL_ON=1                                all later writes fail too
   FAIL_SHORT=1                             each read and write is of at most one byte
   FAIL_COUNTS                              the file that is written at the end: allocations, reads and writes, the most bytes that
                                            allocations held at one time, and the most bytes that the process had in memory */
#define _GNU_SOURCE
#include <dlfcn.h>
#include <errno.h>
#include <fcntl.h>
#include <malloc.h>
#include <stdatomic.h>
#include <stdio.h>
#include <stdlib.h>
#include <string.h>
#include <unistd.h>

extern void *__libc_malloc(size_t);
extern void *__libc_calloc(size_t, size_t);
extern void *__libc_realloc(void *, size_t);
extern void *__libc_memalign(size_t, size_t);
extern void __libc_free(void *);

static atomic_long allocations, reads, writes, held, most_held;
static long failing_allocation, failing_read, failing_write;
static int is_armed, is_short, goes_on, takes_nothing, failure = EIO;
static ssize_t (*true_read)(int, void *, size_t);
static ssize_t (*true_write)(int, const void *, size_t);
static void (*true_exit)(int);

static long number_of(const char *name) {
    const char *text = getenv(name);
    return text ? atol(text) : 0;
}

static void choose_failure(const char *name) {
    if (!strcmp(name, "interrupt")) failure = EINTR;
    if (!strcmp(name, "wait")) failure = EAGAIN;
    takes_nothing = !strcmp(name, "nothing");
}

__attribute__((constructor)) static void begin(void) {
    true_read = dlsym(RTLD_NEXT, "read");
    true_write = dlsym(RTLD_NEXT, "write");
    true_exit = dlsym(RTLD_NEXT, "_exit");
    failing_allocation = number_of("FAIL_ALLOCATION");
    failing_read = number_of("FAIL_READ");
    failing_write = number_of("FAIL_WRITE");
    goes_on = number_of("FAIL_ON") != 0;
    is_short = number_of("FAIL_SHORT") != 0;
    if (getenv("FAIL_AS")) choose_failure(getenv("FAIL_AS"));
    is_armed = 1;
}

/* Returns the most bytes that the process had in memory. (`getrusage` also counts the memory of the process before it.) */
static long resident(void) {
    char line[160];
    long most = 0;
    FILE *status = fopen("/proc/self/status", "r");
    while (status && fgets(line, sizeof line, status))
        if (!strncmp(line, "VmHWM:", 6)) most = 1024 * atol(line + 6);
    if (status) fclose(status);
    return most;
}

/* Writes the counts, once. */
__attribute__((destructor)) static void tell(void) {
    const char *path = getenv("FAIL_COUNTS");
    if (!is_armed || !path) return;
    is_armed = 0;
    char text[160];
    int size = snprintf(text, sizeof text, "%ld %ld %ld %ld ", (long)allocations, (long)reads, (long)writes, (long)most_held);
    size += snprintf(text + size, sizeof text - (size_t)size, "%ld\n", resident());
    int file = open(path, O_WRONLY | O_CREAT | O_TRUNC, 0644);
    if (file < 0 || true_write(file, text, (size_t)size) != size) true_exit(70);
}

/* The program may end by `_exit`, which runs no destructor. */
void _exit(int status) {
    tell();
    true_exit(status);
    __builtin_unreachable();
}

static int fails(void) {
    return is_armed && atomic_fetch_add(&allocations, 1) + 1 == failing_allocation;
}

static void hold(long size) {
    long now = atomic_fetch_add(&held, size) + size;
    long most = most_held;
    while (now > most && !atomic_compare_exchange_weak(&most_held, &most, now)) {
    }
}

static void *given(void *place) {
    if (place) hold((long)malloc_usable_size(place));
    return place;
}

static void *none(void) {
    errno = ENOMEM;
    return NULL;
}

void *malloc(size_t size) {
    return fails() ? none() : given(__libc_malloc(size));
}

void *calloc(size_t count, size_t size) {
    return fails() ? none() : given(__libc_calloc(count, size));
}

void *realloc(void *old, size_t size) {
    if (fails()) return none();
    long before = (long)malloc_usable_size(old);
    void *place = __libc_realloc(old, size);
    if (place || !size) hold(-before);
    return given(place);
}

void *memalign(size_t alignment, size_t size) {
    return fails() ? none() : given(__libc_memalign(alignment, size));
}

void *aligned_alloc(size_t alignment, size_t size) {
    return memalign(alignment, size);
}

int posix_memalign(void **place, size_t alignment, size_t size) {
    void *found = memalign(alignment, size);
    if (!found) return ENOMEM;
    *place = found;
    return 0;
}

void free(void *place) {
    if (place) hold(-(long)malloc_usable_size(place));
    __libc_free(place);
}

ssize_t read(int file, void *bytes, size_t size) {
    if (file == 0 && is_armed) {
        if (atomic_fetch_add(&reads, 1) + 1 == failing_read) return errno = failure, -1;
        if (is_short && size > 1) size = 1;
    }
    return true_read(file, bytes, size);
}

ssize_t write(int file, const void *bytes, size_t size) {
    if (file == 1 && is_armed) {
        long number = atomic_fetch_add(&writes, 1) + 1;
        if (number == failing_write || (goes_on && number > failing_write)) return takes_nothing ? 0 : (errno = failure, -1);
        if (is_short && size > 1) size = 1;
    }
    return true_write(file, bytes, size);
}

ssize_t __write(int file, const void *bytes, size_t size) {
    return write(file, bytes, size);
}
