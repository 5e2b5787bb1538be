// Refuses memory: preloaded into a program by refuse-memory.
//
// REFUSE_FROM=N refuses the Nth call that wants memory, counted from 1 over all threads;
// REFUSE_COUNT=M refuses M calls from there on. Each refusal is told by a byte on error output.
#include <errno.h>
#include <stdatomic.h>
#include <stdlib.h>
#include <unistd.h>

void *__libc_malloc(size_t size);
void *__libc_calloc(size_t count, size_t size);
void *__libc_realloc(void *old, size_t size);

static atomic_ulong calls;
static unsigned long from;
static unsigned long count;

static unsigned long number(const char *name) {
    const char *text = getenv(name);
    return text ? strtoul(text, NULL, 10) : 0;
}

__attribute__((constructor)) static void begin(void) {
    from = number("REFUSE_FROM");
    count = number("REFUSE_COUNT");
    atomic_store(&calls, 0);
}

static int refused(void) {
    unsigned long call = atomic_fetch_add(&calls, 1) + 1;
    if (from == 0 || call < from || call - from >= count) {
        return 0;
    }
    if (write(STDERR_FILENO, "!", 1) < 0) {
        _exit(99);
    }
    errno = ENOMEM;
    return 1;
}

void *malloc(size_t size) {
    return refused() ? NULL : __libc_malloc(size);
}

void *calloc(size_t items, size_t size) {
    return refused() ? NULL : __libc_calloc(items, size);
}

void *realloc(void *old, size_t size) {
    return refused() ? NULL : __libc_realloc(old, size);
}
