// Refuses one allocation of a program that this is loaded into before other libraries (LD_PRELOAD), or all from one on, and counts them.
//
// REFUSE=N refuses the N-th, counted from 1 over all threads from the program's start; REFUSE=N+ the N-th and all after it. COUNT_IN=FILE
// names a file of eight bytes, in which the allocations are counted.
#define _GNU_SOURCE
#include <errno.h>
#include <fcntl.h>
#include <stdatomic.h>
#include <stdlib.h>
#include <string.h>
#include <sys/mman.h>

extern void *__libc_malloc(size_t);
extern void *__libc_calloc(size_t, size_t);
extern void *__libc_realloc(void *, size_t);

static atomic_ulong own_count, *count = &own_count;
static unsigned long first, last;
static atomic_int begun;

__attribute__((constructor)) static void begin(void) {
    const char *refuse = getenv("REFUSE"), *file = getenv("COUNT_IN");
    if (refuse) {
        first = strtoul(refuse, NULL, 10);
        last = strchr(refuse, '+') ? -1UL : first;
    }
    if (file) {
        void *shared = mmap(NULL, sizeof *count, PROT_READ | PROT_WRITE, MAP_SHARED, open(file, O_RDWR), 0);
        if (shared != MAP_FAILED) count = shared;
    }
    atomic_store(&begun, 1);
}

static int is_refused(void) {
    if (!atomic_load(&begun)) return 0;
    unsigned long number = atomic_fetch_add(count, 1) + 1;
    if (number < first || number > last) return 0;
    errno = ENOMEM;
    return 1;
}

void *malloc(size_t size) { return is_refused() ? NULL : __libc_malloc(size); }

void *calloc(size_t number, size_t size) { return is_refused() ? NULL : __libc_calloc(number, size); }

void *realloc(void *block, size_t size) { return is_refused() ? NULL : __libc_realloc(block, size); }
