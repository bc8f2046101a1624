/* Counts what a program asks of memory, and refuses one call: the library that starved.py puts before the C library.
 *
 * STARVED_COUNT is a file of 16 bytes: here the calls are counted, and it is noted whether one was refused, so that both can be
 * read however the program ends. STARVED_CALL is the number of the call that is refused, counted from 1; 0 refuses none. */
#include <errno.h>
#include <fcntl.h>
#include <stdatomic.h>
#include <stddef.h>
#include <stdlib.h>
#include <sys/mman.h>
#include <unistd.h>

extern void *__libc_malloc(size_t size);
extern void *__libc_realloc(void *block, size_t size);

struct count {
    atomic_ulong calls;
    atomic_ulong refused;
};

static struct count *count;
static unsigned long refused_call;

__attribute__((constructor)) static void begin(void) {
    const char *path = getenv("STARVED_COUNT"), *call = getenv("STARVED_CALL");
    int file = path ? open(path, O_RDWR) : -1;
    if (file < 0 || !call) {
        _exit(99);
    }
    refused_call = strtoul(call, NULL, 10);
    void *mapped = mmap(NULL, sizeof *count, PROT_READ | PROT_WRITE, MAP_SHARED, file, 0);
    close(file);
    if (mapped == MAP_FAILED) {
        _exit(99);
    }
    count = mapped;
}

static int is_refused(void) {
    if (!count || atomic_fetch_add(&count->calls, 1) + 1 != refused_call) {
        return 0;
    }
    atomic_store(&count->refused, 1);
    errno = ENOMEM;
    return 1;
}

void *malloc(size_t size) {
    return is_refused() ? NULL : __libc_malloc(size);
}

void *realloc(void *block, size_t size) {
    return is_refused() ? NULL : __libc_realloc(block, size);
}
