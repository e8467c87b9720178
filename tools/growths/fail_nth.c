// Loaded before the C library (LD_PRELOAD), it refuses some of a program's allocations: of the calls of malloc, calloc
// and realloc since the program was loaded, counted from 1, those from FAIL_FROM to FAIL_TO answer NULL. For each of them
// it writes one octet on descriptor 9, which says to whoever asked for a refusal that there was one.
#include <errno.h>
#include <stddef.h>
#include <stdlib.h>
#include <unistd.h>

// The C library's own allocator, by the names that stay when another one takes its place.
extern void *__libc_malloc(size_t size);
extern void *__libc_calloc(size_t count, size_t size);
extern void *__libc_realloc(void *old, size_t size);

static unsigned long from, to, calls;

static unsigned long limit(const char *name) {
    const char *value = getenv(name);
    return value ? strtoul(value, NULL, 10) : 0;
}

// Runs before the program's main, and after the loader's own allocations.
__attribute__((constructor)) static void begin(void) {
    from = limit("FAIL_FROM");
    to = limit("FAIL_TO");
    calls = 0;
}

static int is_refused(void) {
    calls++;
    if (calls < from || calls > to)
        return 0;
    if (write(9, ".", 1) != 1)
        abort();
    errno = ENOMEM;
    return 1;
}

void *malloc(size_t size) { return is_refused() ? NULL : __libc_malloc(size); }

void *calloc(size_t count, size_t size) { return is_refused() ? NULL : __libc_calloc(count, size); }

void *realloc(void *old, size_t size) { return is_refused() ? NULL : __libc_realloc(old, size); }
