/* Laid before a program's memory calls, refuses one of them: the one whose number, counted from 1, stands in REFUSED_CALL.
   When it has, it writes one byte on the file descriptor in REFUSED_TELL. `refuse_memory.py` builds and uses it. */

#include <errno.h>
#include <stdatomic.h>
#include <stdlib.h>
#include <unistd.h>

extern void *__libc_malloc(size_t bytes);
extern void *__libc_realloc(void *place, size_t bytes);

static atomic_ulong calls;
static unsigned long refused_call;
static int tell;

__attribute__((constructor)) static void begin(void) {
    const char *call = getenv("REFUSED_CALL"), *to = getenv("REFUSED_TELL");
    tell = to ? atoi(to) : -1;
    atomic_store(&calls, 0);
    refused_call = call ? strtoul(call, NULL, 10) : 0;
}

static int is_refused(void) {
    if (refused_call == 0 || atomic_fetch_add(&calls, 1) + 1 != refused_call) {
        return 0;
    }
    if (tell >= 0 && write(tell, "r", 1) != 1) {
        abort();
    }
    errno = ENOMEM;
    return 1;
}

void *malloc(size_t bytes) {
    return is_refused() ? NULL : __libc_malloc(bytes);
}

void *realloc(void *place, size_t bytes) {
    return is_refused() ? NULL : __libc_realloc(place, bytes);
}
