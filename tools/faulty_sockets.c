/* Laid before a program's calls of the system, lets its sockets take and bring connections badly. With SHORT_WRITES in the
   environment each write of more bytes than one to a socket takes half of them. With REFUSED_ACCEPT=N the N-th connection
   that is to be accepted, counted from 1, is refused. `test_faults.py` builds and uses it. */

#define _GNU_SOURCE
#include <dlfcn.h>
#include <errno.h>
#include <stdatomic.h>
#include <stdlib.h>
#include <sys/socket.h>
#include <sys/stat.h>
#include <sys/uio.h>
#include <unistd.h>

static atomic_ulong accepts;

static int is_socket(int file) {
    struct stat found;
    return fstat(file, &found) == 0 && S_ISSOCK(found.st_mode);
}

static size_t taken(int file, size_t bytes) {
    return bytes > 1 && getenv("SHORT_WRITES") && is_socket(file) ? (bytes + 1) / 2 : bytes;
}

static int is_refused(void) {
    const char *call = getenv("REFUSED_ACCEPT");
    if (!call || atomic_fetch_add(&accepts, 1) + 1 != strtoul(call, NULL, 10)) {
        return 0;
    }
    errno = EMFILE;
    return 1;
}

ssize_t write(int file, const void *bytes, size_t count) {
    static ssize_t (*next)(int, const void *, size_t);
    next = next ? next : dlsym(RTLD_NEXT, "write");
    return next(file, bytes, taken(file, count));
}

ssize_t send(int file, const void *bytes, size_t count, int flags) {
    static ssize_t (*next)(int, const void *, size_t, int);
    next = next ? next : dlsym(RTLD_NEXT, "send");
    return next(file, bytes, taken(file, count), flags);
}

int accept(int file, struct sockaddr *address, socklen_t *length) {
    static int (*next)(int, struct sockaddr *, socklen_t *);
    next = next ? next : dlsym(RTLD_NEXT, "accept");
    return is_refused() ? -1 : next(file, address, length);
}

int accept4(int file, struct sockaddr *address, socklen_t *length, int flags) {
    static int (*next)(int, struct sockaddr *, socklen_t *, int);
    next = next ? next : dlsym(RTLD_NEXT, "accept4");
    return is_refused() ? -1 : next(file, address, length, flags);
}
