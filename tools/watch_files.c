/* Laid before a program's calls of the system, tells those that touch files, one line each in order, on the file descriptor in
   WATCHED_TELL: `open FD PATH`, `pwrite FD BYTES PLACE`, `pread`, `ftruncate FD LENGTH`, `fsync FD`, `fdatasync FD`, `flock FD`,
   and `write FD BYTES` for standard output and for sockets, `send` among these. Where WATCHED_MOST is set, a `pwrite` or a `pread`
   moves no more than so many bytes, as the system may. Where WATCHED_BYTES is set, the bytes that were written stand behind the
   lines of `pwrite` and `write`. `test_files.py` and `test_power.py` build and use it. */

#define _GNU_SOURCE
#include <dlfcn.h>
#include <fcntl.h>
#include <stdarg.h>
#include <stdio.h>
#include <stdlib.h>
#include <string.h>
#include <sys/socket.h>
#include <sys/stat.h>
#include <sys/types.h>
#include <unistd.h>

static int tell = -1, tells_bytes;
static size_t most = (size_t)-1;

__attribute__((constructor)) static void begin(void) {
    const char *to = getenv("WATCHED_TELL"), *bytes = getenv("WATCHED_MOST");
    tell = to ? atoi(to) : -1;
    most = bytes ? strtoul(bytes, NULL, 10) : (size_t)-1;
    tells_bytes = getenv("WATCHED_BYTES") != NULL;
}

static void *next(const char *name) {
    void *found = dlsym(RTLD_NEXT, name);
    if (found == NULL) {
        abort();
    }
    return found;
}

static ssize_t real_write(int fd, const void *bytes, size_t count) {
    return ((ssize_t (*)(int, const void *, size_t))next("write"))(fd, bytes, count);
}

static void say(const char *form, ...) {
    char line[4200];
    va_list rest;
    va_start(rest, form);
    int count = vsnprintf(line, sizeof line, form, rest);
    va_end(rest);
    if (tell >= 0 && (count < 0 || (size_t)count >= sizeof line || real_write(tell, line, (size_t)count) != count)) {
        abort();
    }
}

static void say_bytes(const char *bytes, ssize_t count) {
    while (tell >= 0 && tells_bytes && count > 0) {
        ssize_t said = real_write(tell, bytes, (size_t)count);
        if (said <= 0) {
            abort();
        }
        bytes += said, count -= said;
    }
}

static size_t fewer(size_t count) {
    return count < most ? count : most;
}

static int is_watched(int fd) {
    struct stat found;
    return fd == 1 || (fd != tell && fstat(fd, &found) == 0 && S_ISSOCK(found.st_mode));
}

ssize_t write(int fd, const void *bytes, size_t count) {
    ssize_t done = real_write(fd, bytes, count);
    if (is_watched(fd)) {
        say("write %d %zd\n", fd, done);
        say_bytes(bytes, done);
    }
    return done;
}

ssize_t send(int fd, const void *bytes, size_t count, int flags) {
    ssize_t done = ((ssize_t (*)(int, const void *, size_t, int))next("send"))(fd, bytes, count, flags);
    say("write %d %zd\n", fd, done);
    say_bytes(bytes, done);
    return done;
}

#define MOVE(name, kind, place_type, say_moved) \
    ssize_t name(int fd, kind bytes, size_t count, place_type place) { \
        ssize_t done = ((ssize_t (*)(int, kind, size_t, place_type))next(#name))(fd, bytes, fewer(count), place); \
        say(#name " %d %zd %lld\n", fd, done, (long long)place); \
        say_moved; \
        return done; \
    }

MOVE(pwrite, const void *, off_t, say_bytes(bytes, done))
MOVE(pwrite64, const void *, off64_t, say_bytes(bytes, done))
MOVE(pread, void *, off_t, )
MOVE(pread64, void *, off64_t, )

#define CUT(name, length_type) \
    int name(int fd, length_type length) { \
        int done = ((int (*)(int, length_type))next(#name))(fd, length); \
        say(#name " %d %lld\n", fd, (long long)length); \
        return done; \
    }

CUT(ftruncate, off_t)
CUT(ftruncate64, off64_t)

#define SYNC(name) \
    int name(int fd) { \
        int done = ((int (*)(int))next(#name))(fd); \
        say(#name " %d\n", fd); \
        return done; \
    }

SYNC(fsync)
SYNC(fdatasync)

int flock(int fd, int operation) {
    int done = ((int (*)(int, int))next("flock"))(fd, operation);
    say("flock %d\n", fd);
    return done;
}

static mode_t mode_of(int flags, va_list rest) {
    return flags & (O_CREAT | __O_TMPFILE) ? (mode_t)va_arg(rest, unsigned) : 0;
}

#define OPEN(name) \
    int name(const char *path, int flags, ...) { \
        va_list rest; \
        va_start(rest, flags); \
        mode_t mode = mode_of(flags, rest); \
        va_end(rest); \
        int fd = ((int (*)(const char *, int, ...))next(#name))(path, flags, mode); \
        say("open %d %s\n", fd, path); \
        return fd; \
    }

OPEN(open)
OPEN(open64)

#define OPENAT(name) \
    int name(int folder, const char *path, int flags, ...) { \
        va_list rest; \
        va_start(rest, flags); \
        mode_t mode = mode_of(flags, rest); \
        va_end(rest); \
        int fd = ((int (*)(int, const char *, int, ...))next(#name))(folder, path, flags, mode); \
        say("open %d %s\n", fd, path); \
        return fd; \
    }

OPENAT(openat)
OPENAT(openat64)
