// open, read and write that are loaded before the C library's. The call whose number is in FAULT_CALL, counted from 1 over
// all three, fails with FAULT_ERROR, or, where that is 0, moves one byte at most; where FAULT_CALL is 0, each second call
// does so. The letters of all calls (o, r, w) are written into the file that FAULT_TOLD names.
#define _GNU_SOURCE
#include <dlfcn.h>
#include <errno.h>
#include <fcntl.h>
#include <stdarg.h>
#include <stdlib.h>
#include <unistd.h>

static int (*next_open)(const char *, int, ...);
static ssize_t (*next_read)(int, void *, size_t);
static ssize_t (*next_write)(int, const void *, size_t);
static long faulty = -1, error, made;
static char letters[1 << 20];

__attribute__((constructor)) static void begin(void) {
    next_open = dlsym(RTLD_NEXT, "open");
    next_read = dlsym(RTLD_NEXT, "read");
    next_write = dlsym(RTLD_NEXT, "write");
    const char *call = getenv("FAULT_CALL"), *number = getenv("FAULT_ERROR");
    if (call && number) {
        faulty = atol(call);
        error = atol(number);
    }
}

__attribute__((destructor)) static void end(void) {
    const char *name = getenv("FAULT_TOLD");
    int file = name ? next_open(name, O_WRONLY | O_CREAT | O_TRUNC, 0600) : -1;
    if (file >= 0) {
        size_t length = made < (long)sizeof letters ? made : sizeof letters;
        if (next_write(file, letters, length) != (ssize_t)length) _exit(99);
        close(file);
    }
}

// Whether this call is the faulty one.
static int is_faulty(char letter) {
    if (made < (long)sizeof letters) letters[made] = letter;
    made++;
    return faulty == 0 ? made % 2 == 1 : made == faulty;
}

int open(const char *name, int flags, ...) {
    va_list rest;
    va_start(rest, flags);
    int mode = flags & O_CREAT ? va_arg(rest, int) : 0;
    va_end(rest);
    if (is_faulty('o') && error) {
        errno = error;
        return -1;
    }
    return next_open(name, flags, mode);
}

ssize_t read(int file, void *into, size_t size) {
    if (is_faulty('r')) {
        if (error) {
            errno = error;
            return -1;
        }
        size = size ? 1 : 0;
    }
    return next_read(file, into, size);
}

ssize_t write(int file, const void *from, size_t size) {
    if (is_faulty('w')) {
        if (error) {
            errno = error;
            return -1;
        }
        size = size ? 1 : 0;
    }
    return next_write(file, from, size);
}
