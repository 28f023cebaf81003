// An allocator that is loaded before the C library's: it refuses the call whose number is in REFUSE, counted from 1, and
// writes the number of all calls into the file that REFUSE_COUNT names.
#define _GNU_SOURCE
#include <dlfcn.h>
#include <fcntl.h>
#include <stdio.h>
#include <stdlib.h>
#include <unistd.h>

static void *(*next_malloc)(size_t);
static void *(*next_calloc)(size_t, size_t);
static void *(*next_realloc)(void *, size_t);
static unsigned long made, refused;
static int ready;
static char early[4096];
static size_t taken;

__attribute__((constructor)) static void begin(void) {
    next_malloc = dlsym(RTLD_NEXT, "malloc");
    next_calloc = dlsym(RTLD_NEXT, "calloc");
    next_realloc = dlsym(RTLD_NEXT, "realloc");
    const char *number = getenv("REFUSE");
    refused = number ? strtoul(number, 0, 10) : 0;
    ready = 1;
}

__attribute__((destructor)) static void end(void) {
    const char *name = getenv("REFUSE_COUNT");
    int file = name ? open(name, O_WRONLY | O_CREAT | O_TRUNC, 0600) : -1;
    if (file >= 0) {
        char text[32];
        int length = snprintf(text, sizeof text, "%lu", made);
        if (write(file, text, length) != length) _exit(99);
        close(file);
    }
}

static int is_refused(void) {
    if (!ready) return 0;
    made++;
    return made == refused;
}

void *malloc(size_t size) { return next_malloc ? (is_refused() ? 0 : next_malloc(size)) : calloc(1, size); }

void *realloc(void *old, size_t size) { return is_refused() ? 0 : next_realloc(old, size); }

// dlsym itself may ask for memory before the next calloc is known: that comes from a small table.
void *calloc(size_t count, size_t size) {
    if (!next_calloc) {
        size_t start = (taken + 15) / 16 * 16;
        taken = start + count * size;
        return taken <= sizeof early ? early + start : 0;
    }
    return is_refused() ? 0 : next_calloc(count, size);
}
