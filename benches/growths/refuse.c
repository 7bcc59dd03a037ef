// Stands before the allocator of a program, by LD_PRELOAD: the growth of memory whose number is in REFUSE is refused, for which the file named in TOLD is made, and so is
// the next, since a collection that is refused what it expects to need asks for one place.
#define _GNU_SOURCE
#include <dlfcn.h>
#include <fcntl.h>
#include <stdlib.h>
#include <unistd.h>

static unsigned long refused, count;
static void *(*next_malloc)(size_t), *(*next_realloc)(void *, size_t);

__attribute__((constructor)) static void begin(void) {
    const char *number = getenv("REFUSE");
    next_malloc = (void *(*)(size_t))dlsym(RTLD_NEXT, "malloc");
    next_realloc = (void *(*)(void *, size_t))dlsym(RTLD_NEXT, "realloc");
    refused = number ? strtoul(number, NULL, 10) : 0;
    count = 0;
}

static int is_refused(void) {
    ++count;
    if (refused == 0 || count < refused || count > refused + 1) return 0;
    if (count == refused) {
        int file = open(getenv("TOLD"), O_CREAT | O_WRONLY, 0600);
        if (file < 0) abort();
        close(file);
    }
    return 1;
}

void *malloc(size_t size) {
    if (!next_malloc) next_malloc = (void *(*)(size_t))dlsym(RTLD_NEXT, "malloc");
    return is_refused() ? NULL : next_malloc(size);
}

void *realloc(void *old, size_t size) {
    if (!next_realloc) next_realloc = (void *(*)(void *, size_t))dlsym(RTLD_NEXT, "realloc");
    return is_refused() ? NULL : next_realloc(old, size);
}
