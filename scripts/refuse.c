/* Stands before malloc and realloc, and refuses the request of the number in REFUSE. */
#define _GNU_SOURCE
#include <dlfcn.h>
#include <stdlib.h>
#include <unistd.h>

static long left = -1;

/* Whether this request is the one to refuse. A file of the name in REFUSED tells that it was made. */
static int is_refused(void) {
    if (left < 0) {
        const char *at = getenv("REFUSE");
        left = at ? atol(at) : 0;
    }
    if (left == 0 || --left > 0) {
        return 0;
    }
    symlink("refused", getenv("REFUSED"));
    return 1;
}

void *malloc(size_t size) {
    static void *(*next)(size_t);
    if (!next) next = (void *(*)(size_t))dlsym(RTLD_NEXT, "malloc");
    return is_refused() ? NULL : next(size);
}

void *realloc(void *block, size_t size) {
    static void *(*next)(void *, size_t);
    if (!next) next = (void *(*)(void *, size_t))dlsym(RTLD_NEXT, "realloc");
    return is_refused() ? NULL : next(block, size);
}
