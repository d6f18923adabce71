/* An allocator that refuses one allocation, whose number the environment gives, and says at the end how many there
 * were. Loaded before a program:  REFUSED=3 COUNTED=/tmp/count LD_PRELOAD=./refused_allocation.so tc ltc-read < FILE
 *     cc -O2 -shared -fPIC -o refused_allocation.so bench/refused_allocation.c -ldl */
#define _GNU_SOURCE
#include <dlfcn.h>
#include <errno.h>
#include <fcntl.h>
#include <stdlib.h>
#include <unistd.h>

static long made, refused = -1;

/* Whether this allocation is the one that is refused. Numbers begin with 1. */
static int is_refused(void) {
    if (refused < 0) {
        const char *told = getenv("REFUSED");
        refused = told ? atol(told) : 0;
    }
    return ++made == refused;
}

#define REAL(name) ((__typeof__(&name))dlsym(RTLD_NEXT, #name))
#define REFUSE(answer) if (is_refused()) { errno = ENOMEM; return answer; }

void *malloc(size_t size) {
    static void *(*real)(size_t);
    if (!real) real = REAL(malloc);
    REFUSE(NULL)
    return real(size);
}

void *realloc(void *block, size_t size) {
    static void *(*real)(void *, size_t);
    if (!real) real = REAL(realloc);
    REFUSE(NULL)
    return real(block, size);
}

void *aligned_alloc(size_t align, size_t size) {
    static void *(*real)(size_t, size_t);
    if (!real) real = REAL(aligned_alloc);
    REFUSE(NULL)
    return real(align, size);
}

int posix_memalign(void **block, size_t align, size_t size) {
    static int (*real)(void **, size_t, size_t);
    if (!real) real = REAL(posix_memalign);
    REFUSE(ENOMEM)
    return real(block, align, size);
}

/* dlsym itself needs cleared memory before it can answer: it gets that from a room here. */
void *calloc(size_t count, size_t size) {
    static void *(*real)(size_t, size_t);
    static char room[4096];
    static size_t taken, is_asking;
    if (!real && !is_asking) {
        is_asking = 1;
        real = REAL(calloc);
    }
    if (!real) {
        void *block = room + taken;
        taken += (count * size + 15) & ~(size_t)15;
        return taken <= sizeof room ? block : NULL;
    }
    REFUSE(NULL)
    return real(count, size);
}

__attribute__((destructor)) static void tell(void) {
    const char *name = getenv("COUNTED");
    char digits[24];
    int at = sizeof digits, file = name ? open(name, O_WRONLY | O_CREAT | O_TRUNC, 0600) : -1;
    if (file < 0) return;
    do digits[--at] = '0' + made % 10; while (made /= 10);
    if (write(file, digits + at, sizeof digits - at) < 0) _exit(99);
    close(file);
}
