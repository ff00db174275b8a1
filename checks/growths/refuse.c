// Refuses one growth of memory of a program: the one whose number, counted from 1, is in REFUSED. Only growths while it is armed are
// counted, in all threads together. A growth of ARMS bytes arms it, and one of DISARMS bytes disarms it; nothing else of the program
// asks for so many, and these two are neither counted nor refused. At the end it writes how many growths were counted. Loaded before
// the C library, by LD_PRELOAD.
#define _GNU_SOURCE
#include <dlfcn.h>
#include <errno.h>
#include <stdio.h>
#include <stdlib.h>
#include <sys/syscall.h>
#include <unistd.h>

enum { ARMS = 1234577, DISARMS = 1234579 };

static void *(*next_malloc)(size_t);
static void *(*next_calloc)(size_t, size_t);
static void *(*next_realloc)(void *, size_t);
static void *(*next_aligned)(size_t, size_t);
static int (*next_memalign)(void **, size_t, size_t);

static long refused = 0;
static long growths = 0;
static int armed = 0;

__attribute__((constructor)) static void begin(void) {
    const char *number = getenv("REFUSED");
    if (number != NULL) refused = atol(number);
    next_malloc = (void *(*)(size_t))dlsym(RTLD_NEXT, "malloc");
    next_realloc = (void *(*)(void *, size_t))dlsym(RTLD_NEXT, "realloc");
    next_aligned = (void *(*)(size_t, size_t))dlsym(RTLD_NEXT, "aligned_alloc");
    next_memalign = (int (*)(void **, size_t, size_t))dlsym(RTLD_NEXT, "posix_memalign");
    next_calloc = (void *(*)(size_t, size_t))dlsym(RTLD_NEXT, "calloc");
}

// Whether this growth is refused. One thread arms and disarms, where no other one runs.
static int is_refused(size_t size) {
    if (size == ARMS || size == DISARMS) {
        __atomic_store_n(&armed, size == ARMS, __ATOMIC_SEQ_CST);
        return 0;
    }
    if (!__atomic_load_n(&armed, __ATOMIC_SEQ_CST)) return 0;
    return __atomic_add_fetch(&growths, 1, __ATOMIC_SEQ_CST) == refused;
}

void *malloc(size_t size) {
    if (next_malloc == NULL) begin();
    if (!is_refused(size)) return next_malloc(size);
    errno = ENOMEM;
    return NULL;
}

void *calloc(size_t count, size_t size) {
    if (next_calloc == NULL) return NULL;  // dlsym asks, and does without
    if (!is_refused(count * size)) return next_calloc(count, size);
    errno = ENOMEM;
    return NULL;
}

void *realloc(void *old, size_t size) {
    if (next_realloc == NULL) begin();
    if (!is_refused(size)) return next_realloc(old, size);
    errno = ENOMEM;
    return NULL;
}

void *aligned_alloc(size_t align, size_t size) {
    if (next_aligned == NULL) begin();
    if (!is_refused(size)) return next_aligned(align, size);
    errno = ENOMEM;
    return NULL;
}

int posix_memalign(void **out, size_t align, size_t size) {
    if (next_memalign == NULL) begin();
    return is_refused(size) ? ENOMEM : next_memalign(out, align, size);
}

__attribute__((destructor)) static void tell(void) {
    fprintf(stderr, "growths %ld\n", __atomic_load_n(&growths, __ATOMIC_SEQ_CST));
}

// A program with threads ends by this, and no destructor runs.
void _exit(int status) {
    tell();
    syscall(SYS_exit_group, status);
    __builtin_unreachable();
}
