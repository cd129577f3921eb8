/* Preloaded before a program: its request number FAIL_AT, counted from 1, is refused, and where FAIL_ON
   is set all later ones are, too; a request is one for memory, for a thread or for an open file, which takes
   memory of the system's. Each request for FAIL_SIZE bytes is refused. For one that is refused an `r` is
   written to the file TOLD_FD, and for a thread that is made a `t`. Only requests of the program itself
   count: those before `main` are the C library's own. */
#define _GNU_SOURCE
#include <dlfcn.h>
#include <errno.h>
#include <fcntl.h>
#include <pthread.h>
#include <stdarg.h>
#include <stdlib.h>
#include <stddef.h>
#include <unistd.h>

static unsigned long requests, fail_at, fail_size;
static int started, fail_on, told_fd = -1;

__attribute__((constructor)) static void start(void) {
    const char *text = getenv("FAIL_AT");
    fail_at = text ? strtoul(text, NULL, 10) : 0;
    fail_on = getenv("FAIL_ON") != NULL;
    text = getenv("FAIL_SIZE");
    fail_size = text ? strtoul(text, NULL, 10) : 0;
    text = getenv("TOLD_FD");
    told_fd = text ? atoi(text) : -1;
    started = 1;
}

static void tell(const char *what) {
    if (told_fd >= 0 && write(told_fd, what, 1) != 1)
        abort();
}

static int refused(size_t size) {
    unsigned long number = started ? __atomic_add_fetch(&requests, 1, __ATOMIC_SEQ_CST) : 0;
    int by_number = fail_at && number >= fail_at && (number == fail_at || fail_on);
    if (!started || (!by_number && (!fail_size || size != fail_size)))
        return 0;
    tell("r");
    errno = ENOMEM;
    return 1;
}

#define NEXT(name) ((__typeof__(&name))dlsym(RTLD_NEXT, #name))

void *malloc(size_t size) {
    static void *(*next)(size_t);
    if (!next)
        next = NEXT(malloc);
    return refused(size) ? NULL : next(size);
}

void *realloc(void *old, size_t size) {
    static void *(*next)(void *, size_t);
    if (!next)
        next = NEXT(realloc);
    return refused(size) ? NULL : next(old, size);
}

void *aligned_alloc(size_t align, size_t size) {
    static void *(*next)(size_t, size_t);
    if (!next)
        next = NEXT(aligned_alloc);
    return refused(size) ? NULL : next(align, size);
}

int posix_memalign(void **out, size_t align, size_t size) {
    static int (*next)(void **, size_t, size_t);
    if (!next)
        next = NEXT(posix_memalign);
    return refused(size) ? ENOMEM : next(out, align, size);
}

int open(const char *path, int flags, ...) {
    static int (*next)(const char *, int, ...);
    va_list others;
    mode_t mode;
    va_start(others, flags);
    mode = flags & O_CREAT ? va_arg(others, mode_t) : 0;
    va_end(others);
    if (!next)
        next = NEXT(open);
    return refused(0) ? -1 : next(path, flags, mode);
}

int pthread_create(pthread_t *thread, const pthread_attr_t *attributes, void *(*run)(void *), void *given) {
    static int (*next)(pthread_t *, const pthread_attr_t *, void *(*)(void *), void *);
    if (!next)
        next = NEXT(pthread_create);
    if (refused(0))
        return EAGAIN;
    tell("t");
    return next(thread, attributes, run, given);
}
