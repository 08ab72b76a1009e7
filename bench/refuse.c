// Makes one call for memory or for a thread fail: the call of number FLEET_REFUSE, counted from 1 over all threads.
// Preloaded by bench/refuse.
#define _GNU_SOURCE
#include <dlfcn.h>
#include <errno.h>
#include <pthread.h>
#include <stdatomic.h>
#include <stdlib.h>

static atomic_long calls, refused = -1;

static int is_refused(void) {
    if (refused < 0) {
        const char *number = getenv("FLEET_REFUSE");
        refused = number ? atol(number) : 0;
    }
    return atomic_fetch_add(&calls, 1) + 1 == refused;
}

#define WRAP(type, name, params, args)                                  \
    type name params {                                                  \
        static type(*real) params;                                      \
        if (!real) real = (type(*) params)dlsym(RTLD_NEXT, #name);      \
        if (is_refused()) { errno = ENOMEM; return 0; }                 \
        return real args;                                               \
    }

WRAP(void *, malloc, (size_t size), (size))
WRAP(void *, realloc, (void *block, size_t size), (block, size))

int posix_memalign(void **block, size_t align, size_t size) {
    static int (*real)(void **, size_t, size_t);
    if (!real) real = (int (*)(void **, size_t, size_t))dlsym(RTLD_NEXT, "posix_memalign");
    return is_refused() ? ENOMEM : real(block, align, size);
}

WRAP(void *, aligned_alloc, (size_t align, size_t size), (align, size))

int pthread_create(pthread_t *thread, const pthread_attr_t *how, void *(*work)(void *), void *with) {
    static int (*real)(pthread_t *, const pthread_attr_t *, void *(*)(void *), void *);
    if (!real) real = (int (*)(pthread_t *, const pthread_attr_t *, void *(*)(void *), void *))dlsym(RTLD_NEXT, "pthread_create");
    return is_refused() ? EAGAIN : real(thread, how, work, with);
}
