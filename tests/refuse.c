/* Loaded before the C library (LD_PRELOAD), refuses one allocation and counts them all.
 *
 * REFUSE=N refuses the N-th, from 1, of all threads together, once the program has begun; 0 refuses none. REFUSE_START=N refuses the
 * N-th start of a thread. At the end COUNT, if it names a file, gets how many allocations and starts there were. */
#define _GNU_SOURCE
#include <dlfcn.h>
#include <errno.h>
#include <pthread.h>
#include <stdatomic.h>
#include <stdio.h>
#include <stdlib.h>
#include <sys/syscall.h>
#include <unistd.h>

static atomic_long allocations, starts;
static long refused = -1, refused_start = -1;
static _Atomic int begun;
static __thread int inside;

extern void *__libc_malloc(size_t);
extern void *__libc_calloc(size_t, size_t);
extern void *__libc_realloc(void *, size_t);
extern void *__libc_memalign(size_t, size_t);

static int is_refused(void)
{
    return begun && !inside && atomic_fetch_add(&allocations, 1) + 1 == refused;
}

void *malloc(size_t size)
{
    return is_refused() ? (errno = ENOMEM, NULL) : __libc_malloc(size);
}

void *calloc(size_t count, size_t size)
{
    return is_refused() ? (errno = ENOMEM, NULL) : __libc_calloc(count, size);
}

void *realloc(void *block, size_t size)
{
    return is_refused() ? (errno = ENOMEM, NULL) : __libc_realloc(block, size);
}

void *memalign(size_t align, size_t size)
{
    return is_refused() ? (errno = ENOMEM, NULL) : __libc_memalign(align, size);
}

void *aligned_alloc(size_t align, size_t size)
{
    return memalign(align, size);
}

int posix_memalign(void **block, size_t align, size_t size)
{
    *block = memalign(align, size);
    return *block ? 0 : ENOMEM;
}

int pthread_create(pthread_t *thread, const pthread_attr_t *how, void *(*work)(void *), void *given)
{
    static int (*create)(pthread_t *, const pthread_attr_t *, void *(*)(void *), void *);
    if (!create)
        create = dlsym(RTLD_NEXT, "pthread_create");
    if (atomic_fetch_add(&starts, 1) + 1 == refused_start)
        return EAGAIN;
    return create(thread, how, work, given);
}

__attribute__((constructor)) static void begin(void)
{
    const char *number = getenv("REFUSE"), *start = getenv("REFUSE_START");
    refused = number ? atol(number) : 0;
    refused_start = start ? atol(start) : 0;
    begun = 1;
}

static void tell(void)
{
    const char *path = getenv("COUNT");
    inside = 1;
    FILE *file = path ? fopen(path, "w") : NULL;
    if (file) {
        fprintf(file, "%ld %ld\n", atomic_load(&allocations), atomic_load(&starts));
        fclose(file);
    }
}

/* The program ends by this call, without the handlers of the C library. */
void _exit(int status)
{
    tell();
    syscall(SYS_exit_group, status);
    __builtin_unreachable();
}
