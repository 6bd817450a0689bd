/* Refuses memory, a thread or the time to the program that it is loaded before (LD_PRELOAD). tests/refuse builds it.

   REFUSE_AT=N      refuses the N-th allocation, and that one alone
   REFUSE_FROM=N    refuses the N-th allocation and each one after it
   REFUSE_THREAD=N  refuses the N-th thread, and that one alone
   REFUSE_THREADS=N refuses the N-th thread and each one after it
   REFUSE_CLOCK=PATH refuses to read a clock while there is a file at this path
   REFUSE_TOLD=FD   writes one byte to this descriptor at the first refusal */

#define _GNU_SOURCE
#include <dlfcn.h>
#include <errno.h>
#include <pthread.h>
#include <stdatomic.h>
#include <stddef.h>
#include <stdlib.h>
#include <sys/syscall.h>
#include <time.h>
#include <unistd.h>

extern void *__libc_malloc(size_t);
extern void *__libc_calloc(size_t, size_t);
extern void *__libc_realloc(void *, size_t);
extern void *__libc_memalign(size_t, size_t);

static _Atomic long made, begun;
static _Atomic int told;

static long number_in(const char *name)
{
    const char *text = getenv(name);
    return text ? atol(text) : 0;
}

static void tell(long descriptor)
{
    if (descriptor && !atomic_exchange(&told, 1) && write((int)descriptor, "r", 1) < 0)
        abort();
}

static int is_refused(void)
{
    static _Atomic int is_read;
    static long at, from, descriptor;
    if (!is_read) {
        at = number_in("REFUSE_AT");
        from = number_in("REFUSE_FROM");
        descriptor = number_in("REFUSE_TOLD");
        is_read = 1;
    }
    long number = ++made;
    if (number != at && (!from || number < from))
        return 0;
    tell(descriptor);
    errno = ENOMEM;
    return 1;
}

void *malloc(size_t size)
{
    return is_refused() ? NULL : __libc_malloc(size);
}

void *calloc(size_t count, size_t size)
{
    return is_refused() ? NULL : __libc_calloc(count, size);
}

void *realloc(void *old, size_t size)
{
    return is_refused() ? NULL : __libc_realloc(old, size);
}

void *aligned_alloc(size_t alignment, size_t size)
{
    return is_refused() ? NULL : __libc_memalign(alignment, size);
}

int posix_memalign(void **place, size_t alignment, size_t size)
{
    void *made_here = is_refused() ? NULL : __libc_memalign(alignment, size);
    if (!made_here)
        return ENOMEM;
    *place = made_here;
    return 0;
}

typedef int begin(pthread_t *, const pthread_attr_t *, void *(*)(void *), void *);

int pthread_create(pthread_t *thread, const pthread_attr_t *shape, void *(*run)(void *), void *with)
{
    long number = ++begun, from = number_in("REFUSE_THREADS");
    if (number == number_in("REFUSE_THREAD") || (from && number >= from)) {
        tell(number_in("REFUSE_TOLD"));
        return EAGAIN;
    }
    return ((begin *)dlsym(RTLD_NEXT, "pthread_create"))(thread, shape, run, with);
}

int clock_gettime(clockid_t clock, struct timespec *now)
{
    const char *path = getenv("REFUSE_CLOCK");
    if (path && access(path, F_OK) == 0) {
        errno = EINVAL;
        return -1;
    }
    return (int)syscall(SYS_clock_gettime, clock, now);
}
