/* Refuses one request for memory of a program: the one whose number, from 1, is in REFUSED_REQUEST. Each call that asks for memory
   counts, those of the C library for itself too. Where REFUSED_TOLD has the number of a descriptor, a byte is written to it as the
   request is refused. Built by run.py, and put before the C library by LD_PRELOAD. */
#include <errno.h>
#include <stdatomic.h>
#include <stddef.h>
#include <stdlib.h>
#include <unistd.h>

extern void *__libc_malloc(size_t);
extern void *__libc_calloc(size_t, size_t);
extern void *__libc_realloc(void *, size_t);
extern void *__libc_memalign(size_t, size_t);

static atomic_ulong asked;
static unsigned long refused;
static int told = -1;
static int ready;

static unsigned long number(const char *text)
{
    unsigned long value = 0;
    for (; text && *text >= '0' && *text <= '9'; text++)
        value = value * 10 + (unsigned long)(*text - '0');
    return value;
}

__attribute__((constructor)) static void begin(void)
{
    refused = number(getenv("REFUSED_REQUEST"));
    if (getenv("REFUSED_TOLD"))
        told = (int)number(getenv("REFUSED_TOLD"));
    ready = 1;
}

static int is_refused(void)
{
    if (!ready || atomic_fetch_add(&asked, 1) + 1 != refused)
        return 0;
    if (told >= 0 && write(told, "r", 1) < 0)
        told = -1;
    errno = ENOMEM;
    return 1;
}

void *malloc(size_t size)
{
    return is_refused() ? NULL : __libc_malloc(size);
}

void *calloc(size_t count, size_t size)
{
    return is_refused() ? NULL : __libc_calloc(count, size);
}

void *realloc(void *old, size_t size)
{
    return is_refused() ? NULL : __libc_realloc(old, size);
}

void *memalign(size_t alignment, size_t size)
{
    return is_refused() ? NULL : __libc_memalign(alignment, size);
}

void *aligned_alloc(size_t alignment, size_t size)
{
    return is_refused() ? NULL : __libc_memalign(alignment, size);
}

int posix_memalign(void **place, size_t alignment, size_t size)
{
    void *given = is_refused() ? NULL : __libc_memalign(alignment, size);
    if (!given)
        return ENOMEM;
    *place = given;
    return 0;
}
