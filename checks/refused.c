// Refuses one call for memory, the one of the number in REFUSED, counted from 1, and with REFUSED_ON all later ones too.
#include <errno.h>
#include <stdatomic.h>
#include <stddef.h>
#include <stdlib.h>

void *__libc_malloc(size_t);
void *__libc_calloc(size_t, size_t);
void *__libc_realloc(void *, size_t);

static atomic_ulong calls;

static int is_refused(void)
{
    const char *text = getenv("REFUSED");
    const unsigned long call = ++calls, refused = text ? strtoul(text, NULL, 10) : 0;
    if (refused == 0 || call < refused || (call > refused && !getenv("REFUSED_ON")))
        return 0;
    errno = ENOMEM;
    return 1;
}

void *malloc(size_t size) { return is_refused() ? NULL : __libc_malloc(size); }

void *calloc(size_t count, size_t size) { return is_refused() ? NULL : __libc_calloc(count, size); }

void *realloc(void *old, size_t size) { return is_refused() ? NULL : __libc_realloc(old, size); }
