/* Preloaded into a program: the growth number REFUSE of the heap that it asks for is refused, or each of those that EACH names in turn
   (each.h), and with REFUSE_ALL each one from there on. At the program's end it writes to the file descriptor REFUSE_TOLD how often it asked. */
#include "each.h"
#include <malloc.h>
#include <stddef.h>
#include <stdio.h>

extern void *__libc_malloc(size_t);
extern void *__libc_calloc(size_t, size_t);
extern void *__libc_realloc(void *, size_t);
extern void *__libc_memalign(size_t, size_t);

static long wanted = -1, asked, all;

static int is_refused(void)
{
    if (wanted < 0) {
        const char *number = getenv("REFUSE");
        wanted = number ? strtol(number, NULL, 10) : 0;
        all = getenv("REFUSE_ALL") != NULL;
        each_settle();
    }
    asked += 1;
    if (each_fails(asked))
        wanted = asked;
    return wanted != 0 && (all ? asked >= wanted : asked == wanted);
}

__attribute__((destructor)) static void tell(void)
{
    const char *number = getenv("REFUSE_TOLD");
    if (number && !each.is_copy)
        dprintf((int)strtol(number, NULL, 10), "%ld", asked);
}

void *malloc(size_t size) { return is_refused() ? NULL : __libc_malloc(size); }

void *calloc(size_t count, size_t size) { return is_refused() ? NULL : __libc_calloc(count, size); }

void *aligned_alloc(size_t align, size_t size) { return is_refused() ? NULL : __libc_memalign(align, size); }

int posix_memalign(void **out, size_t align, size_t size)
{
    if (is_refused())
        return 12;
    *out = __libc_memalign(align, size);
    return *out ? 0 : 12;
}

void *realloc(void *old, size_t size)
{
    if (old && size <= malloc_usable_size(old))
        return __libc_realloc(old, size);
    return is_refused() ? NULL : __libc_realloc(old, size);
}
