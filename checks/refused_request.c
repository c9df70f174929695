/* To be preloaded into a program, as by LD_PRELOAD: of its requests for memory the one is refused whose number, from 1 on,
 * the variable REFUSED_REQUEST holds. */
#include <errno.h>
#include <stddef.h>
#include <stdlib.h>

/* The C library's own. */
void *__libc_malloc(size_t size);
void *__libc_realloc(void *block, size_t size);

static unsigned long refused;
static unsigned long made;

__attribute__((constructor)) static void read_number(void)
{
    const char *number = getenv("REFUSED_REQUEST");
    if (number != NULL)
        refused = strtoul(number, NULL, 10);
}

static int is_refused(void)
{
    if (__atomic_add_fetch(&made, 1, __ATOMIC_RELAXED) != refused)
        return 0;
    errno = ENOMEM;
    return 1;
}

void *malloc(size_t size)
{
    return is_refused() ? NULL : __libc_malloc(size);
}

void *realloc(void *block, size_t size)
{
    return is_refused() ? NULL : __libc_realloc(block, size);
}
