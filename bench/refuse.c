/* Refuses one allocation of the program that it is preloaded into: the one whose number, from 1,
   stands in REFUSED_ALLOCATION. Says on standard error that it did. */
#include <stdatomic.h>
#include <stddef.h>
#include <stdlib.h>
#include <unistd.h>

extern void *__libc_malloc(size_t size);
extern void *__libc_realloc(void *block, size_t size);

static const char told[] = "refused\n";
static unsigned long wanted;
static atomic_ulong count;

/* What is allocated before the program begins isn't counted. */
__attribute__((constructor)) static void begin(void)
{
    const char *number = getenv("REFUSED_ALLOCATION");
    atomic_store(&count, 0);
    wanted = number ? strtoul(number, NULL, 10) : 0;
}

static int is_refused(void)
{
    if (wanted == 0 || atomic_fetch_add(&count, 1) + 1 != wanted)
        return 0;
    return write(STDERR_FILENO, told, sizeof told - 1) > 0;
}

void *malloc(size_t size)
{
    return is_refused() ? NULL : __libc_malloc(size);
}

void *realloc(void *block, size_t size)
{
    return is_refused() ? NULL : __libc_realloc(block, size);
}
