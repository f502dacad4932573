/* Refuses one growth of a program: the one of the number in REFUSE, counted from 1 over malloc and realloc; with REFUSE_ON that one and
   all after it. Where it came to that growth it makes the file named in REFUSED. For glibc, to be preloaded; tools/refusals.py builds
   and uses it. */
#include <errno.h>
#include <fcntl.h>
#include <stdatomic.h>
#include <stdlib.h>
#include <unistd.h>

extern void *__libc_malloc(size_t size);
extern void *__libc_realloc(void *block, size_t size);

static atomic_long growths;

static int is_refused(void)
{
    const char *number = getenv("REFUSE");
    const char *met = getenv("REFUSED");
    if (number == NULL)
        return 0;
    long first = strtol(number, NULL, 10);
    long growth = atomic_fetch_add(&growths, 1) + 1;
    if (growth < first || (growth > first && getenv("REFUSE_ON") == NULL))
        return 0;
    if (met != NULL) {
        int file = open(met, O_CREAT | O_WRONLY, 0600);
        if (file >= 0)
            close(file);
    }
    errno = ENOMEM;
    return 1;
}

void *malloc(size_t size)
{
    return is_refused() ? NULL : __libc_malloc(size);
}

void *realloc(void *block, size_t size)
{
    return is_refused() ? NULL : __libc_realloc(block, size);
}
