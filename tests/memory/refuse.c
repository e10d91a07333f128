/* An allocator that is loaded before the C library's, and refuses a request of the program that it is loaded into.

   REFUSE_FROM is the number of the first request that is refused, from 1 on; all others before it are granted. Unless
   REFUSE_ALL is set, the later ones are granted too. REFUSE_REPORT names a file that is made when a request is refused. */
#define _GNU_SOURCE
#include <errno.h>
#include <fcntl.h>
#include <stdatomic.h>
#include <stddef.h>
#include <stdlib.h>
#include <unistd.h>

extern void *__libc_malloc(size_t size);
extern void *__libc_calloc(size_t count, size_t size);
extern void *__libc_realloc(void *old, size_t size);
extern void *__libc_memalign(size_t alignment, size_t size);

static atomic_ulong asked;
static unsigned long from;
static int refuses_all;
static const char *report;

__attribute__((constructor)) static void begin(void)
{
    const char *word = getenv("REFUSE_FROM");
    from = word ? strtoul(word, NULL, 10) : 0;
    refuses_all = getenv("REFUSE_ALL") != NULL;
    report = getenv("REFUSE_REPORT");
    atomic_store(&asked, 0);
}

/* Whether this request is refused. */
static int refused(void)
{
    unsigned long number = atomic_fetch_add(&asked, 1) + 1;
    if (from == 0 || number < from || (number > from && !refuses_all))
        return 0;
    if (number == from && report != NULL) {
        int made = open(report, O_CREAT | O_WRONLY, 0600);
        if (made >= 0)
            close(made);
    }
    errno = ENOMEM;
    return 1;
}

void *malloc(size_t size)
{
    return refused() ? NULL : __libc_malloc(size);
}

void *calloc(size_t count, size_t size)
{
    return refused() ? NULL : __libc_calloc(count, size);
}

void *realloc(void *old, size_t size)
{
    return refused() ? NULL : __libc_realloc(old, size);
}

void *memalign(size_t alignment, size_t size)
{
    return refused() ? NULL : __libc_memalign(alignment, size);
}

void *aligned_alloc(size_t alignment, size_t size)
{
    return memalign(alignment, size);
}

int posix_memalign(void **place, size_t alignment, size_t size)
{
    void *made = memalign(alignment, size);
    if (made == NULL)
        return ENOMEM;
    *place = made;
    return 0;
}
