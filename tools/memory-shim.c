/* Refuses an allocation of filesd, for tools/try-memory, which preloads it.
 *
 * REFUSED_ALLOCATION is the number of the one that fails, from 1 on; with REFUSED_MORE=1 all behind it fail too. Once one has failed the
 * file is there that REFUSED_NOTE names: the program ends without calling what a library may leave for its end. */
#include <errno.h>
#include <fcntl.h>
#include <stdatomic.h>
#include <stdlib.h>
#include <unistd.h>

void *__libc_malloc(size_t size);
void *__libc_realloc(void *old, size_t size);

static atomic_ulong asked;
static unsigned long refused, more;

static unsigned long number(const char *name)
{
    const char *text = getenv(name);

    return text ? strtoul(text, NULL, 10) : 0;
}

__attribute__((constructor)) static void begin(void)
{
    refused = number("REFUSED_ALLOCATION");
    more = number("REFUSED_MORE");
    asked = 0;
}

static int is_refused(void)
{
    unsigned long one = atomic_fetch_add(&asked, 1) + 1;

    if (refused == 0 || (more ? one < refused : one != refused))
        return 0;
    if (one == refused)
        close(open(getenv("REFUSED_NOTE"), O_WRONLY | O_CREAT | O_CLOEXEC, 0600));
    errno = ENOMEM;
    return 1;
}

void *malloc(size_t size)
{
    return is_refused() ? NULL : __libc_malloc(size);
}

void *realloc(void *old, size_t size)
{
    return is_refused() ? NULL : __libc_realloc(old, size);
}
