/* Makes some of the calls fail by which filesd writes its store, for tools/crash, which preloads it: while the file is there that
 * FAILING_CALLS names, one of FAILING_ONE_OF writes, syncs and changes of a length of a regular file answers that the disk is full or has a
 * fault, and does nothing, or as a write only its first half. The file gets a byte for each that failed. */
#define _GNU_SOURCE
#include <dlfcn.h>
#include <errno.h>
#include <fcntl.h>
#include <stdlib.h>
#include <sys/stat.h>
#include <unistd.h>

static ssize_t (*next_pwrite)(int, const void *, size_t, off_t);

static int fails(int file)
{
    static __thread unsigned state;
    const char *flag = getenv("FAILING_CALLS"), *one_of = getenv("FAILING_ONE_OF");
    struct stat found;
    int count;

    if (!next_pwrite)
        next_pwrite = (ssize_t (*)(int, const void *, size_t, off_t))dlsym(RTLD_NEXT, "pwrite");
    if (!flag || !one_of || fstat(file, &found) != 0 || !S_ISREG(found.st_mode))
        return 0;
    count = open(flag, O_WRONLY | O_APPEND | O_CLOEXEC);
    if (count < 0)
        return 0;
    if (state == 0)
        state = (unsigned)getpid() * 2654435761u ^ (unsigned)(size_t)&state;
    state = state * 1664525u + 1013904223u;
    if ((state >> 8) % (unsigned)atoi(one_of) != 0) {
        close(count);
        return 0;
    }
    if (next_pwrite(count, "x", 1, 0) < 0)
        state++;
    close(count);
    errno = state >> 31 ? EIO : ENOSPC;
    return 1;
}

ssize_t pwrite(int file, const void *bytes, size_t size, off_t at)
{
    if (fails(file)) {
        int why = errno;
        if (size > 1 && next_pwrite(file, bytes, size / 2, at) < 0)
            why = EIO;
        errno = why;
        return -1;
    }
    return next_pwrite(file, bytes, size, at);
}

int ftruncate(int file, off_t size)
{
    return fails(file) ? -1 : ((int (*)(int, off_t))dlsym(RTLD_NEXT, "ftruncate"))(file, size);
}

int fsync(int file)
{
    return fails(file) ? -1 : ((int (*)(int))dlsym(RTLD_NEXT, "fsync"))(file);
}

int fdatasync(int file)
{
    return fails(file) ? -1 : ((int (*)(int))dlsym(RTLD_NEXT, "fdatasync"))(file);
}
