/* Notes what filesd writes and hasn't synced, for tools/crash --power, which preloads it: before each write and each change of a length of a
 * regular file the file that LOSING_WRITES names gets a record of what was there, and behind each sync one that says so. From that
 * tools/power.py takes back what a loss of power may lose.
 *
 * A record: kind (0 a write, 1 a sync, 2 a change of the length), the length of the path, the offset, how many bytes are written there, the
 * file's length before, and how many bytes were there; then the path, and these bytes. */
#define _GNU_SOURCE
#include <dlfcn.h>
#include <fcntl.h>
#include <pthread.h>
#include <stdint.h>
#include <stdio.h>
#include <stdlib.h>
#include <string.h>
#include <sys/stat.h>
#include <sys/uio.h>
#include <unistd.h>

struct __attribute__((packed)) record {
    uint32_t kind, path;
    uint64_t at, size, length, bytes;
};

static pthread_mutex_t lock = PTHREAD_MUTEX_INITIALIZER;

static void *next_call(const char *name)
{
    return dlsym(RTLD_NEXT, name);
}

/* Appends a record, where the file is one to be noted. What can't be noted ends the program: it would be no trial. */
static void note(uint32_t kind, int file, uint64_t at, uint64_t size)
{
    const char *name = getenv("LOSING_WRITES");
    char link[64], path[4096];
    struct stat found;
    ssize_t length;
    struct record record = {kind, 0, at, size, 0, 0};
    char *old = NULL;
    int log;

    if (!name || fstat(file, &found) != 0 || !S_ISREG(found.st_mode))
        return;
    snprintf(link, sizeof link, "/proc/self/fd/%d", file);
    length = readlink(link, path, sizeof path);
    if (length <= 0)
        return;
    record.path = (uint32_t)length;
    record.length = (uint64_t)found.st_size;
    if (kind == 2)
        record.size = record.length > at ? record.length - at : 0;
    if (kind != 1 && at < record.length) {
        record.bytes = record.length - at < record.size ? record.length - at : record.size;
        old = malloc(record.bytes + 1);
        if (!old || pread(file, old, record.bytes, (off_t)at) != (ssize_t)record.bytes)
            _exit(99);
    }
    struct iovec parts[3] = {{&record, sizeof record}, {path, (size_t)length}, {old, record.bytes}};
    pthread_mutex_lock(&lock);
    log = open(name, O_WRONLY | O_APPEND | O_CREAT | O_CLOEXEC, 0600);
    if (log < 0 || writev(log, parts, 3) != (ssize_t)(sizeof record + (size_t)length + record.bytes))
        _exit(99);
    close(log);
    pthread_mutex_unlock(&lock);
    free(old);
}

ssize_t pwrite(int file, const void *bytes, size_t size, off_t at)
{
    note(0, file, (uint64_t)at, size);
    return ((ssize_t (*)(int, const void *, size_t, off_t))next_call("pwrite"))(file, bytes, size, at);
}

int ftruncate(int file, off_t size)
{
    note(2, file, (uint64_t)size, 0);
    return ((int (*)(int, off_t))next_call("ftruncate"))(file, size);
}

int fsync(int file)
{
    int failed = ((int (*)(int))next_call("fsync"))(file);
    if (!failed)
        note(1, file, 0, 0);
    return failed;
}

int fdatasync(int file)
{
    int failed = ((int (*)(int))next_call("fdatasync"))(file);
    if (!failed)
        note(1, file, 0, 0);
    return failed;
}
