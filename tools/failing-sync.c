/* Makes the syncs of filesd fail, for tools/try-hostile, which preloads it: while the file is there that FAILING_SYNC names, each sync
 * answers that the disk has a fault. */
#define _GNU_SOURCE
#include <dlfcn.h>
#include <errno.h>
#include <stdlib.h>
#include <unistd.h>

static int sync_by(const char *name, int file)
{
    const char *flag = getenv("FAILING_SYNC");

    if (flag && access(flag, F_OK) == 0) {
        errno = EIO;
        return -1;
    }
    return ((int (*)(int))dlsym(RTLD_NEXT, name))(file);
}

int fsync(int file)
{
    return sync_by("fsync", file);
}

int fdatasync(int file)
{
    return sync_by("fdatasync", file);
}
