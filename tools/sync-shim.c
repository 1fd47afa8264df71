/* Makes nginx's PUTs durable, for tools/bench, which preloads it into nginx.
 *
 * nginx writes a body to a temporary file and renames it, and syncs neither. What it answered may be gone after a crash, so its PUTs
 * can't be compared with ones that are on the disk before they are answered. With this its rename first syncs the file, and then the
 * folder that the new name is in. */
#define _GNU_SOURCE
#include <dlfcn.h>
#include <fcntl.h>
#include <libgen.h>
#include <stdio.h>
#include <string.h>
#include <unistd.h>

static int sync_and_close(int file, int (*sync)(int))
{
    int failed = file < 0 || sync(file) != 0;

    if (file >= 0)
        close(file);
    return failed ? -1 : 0;
}

int rename(const char *from, const char *to)
{
    int (*next)(const char *, const char *) = (int (*)(const char *, const char *))dlsym(RTLD_NEXT, "rename");
    char path[4096];

    if (strlen(to) >= sizeof path || sync_and_close(open(from, O_RDONLY | O_CLOEXEC), fdatasync) != 0 || next(from, to) != 0)
        return -1;
    return sync_and_close(open(dirname(strcpy(path, to)), O_RDONLY | O_DIRECTORY | O_CLOEXEC), fsync);
}
