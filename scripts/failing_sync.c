/* A library for LD_PRELOAD, used by scripts/attack-devices: fsync(2) of the file whose name is in the environment variable
 * FAILING_SYNC answers EIO, as a network file system does where bytes that a write took are lost. */
#define _GNU_SOURCE
#include <dlfcn.h>
#include <errno.h>
#include <limits.h>
#include <stdio.h>
#include <stdlib.h>
#include <string.h>
#include <unistd.h>

/* Whether the file that is open as fd has this name, in whatever folder. */
static int is_named(int fd, const char *name)
{
    char link[64], path[PATH_MAX];
    snprintf(link, sizeof link, "/proc/self/fd/%d", fd);
    ssize_t length = readlink(link, path, sizeof path - 1);
    if (length < 0)
        return 0;
    path[length] = 0;
    const char *slash = strrchr(path, '/');
    return slash && strcmp(slash + 1, name) == 0;
}

int fsync(int fd)
{
    int (*real)(int) = (int (*)(int))dlsym(RTLD_NEXT, "fsync");
    const char *name = getenv("FAILING_SYNC");
    if (!name || !is_named(fd, name))
        return real(fd);
    errno = EIO;
    return -1;
}
