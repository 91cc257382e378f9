/* What a run meets seldom, done to a program that is started with this in LD_PRELOAD. The environment says what:
   SLOW_MKDIR=N    the program waits so many microseconds before it makes a folder, so that another one is first
   GONE_AT_LOOK=P  what has the path P vanishes before the program asks what it is
   GONE_AT_OPEN=P  the same before the program opens it */
#define _GNU_SOURCE
#include <fcntl.h>
#include <stdarg.h>
#include <stddef.h>
#include <stdio.h>
#include <stdlib.h>
#include <string.h>
#include <sys/stat.h>
#include <sys/syscall.h>
#include <unistd.h>

int mkdir(const char *path, mode_t mode)
{
    const char *wait = getenv("SLOW_MKDIR");

    if (wait)
        usleep(atoi(wait));
    return mkdirat(AT_FDCWD, path, mode);
}

/* Whether a path is the one that a variable names, perhaps with "./" before it and a slash at its end. */
static int is_named(const char *variable, const char *path)
{
    const char *named = getenv(variable);
    size_t length = named ? strlen(named) : 0;

    if (strncmp(path, "./", 2) == 0)
        path += 2;
    return named && strncmp(path, named, length) == 0 && (path[length] == 0 || strcmp(path + length, "/") == 0);
}

static void vanish(const char *variable, const char *path)
{
    if (is_named(variable, path))
        remove(getenv(variable));
}

int statx(int folder, const char *path, int flags, unsigned int mask, struct statx *found)
{
    vanish("GONE_AT_LOOK", path);
    return syscall(SYS_statx, folder, path, flags, mask, found);
}

int openat(int folder, const char *path, int flags, ...)
{
    va_list more;
    mode_t mode;

    va_start(more, flags);
    mode = va_arg(more, mode_t);
    va_end(more);
    vanish("GONE_AT_OPEN", path);
    return syscall(SYS_openat, folder, path, flags, mode);
}

int open(const char *path, int flags, ...)
{
    va_list more;
    mode_t mode;

    va_start(more, flags);
    mode = va_arg(more, mode_t);
    va_end(more);
    vanish("GONE_AT_OPEN", path);
    return syscall(SYS_openat, AT_FDCWD, path, flags, mode);
}
