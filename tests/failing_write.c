/* A library to preload: calls that a program makes to write a file fail.
 *
 *     cc -shared -fPIC -O1 -Wall -Wextra -Werror -o failing_write.so tests/failing_write.c -ldl
 *     FAIL_CALL_IN=loader FAIL_CALL=fsync LD_PRELOAD=./failing_write.so ./loader read TEXT PACK
 *
 * Only the process of that short name is hit. FAIL_CALL has one or more of these words:
 *
 *     write   the disk is full after 8 bytes: one write takes so many, the next fails with ENOSPC
 *     close   closes a descriptor that is open for writing alone, and fails with EIO
 *     fsync, rename, unlink, getentropy   fail with EIO
 *
 * The standard descriptors, up to 2, are passed through.
 */
#define _GNU_SOURCE
#include <dlfcn.h>
#include <errno.h>
#include <fcntl.h>
#include <stdio.h>
#include <stdlib.h>
#include <string.h>
#include <sys/random.h>
#include <sys/syscall.h>
#include <unistd.h>

/* Whether this call is to fail here; no word is a part of another. */
static int hit(const char *call)
{
    const char *name = getenv("FAIL_CALL_IN");
    const char *which = getenv("FAIL_CALL");
    return name && which && !strcmp(name, program_invocation_short_name) && strstr(which, call);
}

static int fails(int error)
{
    errno = error;
    return -1;
}

ssize_t write(int descriptor, const void *buffer, size_t size)
{
    static size_t left = 8;
    ssize_t put;
    if (descriptor <= 2 || !hit("write"))
        return syscall(SYS_write, descriptor, buffer, size);
    if (left == 0)
        return fails(ENOSPC);
    put = syscall(SYS_write, descriptor, buffer, size < left ? size : left);
    if (put > 0)
        left -= (size_t)put;
    return put;
}

int fsync(int descriptor)
{
    return hit("fsync") ? fails(EIO) : (int)syscall(SYS_fsync, descriptor);
}

int close(int descriptor)
{
    int failing = descriptor > 2 && (fcntl(descriptor, F_GETFL) & O_ACCMODE) == O_WRONLY && hit("close");
    int closed = (int)syscall(SYS_close, descriptor);
    return failing ? fails(EIO) : closed;
}

int rename(const char *from, const char *to)
{
    return hit("rename") ? fails(EIO) : (int)syscall(SYS_rename, from, to);
}

int unlink(const char *name)
{
    return hit("unlink") ? fails(EIO) : (int)syscall(SYS_unlink, name);
}

int getentropy(void *buffer, size_t size)
{
    int (*next)(void *, size_t);
    if (hit("getentropy"))
        return fails(EIO);
    *(void **)&next = dlsym(RTLD_NEXT, "getentropy");
    return next(buffer, size);
}
