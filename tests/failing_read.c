/* A library to preload: reading fails with EIO after so many bytes.
 *
 *     cc -shared -fPIC -O1 -Wall -Wextra -Werror -o failing_read.so tests/failing_read.c -ldl
 *     FAIL_READ_IN=check FAIL_READ_AFTER=72 LD_PRELOAD=./failing_read.so ./check PACK CERTIFICATE
 *
 * Only the process of that short name is hit, not the shells and tools around it. The bytes are counted over the whole
 * process, over `read` and over files that `fopen` opened to read, and exactly so many are delivered. Where a variable
 * is missing or FAIL_READ_AFTER is no plain number, nothing is changed. Standard input is hit by `read` only.
 */
#define _GNU_SOURCE
#include <ctype.h>
#include <dlfcn.h>
#include <errno.h>
#include <fcntl.h>
#include <stdio.h>
#include <stdlib.h>
#include <string.h>
#include <sys/syscall.h>
#include <unistd.h>

enum state { UNKNOWN, PASSING, COUNTING };

static enum state state = UNKNOWN;
static unsigned long long left;

/* Whether this process is hit; then `left` is set. */
static enum state settle(void)
{
    const char *name = getenv("FAIL_READ_IN");
    const char *after = getenv("FAIL_READ_AFTER");
    char *end;
    if (!name || strcmp(name, program_invocation_short_name) || !after || !isdigit((unsigned char)*after))
        return PASSING;
    errno = 0;
    left = strtoull(after, &end, 10);
    return *end || errno ? PASSING : COUNTING;
}

static int counting(void)
{
    int kept = errno;
    if (state == UNKNOWN)
        state = settle();
    errno = kept;
    return state == COUNTING;
}

ssize_t read(int descriptor, void *buffer, size_t size)
{
    if (!counting())
        return syscall(SYS_read, descriptor, buffer, size);
    if (left == 0) {
        errno = EIO;
        return -1;
    }
    ssize_t got = syscall(SYS_read, descriptor, buffer, size < left ? size : left);
    if (got > 0)
        left -= (unsigned long long)got;
    return got;
}

static ssize_t read_cookie(void *cookie, char *buffer, size_t size)
{
    return read(*(int *)cookie, buffer, size);
}

static int close_cookie(void *cookie)
{
    int closed = close(*(int *)cookie);
    free(cookie);
    return closed;
}

/* A stream over the `read` above: the C library's own streams do not call it. */
static FILE *counted(const char *name)
{
    int *cookie = malloc(sizeof *cookie);
    if (!cookie)
        return NULL;
    *cookie = open(name, O_RDONLY);
    if (*cookie < 0) {
        free(cookie);
        return NULL;
    }
    cookie_io_functions_t functions = {.read = read_cookie, .close = close_cookie};
    return fopencookie(cookie, "r", functions);
}

FILE *fopen(const char *name, const char *mode)
{
    FILE *(*next)(const char *, const char *);
    if (counting() && mode[0] == 'r' && !strchr(mode, '+'))
        return counted(name);
    *(void **)&next = dlsym(RTLD_NEXT, "fopen");
    return next(name, mode);
}
