/* The kernel's read and write as emtrun calls them, linked with its object in place of the C library's: they fail at the calls that the environment names, and move
 * few bytes at a time. FAIL_READ=FROM-TO:ERRNO fails the reads of standard input from number FROM to number TO (from 1) with this error, FAIL_WRITE likewise the writes
 * to standard output; NONE_WRITE=FROM-TO takes nothing in these writes, and fails none; MOST=N moves at most N bytes a call. The true calls are reached as readv and writev. */
#include <errno.h>
#include <stdio.h>
#include <stdlib.h>
#include <sys/uio.h>
#include <unistd.h>

static int failure(const char *name, long call)
{
    const char *said = getenv(name);
    long from, to;
    int error;

    if (said && sscanf(said, "%ld-%ld:%d", &from, &to, &error) == 3 && from <= call && call <= to)
        return error;
    return 0;
}

static int takes_none(long call)
{
    const char *said = getenv("NONE_WRITE");
    long from, to;

    return said && sscanf(said, "%ld-%ld", &from, &to) == 2 && from <= call && call <= to;
}

static size_t at_most(size_t count)
{
    const char *said = getenv("MOST");
    size_t most = said ? strtoul(said, NULL, 10) : count;

    return count < most ? count : most;
}

ssize_t read(int fd, void *bytes, size_t count)
{
    static long calls;
    int error = fd == STDIN_FILENO ? failure("FAIL_READ", ++calls) : 0;

    if (error) {
        errno = error;
        return -1;
    }
    return readv(fd, &(struct iovec){bytes, at_most(count)}, 1);
}

ssize_t write(int fd, const void *bytes, size_t count)
{
    static long calls;
    int error = fd == STDOUT_FILENO ? failure("FAIL_WRITE", ++calls) : 0;

    if (error) {
        errno = error;
        return -1;
    }
    if (fd == STDOUT_FILENO && takes_none(calls))
        return 0;
    return writev(fd, &(struct iovec){(void *)bytes, fd == STDOUT_FILENO ? at_most(count) : count}, 1);
}
