/* Preloaded into the bench program by tests/program: faults of reading standard input and of writing standard output
   that a disk or a signal seldom makes. The environment says which:
     SHORT_READS, SHORT_WRITES   a call moves this many bytes at most
     INTERRUPTED                 each second call is interrupted before it moves a byte
     FAILING_READ, FAILING_WRITE this call fails, counted from 1; those after it would not */
#define _GNU_SOURCE
#include <errno.h>
#include <stdlib.h>
#include <sys/syscall.h>
#include <unistd.h>

static size_t setting(const char *name)
{
    const char *text = getenv(name);
    return text ? strtoul(text, NULL, 10) : 0;
}

/* How many bytes the call may move, or 0 where it fails. */
static size_t allowed(size_t count, size_t most, size_t call, size_t failing)
{
    if (call == failing) {
        errno = EIO;
        return 0;
    }
    if (setting("INTERRUPTED") && call % 2 == 1) {
        errno = EINTR;
        return 0;
    }
    return most && most < count ? most : count;
}

/* Lowers the count of a call on the descriptor `faulty`, and says whether the call fails. Other calls are left alone. */
static int fails(int fd, int faulty, size_t *count, size_t *calls, const char *most, const char *failing)
{
    if (fd != faulty || *count == 0)
        return 0;
    *count = allowed(*count, setting(most), ++*calls, setting(failing));
    return *count == 0;
}

ssize_t read(int fd, void *bytes, size_t count)
{
    static size_t calls;
    return fails(fd, 0, &count, &calls, "SHORT_READS", "FAILING_READ") ? -1 : syscall(SYS_read, fd, bytes, count);
}

ssize_t write(int fd, const void *bytes, size_t count)
{
    static size_t calls;
    return fails(fd, 1, &count, &calls, "SHORT_WRITES", "FAILING_WRITE") ? -1 : syscall(SYS_write, fd, bytes, count);
}
