// A read for the program to be preloaded with: it moves at most READ_SHORT bytes, is interrupted READ_INTERRUPTS times
// before each read that moves some (-1: always), and fails once READ_FAILS_AFTER bytes are read.
#include <errno.h>
#include <stdlib.h>
#include <sys/syscall.h>
#include <unistd.h>

static long told(const char *name, long otherwise) {
    const char *word = getenv(name);
    return word ? atol(word) : otherwise;
}

ssize_t read(int fd, void *buffer, size_t count) {
    static long done, interrupted;
    long left = told("READ_FAILS_AFTER", -1) - done;
    long most = told("READ_SHORT", -1);
    long interrupts = told("READ_INTERRUPTS", 0);
    if (interrupts < 0 || interrupted < interrupts) {
        interrupted++;
        errno = EINTR;
        return -1;
    }
    interrupted = 0;
    if (getenv("READ_FAILS_AFTER") && left <= 0) {
        errno = EIO;
        return -1;
    }
    if (getenv("READ_FAILS_AFTER") && count > (size_t)left)
        count = left;
    if (most > 0 && count > (size_t)most)
        count = most;
    ssize_t got = syscall(SYS_read, fd, buffer, count);
    if (got > 0)
        done += got;
    return got;
}
