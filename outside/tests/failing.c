// What a database asks of the disk, to be preloaded: from a call that is named by its number, files of one folder fail.
// armed() says which call, how, and where; counted() how many there were since. Calls on other files are let through.
#define _GNU_SOURCE
#include <errno.h>
#include <limits.h>
#include <signal.h>
#include <stdio.h>
#include <string.h>
#include <sys/syscall.h>
#include <unistd.h>

enum { NONE, ONCE, ALWAYS, FULL, KILLED };

static char folder[PATH_MAX];
static long at, calls;
static int how;

void armed(const char *where, long number, int manner) {
    snprintf(folder, sizeof folder, "%s", where);
    at = number, how = manner, calls = 0;
}

long counted(void) { return calls; }

// Whether a call on this file fails now. Who is killed is killed before it is done.
static int fails(const char *file, int writes) {
    if (how == NONE || strncmp(file, folder, strlen(folder)) != 0)
        return 0;
    calls++;
    if (calls < at || (how == ONCE && calls > at))
        return 0;
    if (how == KILLED)
        kill(getpid(), SIGKILL);
    if (how == FULL && !writes)
        return 0;
    errno = how == FULL ? ENOSPC : EIO;
    return 1;
}

static int opened_fails(int fd, int writes) {
    char link[32], file[PATH_MAX];
    snprintf(link, sizeof link, "/proc/self/fd/%d", fd);
    ssize_t length = readlink(link, file, sizeof file - 1);
    file[length < 0 ? 0 : length] = 0;
    return fails(file, writes);
}

int fsync(int fd) { return opened_fails(fd, 0) ? -1 : syscall(SYS_fsync, fd); }
int fdatasync(int fd) { return opened_fails(fd, 0) ? -1 : syscall(SYS_fdatasync, fd); }
int ftruncate(int fd, off_t size) { return opened_fails(fd, 0) ? -1 : syscall(SYS_ftruncate, fd, size); }
int ftruncate64(int fd, off_t size) { return ftruncate(fd, size); }
int unlink(const char *file) { return fails(file, 0) ? -1 : syscall(SYS_unlink, file); }
ssize_t write(int fd, const void *data, size_t size) {
    return opened_fails(fd, 1) ? -1 : syscall(SYS_write, fd, data, size);
}
ssize_t pwrite(int fd, const void *data, size_t size, off_t place) {
    return opened_fails(fd, 1) ? -1 : syscall(SYS_pwrite64, fd, data, size, place);
}
ssize_t pwrite64(int fd, const void *data, size_t size, off_t place) { return pwrite(fd, data, size, place); }
