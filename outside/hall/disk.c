// A disk with faults for a hall to be preloaded with. While a file of the name stands in the folder DISK_FAULTS:
//   fsync      waiting until the disk has it fails, for files
//   once       the same once: the file goes then
//   folder     the same for folders
//   ftruncate  nothing can be cut off
//   full       half of a write is done, and the next fails
//   short      a write moves seven bytes at most
//   nothing    a write moves no byte
#define _GNU_SOURCE
#include <errno.h>
#include <stdio.h>
#include <stdlib.h>
#include <sys/stat.h>
#include <sys/syscall.h>
#include <unistd.h>

static char name[4096];

static int is(const char *fault) {
    const char *folder = getenv("DISK_FAULTS");
    return folder && snprintf(name, sizeof name, "%s/%s", folder, fault) < (int)sizeof name && access(name, F_OK) == 0;
}

static int failed(int number) {
    errno = number;
    return -1;
}

int fsync(int fd) {
    struct stat seen;
    int folder = fstat(fd, &seen) == 0 && S_ISDIR(seen.st_mode);
    if (!folder && is("once") && unlink(name) == 0)
        return failed(EIO);
    return is(folder ? "folder" : "fsync") ? failed(EIO) : (int)syscall(SYS_fsync, fd);
}

int ftruncate(int fd, off_t length) {
    return is("ftruncate") ? failed(EROFS) : (int)syscall(SYS_ftruncate, fd, length);
}

int ftruncate64(int fd, off_t length) {
    return ftruncate(fd, length);
}

ssize_t pwrite(int fd, const void *data, size_t count, off_t at) {
    static int halved;
    if (is("nothing"))
        return 0;
    if (is("full") && (halved = !halved) == 0)
        return failed(ENOSPC);
    if (is("full") && count > 1)
        count /= 2;
    if (is("short") && count > 7)
        count = 7;
    return syscall(SYS_pwrite64, fd, data, count, at);
}

ssize_t pwrite64(int fd, const void *data, size_t count, off_t at) {
    return pwrite(fd, data, count, at);
}
