/* Put before a program with LD_PRELOAD: its reads and writes are short. Each takes at most so many bytes as SHORT_READ and SHORT_WRITE of
   the environment say; after FULL_AFTER bytes nothing more can be written. */
#define _GNU_SOURCE
#include <errno.h>
#include <stdlib.h>
#include <sys/syscall.h>
#include <unistd.h>

static size_t at_most(const char *word, size_t n) {
    const char *s = getenv(word);
    size_t most = s ? strtoul(s, NULL, 10) : n;
    return n < most ? n : most;
}

ssize_t read(int fd, void *to, size_t n) { return syscall(SYS_read, fd, to, at_most("SHORT_READ", n)); }

ssize_t write(int fd, const void *from, size_t n) {
    static size_t written;
    if (fd != 1) return syscall(SYS_write, fd, from, n);
    size_t left = at_most("FULL_AFTER", written + n) - written;
    if (left == 0) {
        errno = ENOSPC;
        return -1;
    }
    n = at_most("SHORT_WRITE", n < left ? n : left);
    ssize_t k = syscall(SYS_write, fd, from, n);
    if (k > 0) written += (size_t)k;
    return k;
}
