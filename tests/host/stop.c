/*
 * Loaded before the floor: at its STOP_AT-th write to the night's file (each pwrite, fsync and ftruncate counts) something happens, by
 * STOP_HOW: `before` the process is killed first, `half` after half of the bytes, `after` behind the whole; `fail` the call fails, and so do
 * all that follow but ftruncate; `dead` as `fail`, but ftruncate fails too. The file STOP_LOG gets a letter for each: w, s, t.
 */
#define _GNU_SOURCE
#include <dlfcn.h>
#include <errno.h>
#include <fcntl.h>
#include <signal.h>
#include <stdlib.h>
#include <string.h>
#include <unistd.h>

static int calls;

static int is(const char *how) { return getenv("STOP_HOW") && strcmp(getenv("STOP_HOW"), how) == 0; }
static int at(void) { return getenv("STOP_AT") ? atoi(getenv("STOP_AT")) : 0; }
static void stop(void) { kill(getpid(), SIGKILL); }

/* Counts a call, and logs its letter. */
static void counted(const char *letter) {
    int log = getenv("STOP_LOG") ? open(getenv("STOP_LOG"), O_WRONLY | O_CREAT | O_APPEND, 0666) : -1;
    calls++;
    if (log >= 0 && write(log, letter, 1) != 1) stop();
    if (log >= 0) close(log);
}

static int fails(void) {
    errno = ENOSPC;
    return (is("fail") || is("dead")) && calls >= at();
}

ssize_t pwrite(int file, const void *bytes, size_t length, off_t to) {
    ssize_t (*real)(int, const void *, size_t, off_t) = (ssize_t(*)(int, const void *, size_t, off_t))dlsym(RTLD_NEXT, "pwrite");
    counted("w");
    if (fails()) return -1;
    if (calls == at() && is("before")) stop();
    if (calls == at() && is("half")) real(file, bytes, length / 2, to), stop();
    ssize_t put = real(file, bytes, length, to);
    if (calls == at() && is("after")) stop();
    return put;
}

int fsync(int file) {
    int (*real)(int) = (int (*)(int))dlsym(RTLD_NEXT, "fsync");
    counted("s");
    if (fails()) return -1;
    if (calls == at() && (is("before") || is("half"))) stop();
    int result = real(file);
    if (calls == at() && is("after")) stop();
    return result;
}

int ftruncate(int file, off_t length) {
    int (*real)(int, off_t) = (int (*)(int, off_t))dlsym(RTLD_NEXT, "ftruncate");
    counted("t");
    if (fails() && (is("dead") || calls == at())) return -1;
    if (calls == at() && (is("before") || is("half"))) stop();
    int result = real(file, length);
    if (calls == at() && is("after")) stop();
    return result;
}
