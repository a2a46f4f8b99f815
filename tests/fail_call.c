/* Lists the calls that a program makes on files by their descriptors, and its renames, in the file that CALLS_LIST names, and fails one of them: the one whose
   number, counted from 1, stands in FAIL_AT. Before the one whose number stands in KILL_AT it is killed. Loaded before the C library (LD_PRELOAD). A call that fails is
   not made. */
#define _GNU_SOURCE
#include <dlfcn.h>
#include <errno.h>
#include <fcntl.h>
#include <signal.h>
#include <stdio.h>
#include <stdlib.h>
#include <sys/file.h>
#include <sys/types.h>
#include <unistd.h>

static unsigned long count;

/* Lists a call with two numbers, and says whether it is the one that fails. */
static int fails(const char *name, long long first, long long second) {
    const char *at = getenv("FAIL_AT");
    const char *list = getenv("CALLS_LIST");
    char text[96];
    count++;
    int failed = at && count == strtoul(at, NULL, 10);
    int length = snprintf(text, sizeof text, "%s %lld %lld%s\n", name, first, second, failed ? " failed" : "");
    int file = list ? open(list, O_WRONLY | O_CREAT | O_APPEND, 0600) : -1;
    if (file < 0 || write(file, text, (size_t)length) != length)
        _exit(99);
    close(file);
    const char *kill_at = getenv("KILL_AT");
    if (kill_at && count == strtoul(kill_at, NULL, 10))
        raise(SIGKILL);
    errno = EIO;
    return failed;
}

#define NEXT(name) ((__typeof__(&name))dlsym(RTLD_NEXT, #name))

int rename(const char *from, const char *to) { return fails("rename", 0, 0) ? -1 : NEXT(rename)(from, to); }

int flock(int file, int how) { return fails("flock", how, 0) ? -1 : NEXT(flock)(file, how); }

int fsync(int file) { return fails("fsync", 0, 0) ? -1 : NEXT(fsync)(file); }

int fdatasync(int file) { return fails("fdatasync", 0, 0) ? -1 : NEXT(fdatasync)(file); }

int ftruncate(int file, off_t length) { return fails("ftruncate", length, 0) ? -1 : NEXT(ftruncate)(file, length); }

int ftruncate64(int file, off64_t length) { return fails("ftruncate", length, 0) ? -1 : NEXT(ftruncate64)(file, length); }

int posix_fadvise(int file, off_t from, off_t length, int advice) {
    return fails("fadvise", from + length, advice) ? EIO : NEXT(posix_fadvise)(file, from, length, advice);
}

int posix_fadvise64(int file, off64_t from, off64_t length, int advice) {
    return fails("fadvise", from + length, advice) ? EIO : NEXT(posix_fadvise64)(file, from, length, advice);
}

ssize_t pread(int file, void *to, size_t length, off_t from) {
    return fails("pread", (long long)length, from) ? -1 : NEXT(pread)(file, to, length, from);
}

ssize_t pread64(int file, void *to, size_t length, off64_t from) {
    return fails("pread", (long long)length, from) ? -1 : NEXT(pread64)(file, to, length, from);
}

ssize_t pwrite(int file, const void *bytes, size_t length, off_t at) {
    return fails("pwrite", (long long)length, at) ? -1 : NEXT(pwrite)(file, bytes, length, at);
}

ssize_t pwrite64(int file, const void *bytes, size_t length, off64_t at) {
    return fails("pwrite", (long long)length, at) ? -1 : NEXT(pwrite64)(file, bytes, length, at);
}
