// Makes each sync of a file take a millisecond longer, as a disk does that has to be waited for: LD_PRELOAD=this bench/run --posts.
//   cc -O2 -shared -fPIC -o slow_sync.so bench/slow_sync.c -ldl
#define _GNU_SOURCE
#include <dlfcn.h>
#include <time.h>

static const struct timespec A_MILLISECOND = {0, 1000 * 1000};

typedef int sync_call(int);

int fdatasync(int file)
{
    nanosleep(&A_MILLISECOND, NULL);
    return ((sync_call *)dlsym(RTLD_NEXT, "fdatasync"))(file);
}

int fsync(int file)
{
    nanosleep(&A_MILLISECOND, NULL);
    return ((sync_call *)dlsym(RTLD_NEXT, "fsync"))(file);
}
