/* Has each fsync and fdatasync of a program, and of those that it starts, take SLOW_SYNC milliseconds more, as on a slower disk. Made by cc -shared -fPIC,
   and named by LD_PRELOAD. */
#define _GNU_SOURCE
#include <dlfcn.h>
#include <errno.h>
#include <stdlib.h>
#include <time.h>

static int slowly(const char *name, int file)
{
    int (*sync)(int) = (int (*)(int)) dlsym(RTLD_NEXT, name);
    int told = sync(file), error = errno;
    const char *slow = getenv("SLOW_SYNC");
    double milliseconds = slow ? atof(slow) : 0;
    struct timespec rest = {(time_t) (milliseconds / 1e3), (long) (milliseconds * 1e6) % 1000000000L};
    while (nanosleep(&rest, &rest) == -1 && errno == EINTR) {
    }
    errno = error;
    return told;
}

int fsync(int file)
{
    return slowly("fsync", file);
}

int fdatasync(int file)
{
    return slowly("fdatasync", file);
}
