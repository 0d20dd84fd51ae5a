/* Makes each sync of a program take longer, as on a disk that is slower: loaded before the program's own libraries, by LD_PRELOAD.
 *
 * SYNC_MICROSECONDS says by how much. What is written, and that it is synced, stays as it is.
 * cc -O2 -shared -fPIC -o slow_sync.so slow_sync.c -ldl
 */
#define _GNU_SOURCE
#include <dlfcn.h>
#include <stdlib.h>
#include <time.h>

typedef int sync_of(int);

static int slowly(const char *name, int file) {
    const char *said = getenv("SYNC_MICROSECONDS");
    long microseconds = said ? atol(said) : 0;
    struct timespec pause = {microseconds / 1000000, microseconds % 1000000 * 1000};
    int status = ((sync_of *)dlsym(RTLD_NEXT, name))(file);
    nanosleep(&pause, 0);
    return status;
}

int fsync(int file) { return slowly("fsync", file); }

int fdatasync(int file) { return slowly("fdatasync", file); }
