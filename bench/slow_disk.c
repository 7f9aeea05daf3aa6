/* A disk whose syncs take long: it is loaded before the C library, by LD_PRELOAD, into the process of a node.

   After each fsync and fdatasync of a file it waits so many milliseconds as WAIT says, and counts it in the first 8 bytes of the file that
   COUNT names, which several processes may share. */
#define _GNU_SOURCE
#include <fcntl.h>
#include <stdatomic.h>
#include <stdlib.h>
#include <sys/mman.h>
#include <sys/syscall.h>
#include <time.h>
#include <unistd.h>

static struct timespec wait;
static _Atomic unsigned long *count;

__attribute__((constructor)) static void at_start(void) {
    const char *milliseconds = getenv("WAIT"), *name = getenv("COUNT");
    long given = milliseconds ? atol(milliseconds) : 0;
    wait = (struct timespec){given / 1000, given % 1000 * 1000000};
    int file = name ? open(name, O_RDWR) : -1;
    void *page = file < 0 ? MAP_FAILED : mmap(NULL, sizeof *count, PROT_READ | PROT_WRITE, MAP_SHARED, file, 0);
    count = page == MAP_FAILED ? NULL : page;
}

static int synced(int file, long call) {
    int status = syscall(call, file);
    struct timespec left = wait;
    while (nanosleep(&left, &left))
        ;
    if (count) atomic_fetch_add(count, 1);
    return status;
}

int fsync(int file) { return synced(file, SYS_fsync); }
int fdatasync(int file) { return synced(file, SYS_fdatasync); }
