/* Counts the threads that a program asks for, and refuses some of them: it is loaded before the C library, by LD_PRELOAD.

   For each thread a byte is put at the end of the file that COUNT names. With REFUSE=N in the environment the Nth, from 1, and
   all that follow it are refused. Threads may ask at once. */
#define _GNU_SOURCE
#include <dlfcn.h>
#include <errno.h>
#include <fcntl.h>
#include <pthread.h>
#include <stdlib.h>
#include <unistd.h>

typedef int creates(pthread_t *, const pthread_attr_t *, void *(*)(void *), void *);

static long asked;

int pthread_create(pthread_t *thread, const pthread_attr_t *attributes, void *(*start)(void *), void *given) {
    creates *create = (creates *)dlsym(RTLD_NEXT, "pthread_create");
    const char *refuse = getenv("REFUSE");
    long number = __atomic_add_fetch(&asked, 1, __ATOMIC_SEQ_CST);
    int file = open(getenv("COUNT"), O_WRONLY | O_CREAT | O_APPEND, 0644);
    if (file < 0 || write(file, "x", 1) != 1) abort();
    close(file);
    if (refuse && number >= atol(refuse)) return EAGAIN;
    return create(thread, attributes, start, given);
}
