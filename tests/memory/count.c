/* Counts a program's requests for memory, and refuses one of them: it is loaded before the C library, by LD_PRELOAD.

   With REFUSE=N in the environment the Nth request, from 1, is refused; with REFUSE=N+ all from there on. At the end of the
   program, also where it ends by _exit, a line "ASKED HELD" is put at the end of the file that COUNT names: how many requests
   there were, and how many of the blocks that they gave were not given back. Threads may ask at once. */
#define _GNU_SOURCE
#include <errno.h>
#include <fcntl.h>
#include <stddef.h>
#include <stdio.h>
#include <stdlib.h>
#include <string.h>
#include <sys/syscall.h>
#include <unistd.h>

extern void *__libc_malloc(size_t);
extern void *__libc_calloc(size_t, size_t);
extern void *__libc_realloc(void *, size_t);
extern void __libc_free(void *);

static unsigned long asked;
static long held;
static long refused = -1; /* the number of the request to be refused, 0 for none */
static int onwards;       /* whether all that follow it are refused too */

static int is_refused(void) {
    if (refused < 0) {
        const char *text = getenv("REFUSE");
        refused = text ? atol(text) : 0;
        onwards = text && strchr(text, '+');
    }
    unsigned long number = __atomic_add_fetch(&asked, 1, __ATOMIC_SEQ_CST);
    unsigned long first = (unsigned long)refused;
    if (refused > 0 && (number == first || (onwards && number > first))) {
        errno = ENOMEM;
        return 1;
    }
    return 0;
}

static void hold(long blocks) { __atomic_add_fetch(&held, blocks, __ATOMIC_SEQ_CST); }

void *malloc(size_t size) {
    void *block = is_refused() ? NULL : __libc_malloc(size);
    if (block) hold(1);
    return block;
}

void *calloc(size_t count, size_t size) {
    void *block = is_refused() ? NULL : __libc_calloc(count, size);
    if (block) hold(1);
    return block;
}

void *realloc(void *old, size_t size) {
    void *block = is_refused() ? NULL : __libc_realloc(old, size);
    if (block && !old) hold(1);
    return block;
}

void free(void *block) {
    if (block) hold(-1);
    __libc_free(block);
}

__attribute__((destructor)) static void tell(void) {
    const char *name = getenv("COUNT");
    if (!name) return;
    char line[64];
    int length = snprintf(line, sizeof line, "%lu %ld\n", asked, held);
    int file = open(name, O_WRONLY | O_CREAT | O_APPEND, 0644);
    if (file < 0) return;
    if (write(file, line, length) != length) abort();
    close(file);
}

/* (a program that may start threads ends in this way) */
void _exit(int status) {
    tell();
    for (;;) syscall(SYS_exit_group, status);
}
