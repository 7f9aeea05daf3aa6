/* The loop of one thread over descriptors. */
#ifndef LOOP_H
#define LOOP_H
#include <signal.h>
#include <stdbool.h>
#include <stdint.h>
#include <sys/epoll.h>

struct watch {                  /* a descriptor, and what is called when it can be read or written */
    int fd;
    uint32_t events;            /* that are waited for now; 0 where it is not watched */
    void (*call)(struct watch *, uint32_t events);
};

double now(void);
bool loop_begin(void);
void watch(struct watch *it, uint32_t events);
bool loop_once(double seconds, const sigset_t *mask);   /* waits for events and makes their calls; false where a signal came */
#endif
