#define _GNU_SOURCE
#include "loop.h"
#include <time.h>

enum { EVENTS = 64 };           /* of one wait */
static int loop = -1;

double now(void) {
    struct timespec moment;
    clock_gettime(CLOCK_MONOTONIC, &moment);
    return (double)moment.tv_sec + (double)moment.tv_nsec / 1e9;
}

bool loop_begin(void) { return (loop = epoll_create1(EPOLL_CLOEXEC)) >= 0; }

void watch(struct watch *it, uint32_t events) {
    struct epoll_event event = {.events = events, .data.ptr = it};
    if (it->events == events) return;
    epoll_ctl(loop, !events ? EPOLL_CTL_DEL : it->events ? EPOLL_CTL_MOD : EPOLL_CTL_ADD, it->fd, &event);
    it->events = events;
}

/* What is closed in a turn is freed only in the next one. So no event is for something that is gone. */
bool loop_once(double seconds, const sigset_t *mask) {
    struct epoll_event came[EVENTS];
    int many = epoll_pwait(loop, came, EVENTS, seconds <= 0 ? 0 : (int)(seconds * 1000) + 1, mask);
    for (int i = 0; i < many; i++) {
        struct watch *it = came[i].data.ptr;
        if (it->events) it->call(it, came[i].events);
    }
    return many >= 0;
}
