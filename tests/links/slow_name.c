/* getaddrinfo of a carrier that is tried, by the linker's --wrap. One name takes a minute, as if no server of names answered. One has two addresses,
   and nobody is at the first. */
#define _GNU_SOURCE
#include <netdb.h>
#include <string.h>
#include <unistd.h>

int __real_getaddrinfo(const char *name, const char *port, const struct addrinfo *hints, struct addrinfo **found);
int __wrap_getaddrinfo(const char *name, const char *port, const struct addrinfo *hints, struct addrinfo **found);

int __wrap_getaddrinfo(const char *name, const char *port, const struct addrinfo *hints, struct addrinfo **found) {
    if (name && !strcmp(name, "slow.example")) sleep(60);
    if (!name || strcmp(name, "two.example")) return __real_getaddrinfo(name, port, hints, found);
    struct addrinfo *second;
    int wrong = __real_getaddrinfo("127.0.0.9", port, hints, found);
    if (wrong || (wrong = __real_getaddrinfo("127.0.0.1", port, hints, &second))) return wrong;
    struct addrinfo *last = *found;
    while (last->ai_next) last = last->ai_next;
    last->ai_next = second;
    return 0;
}
