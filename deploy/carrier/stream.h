/* Streams of bytes over TCP with TLS. Nothing here waits. */
#ifndef STREAM_H
#define STREAM_H
#include "loop.h"
#include <openssl/ssl.h>
#include <stddef.h>
#include <sys/socket.h>

struct stream {
    struct watch watch;
    enum { CLOSED, DIALING, SHAKING, OPEN } state;
    bool dialed, paused;        /* begun here; nothing is to be read now */
    bool more;                  /* TLS may hold bytes that were read ahead: no event comes for these */
    bool blocked;               /* TLS has to write before it can read on */
    double odd_until;           /* how much of their bound its messages without data have used */
    SSL *ssl;
    char *out;                  /* bytes that wait to be written */
    size_t first, end, room;
    double since;               /* when it began, or when it last wrote something */
    char why[120];              /* the reason why it was closed */
    void (*ready)(struct stream *);                     /* once it is open */
    void (*readable)(struct stream *);
    void (*closed)(struct stream *);
};

bool dial(struct stream *it, const struct sockaddr *address, socklen_t length, SSL_CTX *context, const char *host);
bool take(struct stream *it, int fd, SSL_CTX *context); /* a connection that was accepted */
int read_some(struct stream *it, char *to, size_t most);    /* 0: nothing now, or it was closed */
bool write_later(struct stream *it, const char *bytes, size_t length);  /* false where memory is wanting */
void flush_stream(struct stream *it);
void mind_stream(struct stream *it);                    /* watches for what it needs now */
void close_stream(struct stream *it, const char *why);
static inline size_t unwritten(const struct stream *it) { return it->end - it->first; }
#endif
