#define _GNU_SOURCE
#include "stream.h"
#include <errno.h>
#include <netinet/in.h>
#include <netinet/tcp.h>
#include <openssl/err.h>
#include <openssl/x509v3.h>
#include <stdio.h>
#include <stdlib.h>
#include <string.h>
#include <unistd.h>

enum {
    RECORD = 16384,             /* bytes of a TLS record */
    ODD = 32                    /* messages without data that may come at once; over a longer time one a second */
};

void close_stream(struct stream *it, const char *why) {
    if (it->state == CLOSED) return;
    snprintf(it->why, sizeof it->why, "%s", why);
    watch(&it->watch, 0);
    it->more = it->blocked = false;
    if (it->ssl) {
        if (it->state == OPEN) SSL_shutdown(it->ssl);
        SSL_free(it->ssl);
    }
    close(it->watch.fd);
    ERR_clear_error();
    it->ssl = NULL, it->watch.fd = -1, it->state = CLOSED;
    it->closed(it);             /* (this may count what was not written) */
    free(it->out);
    it->out = NULL, it->first = it->end = it->room = 0;
}

/* Closes the stream after a call of TLS has failed; false where the call only has to be made again. */
static bool failed(struct stream *it, int result) {
    int kind = SSL_get_error(it->ssl, result), error = errno;
    if (kind == SSL_ERROR_WANT_READ || kind == SSL_ERROR_WANT_WRITE) return false;
    if (it->odd_until > now() + ODD) {
        close_stream(it, "too many messages without data");
        return true;
    }
    long wrong = SSL_get_verify_result(it->ssl);
    const char *told = ERR_reason_error_string(ERR_peek_error());
    if (kind == SSL_ERROR_ZERO_RETURN) close_stream(it, "ended");
    else if (it->state == SHAKING && wrong != X509_V_OK) close_stream(it, X509_verify_cert_error_string(wrong));
    else if (told) close_stream(it, told);
    else close_stream(it, kind == SSL_ERROR_SYSCALL && error ? strerror(error) : "ended");
    return true;
}

void mind_stream(struct stream *it) {
    if (it->state == CLOSED) return;
    uint32_t wanted = (it->paused || it->blocked) && it->state == OPEN ? 0 : EPOLLIN;
    if (it->blocked || it->state == DIALING || (it->state == SHAKING && SSL_want_write(it->ssl)) || (it->state == OPEN && unwritten(it))) wanted |= EPOLLOUT;
    watch(&it->watch, wanted ? wanted : EPOLLERR);     /* (which epoll reports in any case) */
}

static void shake(struct stream *it) {
    ERR_clear_error();
    int result = SSL_do_handshake(it->ssl);
    if (result != 1) {
        if (!failed(it, result)) mind_stream(it);
        return;
    }
    it->state = OPEN, it->since = now(), it->more = true;
    it->ready(it);
    mind_stream(it);
}

static void happened(struct watch *at, uint32_t events) {
    struct stream *it = (struct stream *)at;
    if (it->state == DIALING) {
        int error = 0;
        socklen_t size = sizeof error;
        getsockopt(at->fd, SOL_SOCKET, SO_ERROR, &error, &size);
        if (error) {
            close_stream(it, strerror(error));
            return;
        }
        if (!(events & EPOLLOUT)) return;
        it->state = SHAKING;
    }
    if (it->state == SHAKING) {
        shake(it);
        if (it->state == OPEN) events |= EPOLLIN;       /* (data may have come with the last message of the handshake) */
    }
    if (it->blocked && events & EPOLLOUT) it->blocked = false, events |= EPOLLIN, mind_stream(it);
    if (it->state == OPEN && it->paused && events & (EPOLLHUP | EPOLLERR)) close_stream(it, "reset");
    if (it->state == OPEN && events & (EPOLLIN | EPOLLHUP | EPOLLERR) && !it->paused) it->readable(it);
    if (it->state == OPEN && events & EPOLLOUT) flush_stream(it);
}

/* A message of TLS without data, such as a new key, costs much more than its bytes, and SSL_read goes on over such messages for as long as they come.
   Whoever sends many is cut off: SSL_read looks at the shutdown flag before each record, and the connection then ends. */
static void count_message(int is_written, int version, int kind, const void *bytes, size_t length, SSL *ssl, void *at) {
    struct stream *it = at;
    (void)version, (void)bytes, (void)length;
    if (is_written || kind != SSL3_RT_HANDSHAKE || it->state != OPEN) return;
    double time = now();
    it->odd_until = (it->odd_until < time ? time : it->odd_until) + 1;
    if (it->odd_until > time + ODD) SSL_set_shutdown(ssl, SSL_RECEIVED_SHUTDOWN);
}

static bool begin(struct stream *it, int fd, SSL_CTX *context, const char *host) {
    int one = 1;
    unsigned silence = 8000;    /* milliseconds in which the other end has to acknowledge what was sent */
    setsockopt(fd, IPPROTO_TCP, TCP_NODELAY, &one, sizeof one);
    setsockopt(fd, SOL_SOCKET, SO_KEEPALIVE, &one, sizeof one);
    setsockopt(fd, IPPROTO_TCP, TCP_KEEPIDLE, &(int){3}, sizeof(int));
    setsockopt(fd, IPPROTO_TCP, TCP_KEEPINTVL, &(int){1}, sizeof(int));
    setsockopt(fd, IPPROTO_TCP, TCP_KEEPCNT, &(int){4}, sizeof(int));
    setsockopt(fd, IPPROTO_TCP, TCP_USER_TIMEOUT, &silence, sizeof silence);
    it->watch = (struct watch){.fd = fd, .call = happened};
    it->since = now(), it->paused = it->more = it->blocked = false, it->odd_until = 0, *it->why = 0;
    it->ssl = SSL_new(context);
    if (!it->ssl || !SSL_set_fd(it->ssl, fd) || (host && !(SSL_set_tlsext_host_name(it->ssl, host) && SSL_set1_host(it->ssl, host)))) {
        snprintf(it->why, sizeof it->why, "out of memory");
        SSL_free(it->ssl), close(fd), ERR_clear_error();
        it->ssl = NULL, it->watch.fd = -1;
        return false;
    }
    SSL_set_msg_callback(it->ssl, count_message), SSL_set_msg_callback_arg(it->ssl, it);
    return true;
}

bool dial(struct stream *it, const struct sockaddr *address, socklen_t length, SSL_CTX *context, const char *host) {
    int fd = socket(address->sa_family, SOCK_STREAM | SOCK_NONBLOCK | SOCK_CLOEXEC, 0);
    if (fd < 0) return snprintf(it->why, sizeof it->why, "%s", strerror(errno)), false;
    if (connect(fd, address, length) && errno != EINPROGRESS) {
        snprintf(it->why, sizeof it->why, "%s", strerror(errno));
        close(fd);
        return false;
    }
    if (!begin(it, fd, context, host)) return false;
    SSL_set_connect_state(it->ssl);
    it->state = DIALING, it->dialed = true;
    mind_stream(it);
    return true;
}

bool take(struct stream *it, int fd, SSL_CTX *context) {
    if (!begin(it, fd, context, NULL)) return false;
    SSL_set_accept_state(it->ssl);
    it->state = SHAKING, it->dialed = false;
    shake(it);
    if (it->state == OPEN && !it->paused) it->readable(it);     /* (all may have come at once: no event comes for what TLS has read ahead) */
    return true;
}

int read_some(struct stream *it, char *to, size_t most) {
    it->more = false;
    ERR_clear_error();
    int came = SSL_read(it->ssl, to, (int)most);
    if (came > 0) {
        it->more = SSL_has_pending(it->ssl);
        return came;
    }
    if (failed(it, came) || !SSL_want_write(it->ssl)) return 0;     /* (TLS holds no whole record now: an event comes with the next bytes) */
    it->blocked = true, it->since = now();      /* (else the same event would come again and again) */
    mind_stream(it);
    return 0;
}

bool write_later(struct stream *it, const char *bytes, size_t length) {
    if (it->end + length > it->room) {
        size_t stay = unwritten(it);
        if (it->first >= stay + length) {
            memmove(it->out, it->out + it->first, stay);
            it->first = 0, it->end = stay;
        } else {
            size_t room = (it->end + length) / 2 * 3 + 1024;
            char *out = realloc(it->out, room);
            if (!out) return false;
            it->out = out, it->room = room;
        }
    }
    if (!unwritten(it)) it->since = now();
    memcpy(it->out + it->end, bytes, length);
    it->end += length;
    return true;
}

void flush_stream(struct stream *it) {
    while (it->state == OPEN && unwritten(it)) {
        size_t most = unwritten(it) < RECORD ? unwritten(it) : RECORD;
        ERR_clear_error();
        int went = SSL_write(it->ssl, it->out + it->first, (int)most);
        if (went <= 0) {
            if (failed(it, went)) return;
            break;
        }
        it->first += (size_t)went, it->since = now();
    }
    if (it->state != OPEN) return;
    if (it->first == it->end) {
        it->first = it->end = 0;
        if (it->room > 4 * RECORD) free(it->out), it->out = NULL, it->room = 0;
    } else if (it->room > 4 * RECORD && it->room / 8 > unwritten(it)) {     /* (else many streams could each keep much for a few bytes) */
        size_t stay = unwritten(it);
        memmove(it->out, it->out + it->first, stay);
        it->first = 0, it->end = stay;
        char *out = realloc(it->out, 2 * stay + 1024);
        if (out) it->out = out, it->room = 2 * stay + 1024;
    }
    mind_stream(it);
}
