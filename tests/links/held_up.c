/* SSL_do_handshake of a carrier that is tried, by the linker's --wrap: the process is held up between two calls of it. So a client's last message of the
   handshake and its first line have come by the second one, as on a busy machine. */
#define _GNU_SOURCE
#include <openssl/ssl.h>
#include <unistd.h>

int __real_SSL_do_handshake(SSL *ssl);
int __wrap_SSL_do_handshake(SSL *ssl);

int __wrap_SSL_do_handshake(SSL *ssl) {
    int done = __real_SSL_do_handshake(ssl);
    if (done == 1 || !SSL_is_server(ssl) || !SSL_want_read(ssl)) return done;
    usleep(300000);
    return __real_SSL_do_handshake(ssl);
}
