/* A load of etcd by gRPC: of each tenant one connection to a member, and where that breaks, to the next one. */
#define _GNU_SOURCE
#include "load.h"
#include "stream.h"
#include <netdb.h>
#include <nghttp2/nghttp2.h>
#include <stdio.h>
#include <stdlib.h>
#include <string.h>

enum { MEMBERS = 8, READ = 65536, WINDOW = 1 << 28, MOST_OPEN = 1000, MOST_LONG = 330 };
static const double AGAIN = 0.1;        /* seconds from one attempt at a connection, or at a request that failed, to the next */

static struct connection {
    struct stream stream;
    nghttp2_session *http;
    int member, open;           /* open: requests of which nobody waits for the answer */
    double next_try;
    bool is_wanted;
} connections[TENANTS];
static SSL_CTX *context;
static struct { struct sockaddr_storage address; socklen_t length; } members[MEMBERS];
static int members_many;
static const char LONG_KEY[] = "ann/long";

/* A message of protobuf for Put or Range, after the five bytes that gRPC has before each. */
enum { GRPC_HEAD = 5, KEY = 40, FIELD = 6 };     /* FIELD: bytes at most before those of a field */
struct message { size_t length, went; unsigned char bytes[]; };

static void add_field(struct message *it, int number, const void *bytes, size_t length) {
    it->bytes[it->length++] = (unsigned char)(8 * number + 2);
    for (size_t left = length; it->bytes[it->length++] = (unsigned char)(left & 127) | (left > 127 ? 128 : 0), left > 127;) left >>= 7;
    memcpy(it->bytes + it->length, bytes, length), it->length += length;
}

static ssize_t give(nghttp2_session *http, int32_t stream, uint8_t *to, size_t most, uint32_t *flags, nghttp2_data_source *source, void *unused) {
    struct message *it = source->ptr;
    size_t many = it->length - it->went < most ? it->length - it->went : most;
    (void)http, (void)stream, (void)unused;
    memcpy(to, it->bytes + it->went, many);
    if ((it->went += many) == it->length) *flags |= NGHTTP2_DATA_FLAG_EOF, free(it);
    return (ssize_t)many;
}

#define HEADER(name, value) {(uint8_t *)(name), (uint8_t *)(value), strlen(name), strlen(value), NGHTTP2_NV_FLAG_NONE}

static int32_t submit(struct connection *to, const char *key, const unsigned char *content, size_t size, struct client *client) {
    struct message *it = calloc(1, sizeof *it + GRPC_HEAD + FIELD + KEY + FIELD + size);
    if (!it) return 0;
    it->length = GRPC_HEAD;
    add_field(it, 1, key, strlen(key));
    if (content) add_field(it, 2, content, size);
    for (int i = 1; i < GRPC_HEAD; i++) it->bytes[i] = (unsigned char)((it->length - GRPC_HEAD) >> 8 * (GRPC_HEAD - 1 - i));
    const nghttp2_nv head[] = {HEADER(":method", "POST"), HEADER(":scheme", "https"), HEADER(":path", content ? "/etcdserverpb.KV/Put" : "/etcdserverpb.KV/Range"),
                               HEADER(":authority", "localhost"), HEADER("content-type", "application/grpc"), HEADER("te", "trailers")};
    const nghttp2_data_provider data = {.source.ptr = it, .read_callback = give};
    return nghttp2_submit_request(to->http, NULL, head, sizeof head / sizeof *head, &data, client);
}

static int header(nghttp2_session *http, const nghttp2_frame *frame, const uint8_t *name, size_t length, const uint8_t *value, size_t bytes, uint8_t flags, void *at) {
    struct client *it = nghttp2_session_get_stream_user_data(http, frame->hd.stream_id);
    (void)flags, (void)at;
    if (it && length == strlen("grpc-status") && !memcmp(name, "grpc-status", length)) it->succeeded = bytes == 1 && *value == '0';
    return 0;
}

static int stream_closed(nghttp2_session *http, int32_t stream, uint32_t error, void *at) {
    struct client *it = nghttp2_session_get_stream_user_data(http, stream);
    (void)error;
    if (!it) ((struct connection *)at)->open--, answers_many++;
    else if (it->stream == stream) {
        it->stream = 0;
        if (it->succeeded) done(it);
        else it->again = now() + AGAIN;
    }
    return 0;
}

static ssize_t send_bytes(nghttp2_session *http, const uint8_t *bytes, size_t length, int flags, void *at) {
    struct connection *it = at;
    (void)http, (void)flags;
    return write_later(&it->stream, (const char *)bytes, length) ? (ssize_t)length : NGHTTP2_ERR_CALLBACK_FAILURE;
}

static void ready(struct stream *stream) {
    struct connection *it = (struct connection *)stream;
    nghttp2_session_callbacks *calls;
    nghttp2_session_callbacks_new(&calls);
    nghttp2_session_callbacks_set_send_callback(calls, send_bytes);
    nghttp2_session_callbacks_set_on_header_callback(calls, header);
    nghttp2_session_callbacks_set_on_stream_close_callback(calls, stream_closed);
    nghttp2_session_client_new(&it->http, calls, it);
    nghttp2_session_callbacks_del(calls);
    nghttp2_submit_settings(it->http, NGHTTP2_FLAG_NONE, NULL, 0);
    nghttp2_session_set_local_window_size(it->http, NGHTTP2_FLAG_NONE, 0, WINDOW);
}

static void closed(struct stream *stream) {
    struct connection *it = (struct connection *)stream;
    it->member = (it->member + 1) % members_many, it->next_try = now() + AGAIN;
    it->open = 0;
    for (int i = 0; i < clients_many; i++)
        if (&connections[clients[i].tenant] == it && clients[i].stream) clients[i].stream = 0, clients[i].again = it->next_try + AGAIN;
}

static void readable(struct stream *stream) {
    struct connection *it = (struct connection *)stream;
    static uint8_t bytes[READ];
    do {
        int came = read_some(stream, (char *)bytes, sizeof bytes);
        if (came <= 0) return;
        if (nghttp2_session_mem_recv(it->http, bytes, (size_t)came) < 0) {
            close_stream(stream, "no HTTP/2");
            return;
        }
    } while (stream->state == OPEN && stream->more);
}

static bool read_members(const char *where) {
    char words[600], *rest = words;
    snprintf(words, sizeof words, "%s", where);
    for (char *word; (word = strsep(&rest, ",")) && members_many < MEMBERS; members_many++) {
        struct addrinfo *found, wanted = {.ai_socktype = SOCK_STREAM};
        char *colon = strrchr(word, ':');
        if (!colon || (*colon = 0, getaddrinfo(word, colon + 1, &wanted, &found))) return false;
        memcpy(&members[members_many].address, found->ai_addr, members[members_many].length = found->ai_addrlen);
        freeaddrinfo(found);
    }
    return members_many > 0;
}

bool engine_begin(const char *where, const char *folder) {
    char authority[500];
    snprintf(authority, sizeof authority, "%s/ca.crt", folder);
    context = SSL_CTX_new(TLS_client_method());
    if (!read_members(where) || !context || !SSL_CTX_load_verify_locations(context, authority, NULL)) return fprintf(stderr, "load: %s, %s: no members, or no authority\n", where, authority), false;
    SSL_CTX_set_mode(context, SSL_MODE_ENABLE_PARTIAL_WRITE | SSL_MODE_ACCEPT_MOVING_WRITE_BUFFER);
    SSL_CTX_set_verify(context, SSL_VERIFY_PEER, NULL);
    SSL_CTX_set_alpn_protos(context, (const unsigned char *)"\2h2", 3);
    for (int i = 0; i < clients_many; i++) {
        struct connection *it = &connections[clients[i].tenant];
        clients[i].state = IS_FREE, it->is_wanted = true, it->member = clients[i].tenant % members_many;
        it->stream.ready = ready, it->stream.readable = readable, it->stream.closed = closed;
    }
    return true;
}

bool engine_is_ready(void) {
    for (int tenant = 0; tenant < TENANTS; tenant++)
        if (connections[tenant].is_wanted && connections[tenant].stream.state != OPEN) return false;
    return true;
}

void engine_ask(struct client *client) {
    struct connection *it = &connections[client->tenant];
    if (client->stream || it->stream.state != OPEN) return;
    char key[KEY];
    client->succeeded = false;
    if (client->is_long) {
        static const unsigned char content[LONG];
        client->stream = submit(it, LONG_KEY, client->is_write ? content : NULL, LONG, client);
        return;
    }
    snprintf(key, sizeof key, "%s/%d", tenants[client->tenant], client->file);
    client->stream = submit(it, key, client->is_write ? client->content : NULL, SIZE, client);
}

/* Asks for a key more of which nobody waits for the answer. */
static bool one_more(struct connection *it, const char *key, int most) {
    if (it->stream.state != OPEN || it->open >= most || submit(it, key, NULL, 0, NULL) <= 0) return false;
    it->open++;
    return true;
}

bool engine_flood(void) {
    static int file;
    char key[KEY];
    snprintf(key, sizeof key, "%s/%d", tenants[0], file = (file + 1) % FILES);
    return one_more(&connections[0], key, MOST_OPEN);
}

long engine_burst(void) {
    long sent = 0;
    for (struct connection *it = connections; it < connections + TENANTS; it++)
        if (it->is_wanted) sent += one_more(it, LONG_KEY, MOST_LONG);
    return sent;
}

void engine_turn(double time) {
    for (int tenant = 0; tenant < TENANTS; tenant++) {
        struct connection *it = &connections[tenant];
        if (it->is_wanted && it->stream.state == CLOSED && time >= it->next_try) {
            if (it->http) nghttp2_session_del(it->http), it->http = NULL;
            it->next_try = time + AGAIN;
            if (!dial(&it->stream, (struct sockaddr *)&members[it->member].address, members[it->member].length, context, "localhost")) it->member = (it->member + 1) % members_many;
        } else if (it->stream.state == OPEN) {
            nghttp2_session_send(it->http);
            if (unwritten(&it->stream)) flush_stream(&it->stream);
        }
        if (it->is_wanted && it->stream.paused != is_deaf) it->stream.paused = is_deaf, mind_stream(&it->stream);
    }
}
