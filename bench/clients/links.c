/* A load over links: of each tenant one connection to each node. */
#define _GNU_SOURCE
#include "load.h"
#include "stream.h"
#include <netdb.h>
#include <stdio.h>
#include <string.h>

enum { RECORD = 16384, PART = 4096, MOST_WAITS = 1 << 18 };
static const double AGAIN = 0.1;        /* seconds from one attempt at a connection to the next */

static struct link {
    struct stream stream;
    int tenant, node;
    double next_try;
    char part[PART + RECORD];           /* a line that has not ended, and what is read behind it */
    size_t held;
} links[TENANTS][NODES];
static SSL_CTX *contexts[TENANTS];
static struct { struct sockaddr_storage address; socklen_t length; } places[NODES];

static void ready(struct stream *it) { (void)it; }

static void closed(struct stream *stream) {
    struct link *it = (struct link *)stream;
    it->held = 0, it->next_try = now() + AGAIN;
}

static void readable(struct stream *stream) {
    struct link *it = (struct link *)stream;
    do {
        int came = read_some(stream, it->part + it->held, RECORD);
        if (came <= 0) return;
        size_t held = it->held + (size_t)came;
        char *last = memrchr(it->part, '\n', held);
        size_t lines = last ? (size_t)(last + 1 - it->part) : 0;
        if (held - lines > PART) held = lines + PART;   /* (what is wanted of a line is at its head) */
        if (lines) hear(it->tenant, it->part, lines - 1);
        memmove(it->part, it->part + lines, it->held = held - lines);
    } while (stream->state == OPEN && stream->more);
}

static bool read_places(const char *path) {
    char line[600], host[300];
    int node;
    FILE *file = fopen(path, "r");
    while (file && fgets(line, sizeof line, file)) {
        if (*line == '#' || sscanf(line, "%d %*s %299s", &node, host) != 2 || node < 0 || node >= NODES) continue;
        struct addrinfo *found, wanted = {.ai_socktype = SOCK_STREAM};
        char *colon = strrchr(host, ':');
        if (!colon || (*colon = 0, getaddrinfo(host, colon + 1, &wanted, &found))) break;
        memcpy(&places[node].address, found->ai_addr, places[node].length = found->ai_addrlen);
        freeaddrinfo(found);
        nodes_many = node + 1 > nodes_many ? node + 1 : nodes_many;
    }
    if (file) fclose(file);
    return nodes_many > 0;
}

static SSL_CTX *context_of(const char *folder, const char *tenant) {
    char authority[500], certificate[500], key[500];
    SSL_CTX *context = SSL_CTX_new(TLS_client_method());
    snprintf(authority, sizeof authority, "%s/ca.crt", folder);
    snprintf(certificate, sizeof certificate, "%s/secret/%s.crt", folder, tenant);
    snprintf(key, sizeof key, "%s/secret/%s.key", folder, tenant);
    if (!context || !SSL_CTX_load_verify_locations(context, authority, NULL) || SSL_CTX_use_certificate_file(context, certificate, SSL_FILETYPE_PEM) != 1 ||
        SSL_CTX_use_PrivateKey_file(context, key, SSL_FILETYPE_PEM) != 1)
        return NULL;
    SSL_CTX_set_mode(context, SSL_MODE_ENABLE_PARTIAL_WRITE | SSL_MODE_ACCEPT_MOVING_WRITE_BUFFER);
    SSL_CTX_set_verify(context, SSL_VERIFY_PEER, NULL);
    return context;
}

bool engine_begin(const char *where, const char *folder) {
    if (!read_places(where)) return fprintf(stderr, "load: %s: no places of nodes\n", where), false;
    for (int i = 0; i < clients_many; i++) {
        int tenant = clients[i].tenant;
        if (!contexts[tenant] && !(contexts[tenant] = context_of(folder, tenants[tenant]))) return fprintf(stderr, "load: %s: no certificate of %s\n", folder, tenants[tenant]), false;
        struct link *it = &links[tenant][home_of(&clients[i])];
        it->tenant = tenant, it->node = home_of(&clients[i]);
        it->stream.ready = ready, it->stream.readable = readable, it->stream.closed = closed;
    }
    begin_sessions();
    return true;
}

bool engine_is_ready(void) { return all_free(); }

void engine_ask(struct client *client) {
    struct stream *it = &links[client->tenant][home_of(client)].stream;
    static char line[LINE + 1];
    size_t length = line_of(client, line);
    line[length++] = '\n';
    if (it->state == OPEN) write_later(it, line, length);
}

bool engine_flood(void) {
    static int node;
    struct stream *it = &links[0][node = (node + 1) % nodes_many].stream;
    static char line[LINE + 1];
    size_t length = flood_line(line);
    line[length++] = '\n';
    return it->state == OPEN && unwritten(it) < MOST_WAITS && write_later(it, line, length);
}

long engine_burst(void) {
    static char lines[LINE];
    static int asked;           /* so many clients have asked */
    if (asked == clients_many) return 0;
    const struct client *client = &clients[asked++];
    struct stream *it = &links[client->tenant][home_of(client)].stream;
    return it->state == OPEN && write_later(it, lines, burst_of(client, lines)) ? BURST : 0;
}

void engine_turn(double time) {
    char name[sizeof "node" + 3];
    for (struct link *it = links[0]; it < links[TENANTS]; it++) {
        if (!it->stream.ready) continue;
        if (it->stream.state == CLOSED && time >= it->next_try) {
            snprintf(name, sizeof name, "node%d", it->node % NODES);
            it->next_try = time + AGAIN;
            dial(&it->stream, (struct sockaddr *)&places[it->node].address, places[it->node].length, contexts[it->tenant], name);
        } else if (it->stream.state == OPEN && unwritten(&it->stream)) flush_stream(&it->stream);
        if (it->stream.paused != is_deaf) it->stream.paused = is_deaf, mind_stream(&it->stream);
    }
}
