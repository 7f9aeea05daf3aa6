/* A load over a broker of MQTT: of each tenant one connection. */
#define _GNU_SOURCE
#include "load.h"
#include "loop.h"
#include <mosquitto.h>
#include <stdio.h>
#include <stdlib.h>
#include <string.h>
#include <unistd.h>

enum { KEEPALIVE = 5, MOST_MESSAGES = 500, MOST_FLOOD = 64 };
static const double AGAIN = 0.1;        /* seconds from one attempt at a connection to the next */

static struct connection {
    struct watch watch;
    struct mosquitto *broker;
    int tenant;
    bool is_wanted, is_here;
    double next_try;
} connections[TENANTS];
static char host[300];
static int port;

static void connected(struct mosquitto *broker, void *at, int result) {
    struct connection *it = at;
    char topic[40];
    snprintf(topic, sizeof topic, "gridfs/%s/+", tenants[it->tenant]);
    it->is_here = !result && !mosquitto_subscribe(broker, NULL, topic, 0);
}

static void message(struct mosquitto *broker, void *at, const struct mosquitto_message *it) {
    (void)broker;
    if (it->payloadlen > 0) hear(((struct connection *)at)->tenant, it->payload, (size_t)it->payloadlen);
}

static void use(struct connection *it, uint32_t events) {
    int result = MOSQ_ERR_SUCCESS;
    if (events & EPOLLIN && !is_deaf) result = mosquitto_loop_read(it->broker, MOST_MESSAGES);
    if (!result && mosquitto_want_write(it->broker)) result = mosquitto_loop_write(it->broker, 1);
    if (!result && !is_deaf) result = mosquitto_loop_misc(it->broker);   /* (which ends a connection that brings nothing) */
    if (!result && !(events & (EPOLLERR | EPOLLHUP))) return;
    it->is_here = false, it->watch.events = 0, it->next_try = now() + AGAIN;     /* (the library has closed its socket) */
}

static void happened(struct watch *it, uint32_t events) { use((struct connection *)it, events); }

/* (The broker is on this machine, so that a connection is there or refused at once.) */
static void try_again(struct connection *it, double time) {
    it->next_try = time + AGAIN;
    if (mosquitto_connect(it->broker, host, port, KEEPALIVE)) return;
    it->watch = (struct watch){.fd = mosquitto_socket(it->broker), .call = happened};
    watch(&it->watch, EPOLLIN);
}

static struct mosquitto *broker_of(struct connection *it, const char *folder) {
    char path[500], authority[500], password[300] = "";
    snprintf(path, sizeof path, "%s/secret/%s", folder, tenants[it->tenant]), snprintf(authority, sizeof authority, "%s/ca.crt", folder);
    FILE *file = fopen(path, "r");
    if (!file || !fgets(password, sizeof password, file)) return NULL;
    fclose(file), password[strcspn(password, "\n")] = 0;
    struct mosquitto *broker = mosquitto_new(NULL, true, it);
    if (!broker || mosquitto_username_pw_set(broker, tenants[it->tenant], password)) return NULL;
    if (!access(authority, R_OK) && mosquitto_tls_set(broker, authority, NULL, NULL, NULL, NULL)) return NULL;
    mosquitto_int_option(broker, MOSQ_OPT_TCP_NODELAY, 1);
    mosquitto_connect_callback_set(broker, connected), mosquitto_message_callback_set(broker, message);
    return broker;
}

bool engine_begin(const char *where, const char *folder) {
    if (sscanf(where, "%299[^:]:%d", host, &port) != 2) return fprintf(stderr, "load: %s: HOST:PORT is wanted\n", where), false;
    mosquitto_lib_init();
    for (int i = 0; i < clients_many; i++) {
        struct connection *it = &connections[clients[i].tenant];
        it->is_wanted = true, it->tenant = clients[i].tenant;
        if (!it->broker && !(it->broker = broker_of(it, folder))) return fprintf(stderr, "load: %s: no password of %s\n", folder, tenants[it->tenant]), false;
    }
    nodes_many = 4;     /* (of the plan of beside-etcd) */
    begin_sessions();
    return true;
}

bool engine_is_ready(void) { return all_free(); }

static bool publish(struct connection *it, int node, const char *line, size_t length) {
    char topic[40];
    snprintf(topic, sizeof topic, "gridfs/%d/%s", node, tenants[it->tenant]);
    return it->is_here && !mosquitto_publish(it->broker, NULL, topic, (int)length, line, 0, false);
}

void engine_ask(struct client *client) {
    static char line[LINE];
    publish(&connections[client->tenant], home_of(client), line, line_of(client, line));
}

bool engine_flood(void) {
    static unsigned many;
    static char line[LINE];
    size_t length = flood_line(line);
    return !mosquitto_want_write(connections[0].broker) && ++many % MOST_FLOOD && publish(&connections[0], (int)(many % (unsigned)nodes_many), line, length);
}

long engine_burst(void) {
    static char lines[LINE];
    static int asked;           /* so many clients have asked */
    if (asked == clients_many) return 0;
    const struct client *client = &clients[asked++];
    return publish(&connections[client->tenant], home_of(client), lines, burst_of(client, lines) - 1) ? BURST : 0;
}

void engine_turn(double time) {
    for (struct connection *it = connections; it < connections + TENANTS; it++) {
        if (!it->is_wanted) continue;
        if (!it->watch.events && time >= it->next_try) try_again(it, time);
        if (!it->watch.events) continue;
        use(it, 0);
        uint32_t wanted = (is_deaf ? 0 : EPOLLIN) | (mosquitto_want_write(it->broker) ? EPOLLOUT : 0);
        if (it->watch.events) watch(&it->watch, wanted ? wanted : EPOLLERR);    /* (which epoll reports in any case) */
    }
}
