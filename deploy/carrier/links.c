/* The engine over links. Each node's carrier has one TLS connection with each other node's carrier, and tenants connect to the nodes
   themselves. Both ends show a certificate of the grid's own authority. Its common name is a node's number or a tenant's name, and no other
   FROM is believed. On a connection each line is a BODY, ended by LF. */
#define _GNU_SOURCE
#include "metrics.h"
#include "node.h"
#include "stream.h"
#include <arpa/inet.h>
#include <errno.h>
#include <netdb.h>
#include <openssl/err.h>
#include <openssl/x509v3.h>
#include <pthread.h>
#include <stdio.h>
#include <stdlib.h>
#include <string.h>
#include <sys/eventfd.h>
#include <sys/resource.h>
#include <sys/stat.h>
#include <time.h>
#include <unistd.h>

enum {
    HOSTS = 320,                /* most other nodes, with those that were replaced */
    SESSIONS = 241,             /* numbers of sessions, with 0 */
    ASKED = 1024,               /* the last looks and requests about chunks of a tenant, of which it is known who made them */
    KEY = 128,                  /* bytes of a line in which what it is about has to stand */
    OF_A_TENANT = 32,           /* most connections of a tenant */
    STUCK = 5,                  /* seconds after which a reader who took nothing does not hold up his tenant's others */
    STRANGERS = 32,             /* most connections of a listener that have not shown a certificate yet */
    NEWCOMERS = 100,            /* connections that a listener takes in a second; twice as many at once */
    CHAIN = 16384,              /* bytes of certificates that the other end may show */
    AGAIN = 60,                 /* seconds until it is told once more that a number is held twice */
    BEGUN = 8192,               /* sessions of which it is known how far they came; of one node 1,024 at most */
    ENDED = 60,                 /* seconds between two looks for certificates that have ended */
    SOON = 30,                  /* days before its end from which on a certificate is reported */
    READ = 16384,               /* bytes of a read: a TLS record */
    SHOW = 5,                   /* seconds in which a certificate has to be shown */
    SLOW = 10,                  /* seconds in which a reader has to take something */
    FILES = 200,                /* descriptors that are kept from tenants */
    PRICE_OF_READ = 400,        /* bytes that each read from a tenant adds in his rate */
    PRICE_OF_GONE = 800         /* and each line of one who is gone */
};

struct link {
    struct stream stream;       /* (first, so that a pointer to it is one to the link) */
    struct peer *peer;          /* NULL until the other end has shown its certificate */
    struct host *host;          /* the node that was dialed */
    struct listener *listener;  /* that took it; NULL from then on when the certificate was shown */
    struct link *next, *later, *writer;     /* in the lists of all, of those with more to read, of those with more to write */
    char *part;                 /* the beginning of a line */
    size_t held, room;          /* bytes of this beginning, and its room */
    double began;               /* when the certificate was shown */
    bool skipping, is_later, is_writer, is_dead, was_told;  /* was_told: that he is gone */
};
struct peer {                   /* a node or a tenant that is connected, or was */
    char name[NAME + 1];
    struct queue *queue;
    struct link *of[OF_A_TENANT], *by_session[SESSIONS];
    struct { uint64_t request; struct link *link; } asked[ASKED];   /* by turns; a link of NULL: it was answered, or has ended */
    size_t many, asked_many;
    bool is_slow;
};
struct host {                   /* another node, as the file of hosts has it */
    char name[NAME + 1], host[256], port[6];
    struct sockaddr_storage address;
    socklen_t length;
    struct link *link;
    double next_try, wait;
    double latest;              /* when the latest certificate begins that it showed, in seconds since 1970 */
    double told_second;         /* when it was told that somebody else holds its number */
    long seconds;               /* how often somebody else held it */
    char told[120];
    bool is_there;              /* its line is in the file */
    bool is_older;              /* it went on from a journal that is older than its last write */
    bool is_looked_up;          /* by a thread, now */
    unsigned failures;          /* attempts at its addresses; the next one after each is tried */
};
struct lookup {                 /* of an address, by a thread of its own: a name may take long */
    struct host *host;
    char name[256], port[6];
    struct addrinfo *found;
    int error;
    struct lookup *next;
};
struct listener {
    struct watch watch;
    bool for_nodes;
    int strangers;
    double newcomers_until;
};

static const char *hosts_file, *ca_file, *certificate, *key, *denied_file, *bind_to = "::";     /* (all addresses; without IPv6 it is 0.0.0.0) */
const char engine_words_usage[] = "--hosts FILE --ca-file FILE --certificate FILE --key FILE [--denied FILE] [--bind ADDRESS]";
const char engine_usage[] =
    "Over links: the file of hosts has a line for each node: its number, HOST:PORT for nodes, HOST:PORT for tenants. The carrier takes\n"
    "connections at both ports of its own line, and dials the nodes with greater numbers. At SIGHUP it reads its files again.\n";
const struct word engine_words[] = {{"--hosts", &hosts_file}, {"--ca-file", &ca_file}, {"--certificate", &certificate},
                                    {"--key", &key}, {"--denied", &denied_file}, {"--bind", &bind_to}, {NULL, NULL}};

static SSL_CTX *context;
static struct host hosts[HOSTS];
static size_t hosts_many;
static struct peer peers[NAMES];
static size_t peers_many;
static struct link *all, *later, *writers;      /* links; those for which TLS holds bytes; those that have something to write */
static struct listener listeners[2] = {{.watch.fd = -1, .for_nodes = true}, {.watch.fd = -1}};
static char own_ports[2][6];
static char (*denied)[48];                      /* serial numbers of certificates that are not taken */
static size_t denied_many;
static int paused, dead;                        /* links that are not read now; links that will be freed */
static size_t of_tenants, most_of_tenants;      /* links, and how many there may be: each takes a descriptor */
static long refused, slow_links;
static char scratch[READ];

static struct watch lookup_end = {.fd = -1};    /* an event: a thread has ended its lookup */
static struct lookup *lookups;                  /* those that have ended */
static pthread_mutex_t lookups_guard = PTHREAD_MUTEX_INITIALIZER;

/* Who is at the other end */

static struct peer *peer_of(const char *name, size_t length, bool is_new) {
    struct peer *empty = NULL;
    for (size_t i = 0; i < peers_many; i++) {
        if (!memcmp(peers[i].name, name, length) && !peers[i].name[length]) return &peers[i];
        if (!peers[i].many && !held(peers[i].queue)) empty = &peers[i];
    }
    if (!is_new) return NULL;
    struct queue *queue = peers_many < NAMES ? queue_of(name, length) : NULL;
    if (queue) empty = &peers[peers_many++];
    else if (empty) empty->queue->users = 0, queue = queue_of(name, length);   /* (there is a free one now) */
    if (!queue) return NULL;
    memset(empty, 0, sizeof *empty);
    memcpy(empty->name, name, length);
    queue->users = 1, empty->queue = queue;
    return empty;
}

static bool is_denied(X509 *shown) {
    bool found = false;
    BIGNUM *number = ASN1_INTEGER_to_BN(X509_get0_serialNumber(shown), NULL);
    char *digits = number ? BN_bn2hex(number) : NULL;
    for (size_t i = 0; digits && i < denied_many; i++) found = found || !strcasecmp(digits, denied[i]);
    OPENSSL_free(digits), BN_free(number);
    return found || !digits;
}

/* Two who hold a node's number: one of them has an old journal, and what it tells may undo what was acknowledged */

static struct host *known_host(const char *name) {
    for (struct host *it = hosts; it < hosts + hosts_many; it++)
        if (!strcmp(it->name, name)) return it;
    return NULL;
}

static double beginning_of(X509 *shown) {
    struct tm begin;
    return ASN1_TIME_to_tm(X509_get0_notBefore(shown), &begin) ? (double)timegm(&begin) : 0;
}

/* The address of the other end; without the port, which each connection has its own of. */
static void other_end(struct link *link, char text[INET6_ADDRSTRLEN]) {
    struct sockaddr_storage at = {.ss_family = AF_UNSPEC};
    socklen_t length = sizeof at;
    bool known = !getpeername(link->stream.watch.fd, (struct sockaddr *)&at, &length);
    const void *four = &((struct sockaddr_in *)&at)->sin_addr, *six = &((struct sockaddr_in6 *)&at)->sin6_addr;
    if (!known || !inet_ntop(at.ss_family, at.ss_family == AF_INET ? four : six, text, INET6_ADDRSTRLEN)) snprintf(text, INET6_ADDRSTRLEN, "an unknown address");
}

static void tell_second(struct host *host, struct link *link, const char *what) {
    char address[INET6_ADDRSTRLEN];
    host->seconds++;
    if (host->told_second && now() < host->told_second + AGAIN) return;
    host->told_second = now();
    other_end(link, address);
    say("node %s is held twice: %s, at %s", host->name, what, address);
}

/* Whether a node may have its number; false where it is known by a later certificate. */
static bool is_latest(struct link *link, struct host *host, double began) {
    if (began < host->latest) return tell_second(host, link, "one with an earlier certificate is refused"), false;
    host->latest = began;
    return true;
}

/* A node comes while one of its number is linked. The other one may be itself, before its network went away. */
static void mind_second(struct link *link, struct peer *peer) {
    struct host *host = known_host(peer->name);
    char here[INET6_ADDRSTRLEN], there[INET6_ADDRSTRLEN];
    other_end(link, here), other_end(peer->of[0], there);
    if (host && strcmp(here, there)) tell_second(host, peer->of[0], "one is left for another one, with a certificate that is no earlier");
}

/* Finds the name in the certificate of the other end; returns what is wrong with it, or NULL. */
static const char *name_of(struct link *link, char *name, size_t room) {
    X509 *shown = SSL_get1_peer_certificate(link->stream.ssl);
    X509_NAME *names = shown ? X509_get_subject_name(shown) : NULL;
    int length = names ? X509_NAME_get_text_by_NID(names, NID_commonName, name, (int)room) : -1;
    if (names && X509_NAME_get_index_by_NID(names, NID_commonName, X509_NAME_get_index_by_NID(names, NID_commonName, -1)) >= 0) length = -1;  /* (two names are none) */
    bool wrong = shown && is_denied(shown);
    double began = shown ? beginning_of(shown) : 0;
    X509_free(shown);
    if (length <= 0 || strlen(name) != (size_t)length || !is_name(name, (size_t)length)) return "no name";
    if (wrong) return "its certificate is denied";
    if (!strcmp(name, me)) return "it has my number";
    if (link->host && strcmp(name, link->host->name)) return "another node is there";
    if (link->listener && link->listener->for_nodes == is_tenant(name)) return "at the wrong port";
    struct host *host = is_tenant(name) ? NULL : known_host(name);
    if (host && host->is_older) return "its journal is older than its last write";
    if (host && !is_latest(link, host, began)) return "its number has another one with a later certificate";
    return NULL;
}

static void unlink_peer(struct link *link) {
    struct peer *peer = link->peer;
    link->peer = NULL;
    if (!peer) return;
    of_tenants -= is_tenant(peer->name);
    for (size_t i = 0; i < peer->many; i++)
        if (peer->of[i] == link) peer->of[i] = peer->of[--peer->many];
    for (size_t i = 0; i < SESSIONS; i++)
        if (peer->by_session[i] == link) peer->by_session[i] = NULL;
    for (size_t i = 0; i < ASKED; i++)
        if (peer->asked[i].link == link) peer->asked[i].link = NULL;
}

static void welcome(struct link *link, const char *name) {
    struct peer *peer = peer_of(name, strlen(name), true);
    if (link->listener) link->listener->strangers--, link->listener = NULL;
    if (peer && peer->many && !is_tenant(name)) mind_second(link, peer);
    if (peer && !is_tenant(name))
        while (peer->many) close_stream(&peer->of[0]->stream, "made again");
    if (!peer || peer->many >= OF_A_TENANT || (is_tenant(name) && of_tenants >= most_of_tenants)) {
        refused++;
        close_stream(&link->stream, "too many");
        return;
    }
    of_tenants += is_tenant(name);
    link->began = now();
    link->peer = peer, peer->of[peer->many++] = link, peer->is_slow = false, count.connected++;
    if (!is_tenant(name)) say("node %s is linked to node %s", me, name);
    if (link->host) *link->host->told = 0;
}

static void ready(struct stream *stream) {
    struct link *link = (struct link *)stream;
    char name[NAME + 2] = "";
    const char *wrong = name_of(link, name, sizeof name);
    if (wrong) close_stream(stream, wrong);
    else welcome(link, name);
}

/* The end of a link */

static void closed(struct stream *stream) {
    struct link *link = (struct link *)stream;
    struct host *host = link->host;
    bool was_node = link->peer && !is_tenant(link->peer->name);
    if (unwritten(stream)) count.lost += (long)count_lines(stream->out + stream->first, unwritten(stream));
    if (link->listener) {
        static char told[120];
        static double next;     /* (strangers must not fill the log: one line a second, and none twice) */
        link->listener->strangers--, refused++;
        if (link->listener->for_nodes && strcmp(told, stream->why) && now() >= next)
            say("one who came as a node is refused: %s", stream->why), snprintf(told, sizeof told, "%s", stream->why), next = now() + 1;
    }
    if (was_node) say("node %s is not linked to node %s any more: %s", me, link->peer->name, stream->why);
    else if (host && strcmp(host->told, stream->why)) say("node %s at %s:%s: %s: tries again", host->name, host->host, host->port, stream->why);
    if (host) {
        snprintf(host->told, sizeof host->told, "%s", stream->why);
        if (was_node && now() > link->began + 10) host->wait = 0.1;     /* (if two have the same number they end each other's links: not too often) */
        if (!was_node) host->failures++;
        host->link = NULL, host->next_try = now() + host->wait;
        host->wait = host->wait < 1 ? 2 * host->wait : 2;
    }
    if (stream->paused) paused--;
    unlink_peer(link);
    link->listener = NULL, link->host = NULL;
    link->is_dead = true, dead++;
}

static void bury(void) {
    struct link **at = &all;
    if (!dead) return;
    for (struct link **each = &later; *each;)
        if ((*each)->is_dead) *each = (*each)->later;
        else each = &(*each)->later;
    for (struct link **each = &writers; *each;)
        if ((*each)->is_dead) *each = (*each)->writer;
        else each = &(*each)->writer;
    while (*at) {
        struct link *link = *at;
        if (link->is_dead) *at = link->next, free(link->part), free(link);
        else at = &link->next;
    }
    dead = 0;
}

/* Lines */

/* The session of a tenant's request, or of an answer; 0 if it has none. */
static size_t session_of(const char *body, size_t length) {
    size_t at = *body == 'd' || (*body == 'r' && length > 7 && body[3] == 'u') ? 2 : 1;
    const char *end = body + length;
    if (*body == 'p') return 0;                 /* (numbers of a `plan` are no session) */
    if (length > 13 && !memcmp(body, "refused home ", 13)) at = 3;
    for (const char *space = body; at; body = space + 1, at--)
        if (!(space = memchr(body, ' ', (size_t)(end - body)))) return 0;
    size_t number = 0;
    while (body < end && *body >= '0' && *body <= '9' && number < SESSIONS) number = 10 * number + (size_t)(*body++ - '0');
    return number < SESSIONS && (body == end || *body == ' ') ? number : 0;
}

/* What a request about chunks, or a look, and its answer are known by, a sum of two words; 0: it is of something else. A chunk is asked for by whose session it is,
   which says nothing of who asks, and a look is of no session. */
static uint64_t request_of(const char *body, size_t length) {
    static const struct { const char *verb; size_t one, other; } forms[] = {{"keep", 1, 2}, {"kept", 1, 2}, {"get", 1, 2}, {"got", 1, 2}, {"none", 1, 2}, {"lacks", 1, 2},
        {"damaged", 1, 2}, {"chunks", 1, 2}, {"forget", 1, 3}, {"forgot", 1, 3}, {"room", 0, 0}, {"look", 1, 2}, {"looked", 1, 2},
        {"abandon", 1, 2}, {"refused", 2, 3}};
    struct { const char *text; size_t length; } words[4] = {{NULL, 0}};
    const char *end = body + (length < KEY ? length : KEY), *at = body;
    for (size_t i = 0; i < 4 && at < end; i++) {
        const char *space = memchr(at, ' ', (size_t)(end - at));
        words[i].text = at, words[i].length = (size_t)((space ? space : end) - at);
        at = space ? space + 1 : end;
    }
    for (size_t i = 0; i < sizeof forms / sizeof *forms; i++) {
        if (words[0].length != strlen(forms[i].verb) || memcmp(body, forms[i].verb, words[0].length)) continue;
        uint64_t sum = 14695981039346656037u;
        for (size_t at_word = forms[i].one; at_word; at_word = at_word == forms[i].other ? 0 : forms[i].other) {
            for (size_t k = 0; k < words[at_word].length; k++) sum = (sum ^ (unsigned char)words[at_word].text[k]) * 1099511628211u;
            sum = (sum ^ ' ') * 1099511628211u;
        }
        return sum | 1;
    }
    return 0;
}

static void note_asked(struct peer *peer, uint64_t request, struct link *link) {
    size_t at = peer->asked_many++ % ASKED;
    peer->asked[at].request = request, peer->asked[at].link = link;
}

/* Who asked for this first, of those who were not answered yet. */
static struct link *who_asked(struct peer *peer, uint64_t request) {
    for (size_t i = 0; i < ASKED; i++) {
        size_t at = (peer->asked_many + i) % ASKED;
        struct link *link = peer->asked[at].link;
        if (!link || peer->asked[at].request != request) continue;
        peer->asked[at].link = NULL;
        return link;
    }
    return NULL;
}

/* Whether it was asked by this connection: so often as it was. */
static bool has_asked(struct peer *peer, uint64_t request, const struct link *link) {
    bool found = false;
    for (size_t i = 0; i < ASKED; i++)
        if (peer->asked[i].link == link && peer->asked[i].request == request) peer->asked[i].link = NULL, found = true;
    return found;
}

/* Whether a request only asks how far a session came: it gives up an operation whose number few sessions ever come to. So its answer goes by that number, and who asks takes
   no other answers; asked again, it counts as any request. */
static const uint64_t FAR = (uint64_t)1 << 31;
static bool only_asks(const char *line, size_t length) {
    if (length < 10 || memcmp(line, "abandon ", 8)) return false;
    const char *at = memchr(line + 8, ' ', length - 8), *end = line + length;
    uint64_t number = 0;
    for (at = at ? at + 1 : end; at < end && *at >= '0' && *at <= '9' && number < FAR; at++) number = 10 * number + (uint64_t)(*at - '0');
    return number >= FAR;
}

static bool put(struct link *link, const char *body, size_t length);

/* A node that went on from an older journal. Operations of its sessions have numbers that rise, also over a start, which goes on above all that the journal has
   reserved; and a link brings lines in their order. So a letter of a lesser number than was heard before shows that the journal lacks what it had. A node reserves
   1,024 at a time: so an older journal is found where more were begun since, or where the node was started since. */

static struct begun { char node[NAME + 1], tenant[NAME + 1]; uint64_t session, operation; } begun[BEGUN];

static const char *number_in(const char *at, const char *end, uint64_t *number) {
    const char *first = at;
    for (*number = 0; at < end && *at >= '0' && *at <= '9' && at < first + 10; at++) *number = 10 * *number + (uint64_t)(*at - '0');
    return at > first && at < end && *at == ' ' ? at + 1 : NULL;
}

/* Whether a line is a letter of a home to a server: `T S OP ROUND V F ask ..`, `store` or `confirm`. */
static bool is_letter(const char *line, const char *end, struct begun *it) {
    static const char *const verbs[] = {"ask", "store ", "confirm "};
    uint64_t other[3];
    size_t name = 0;
    while (name < NAME && line + name < end && line[name] >= 'a' && line[name] <= 'z') name++;
    if (!name || line + name == end || line[name] != ' ') return false;
    const char *at = number_in(line + name + 1, end, &it->session);
    at = at ? number_in(at, end, &it->operation) : NULL;
    for (size_t i = 0; i < 3; i++) at = at ? number_in(at, end, &other[i]) : NULL;
    memcpy(it->tenant, line, name), it->tenant[name] = 0;
    for (size_t i = 0; at && i < 3; i++)
        if (strlen(verbs[i]) <= (size_t)(end - at) && !memcmp(at, verbs[i], strlen(verbs[i]))) return true;
    return false;
}

/* What is known of a session, or the place for it; NULL where there is none. */
static struct begun *begun_of(const struct begun *it) {
    uint64_t sum = 14695981039346656037u + it->session;
    for (const char *text = it->node; *text; text++) sum = (sum ^ (unsigned char)*text) * 1099511628211u;
    for (const char *text = it->tenant; *text; text++) sum = (sum ^ (unsigned char)*text) * 1099511628211u;
    for (size_t i = 0; i < BEGUN; i++) {
        struct begun *at = &begun[(sum + i) % BEGUN];
        if (!*at->node || (at->session == it->session && !strcmp(at->node, it->node) && !strcmp(at->tenant, it->tenant))) return at;
    }
    return NULL;
}

/* Whether these lines of a node show an older journal. Then nothing more is taken of it, until files are read again. */
static bool shows_older(struct link *link, const char *text, size_t length) {
    struct host *host = known_host(link->peer->name);
    struct begun it;
    const char *end = text + length;
    snprintf(it.node, sizeof it.node, "%s", link->peer->name);
    for (const char *line = text, *stop; host && line < end; line = stop + 1) {
        if (!(stop = memchr(line, '\n', (size_t)(end - line)))) stop = end;
        struct begun *known = is_letter(line, stop, &it) ? begun_of(&it) : NULL;
        if (known && *known->node && it.operation < known->operation) {
            say("node %s goes on from an older journal: session %llu of %s is at operation %llu, and was at %llu", it.node, (unsigned long long)it.session, it.tenant,
                (unsigned long long)it.operation, (unsigned long long)known->operation);
            host->is_older = true, close_stream(&link->stream, "its journal is older than its last write");
            return true;
        }
        if (known) *known = it;
    }
    return false;
}

/* Who is gone by the plan is told so once, and what he brings is charged as a tenant's lines are: so it costs others no more than these do. */
static void turn_away(struct link *link, const char *text, size_t length) {
    charge(link->peer->queue, length + PRICE_OF_GONE * (1 + count_lines(text, length)), now());
    if (!link->was_told && put(link, "gone", 4)) count.out++;
    link->was_told = true;
}

static void lines(struct link *link, const char *text, size_t length) {
    struct peer *peer = link->peer;
    if (peer->queue->gone) {
        turn_away(link, text, length);
        return;
    }
    if (is_tenant(peer->name)) {
        const char *end = text + length;
        for (const char *line = text, *stop; line < end; line = stop + 1) {
            if (!(stop = memchr(line, '\n', (size_t)(end - line)))) stop = end;
            size_t many = (size_t)(stop - line);
            bool asks = only_asks(line, many);
            uint64_t request = *line == 'a' && !asks ? 0 : request_of(line, many);
            size_t session = request && !(asks && has_asked(peer, request, link)) ? 0 : session_of(line, many);
            if (request) note_asked(peer, request, link);
            if (session) peer->by_session[session] = link;
        }
    }
    if (is_tenant(peer->name) || !shows_older(link, text, length)) for_node(peer->queue, text, length);
}

/* Keeps the beginning of a line that has not come whole yet. */
static bool keep(struct link *link, const char *text, size_t length) {
    if (link->held + length > longest + 1) {
        link->skipping = true, count.too_long++, link->held = 0;
        return true;
    }
    if (link->held + length > link->room) {
        size_t room = (link->held + length) / 2 * 3 + 256, others = 0;
        for (size_t i = 0; i < link->peer->many; i++) others += link->peer->of[i] == link ? 0 : link->peer->of[i]->room;
        char *part = others + room > bound + 2 * longest ? NULL : realloc(link->part, room);
        if (!part) {            /* (the bound is for all connections of a tenant together) */
            count.memory++, close_stream(&link->stream, "out of memory");
            return false;
        }
        link->part = part, link->room = room;
    }
    memcpy(link->part + link->held, text, length);
    link->held += length;
    return true;
}

static void take_text(struct link *link, const char *text, size_t length) {
    const char *last = memrchr(text, '\n', length), *first = link->held || link->skipping ? memchr(text, '\n', length) : NULL;
    if (first) {
        if (!link->skipping && !keep(link, text, (size_t)(first - text))) return;
        if (!link->skipping) lines(link, link->part, link->held);
        if (!link->peer) return;        /* (it was ended for what it said) */
        if (link->room > READ) free(link->part), link->part = NULL, link->room = 0;
        link->held = 0, link->skipping = false;
        length -= (size_t)(first + 1 - text), text = first + 1;
    }
    if (last && last >= text) {
        lines(link, text, (size_t)(last - text));
        if (!link->peer) return;
        length -= (size_t)(last + 1 - text), text = last + 1;
    }
    if (length && !link->skipping) keep(link, text, length);
}

static void readable(struct stream *stream) {
    struct link *link = (struct link *)stream;
    if (!link->peer) return;
    struct queue *queue = link->peer->queue;
    int came = read_some(stream, scratch, sizeof scratch);
    double time = is_tenant(queue->name) ? now() : 0;
    if (came > 0) take_text(link, scratch, (size_t)came);
    if (stream->state != OPEN) return;
    if (time > 0) charge(queue, PRICE_OF_READ, time);
    if (held(queue) > bound / 2 || (time > 0 && rests_until(queue, time) > 0)) stream->paused = true, paused++, mind_stream(stream);
    if (stream->more && !link->is_later) link->is_later = true, link->later = later, later = link;
}

static bool put(struct link *link, const char *body, size_t length) {
    struct stream *stream = &link->stream;
    size_t waits = 0;
    for (size_t i = 0; i < link->peer->many; i++) waits += unwritten(&link->peer->of[i]->stream);
    link->peer->queue->told = waits + length + 1;
    if (waits + length + 1 > bound) {
        count.slow++;
        if (!link->peer->is_slow && !is_tenant(link->peer->name)) say("node %s takes less than node %s writes: drops lines", link->peer->name, me);
        link->peer->is_slow = true;
        return false;
    }
    if (!write_later(stream, body, length) || !write_later(stream, "\n", 1)) {
        close_stream(stream, "out of memory");
        return false;
    }
    if (!link->is_writer) link->is_writer = true, link->writer = writers, writers = link;
    return true;
}

/* Whether so much waits for a tenant that answers to more of his lines could find no room. One who has taken nothing for a while does not count: he would hold
   up all others until he is cut off. */
bool engine_is_behind(struct queue *queue, double time) {
    struct peer *peer = peer_of(queue->name, strlen(queue->name), false);
    queue->told = 0;
    for (size_t i = 0; peer && i < peer->many; i++) {
        const struct stream *stream = &peer->of[i]->stream;
        if (stream->since + STUCK > time) queue->told += unwritten(stream);
    }
    return queue->told > bound / 2;
}

/* An answer about chunks or to a look goes to the connection that asked, and one about room to all that did; another one to that on which its session asked last; an
   answer of no session goes to all connections of the tenant. */
void engine_carry(const char *to, size_t name, const char *body, size_t length) {
    struct peer *peer = peer_of(to, name, false);
    uint64_t request = peer && peer->many && is_tenant(peer->name) ? request_of(body, length) : 0;
    bool went = false, of_room = request && length > 5 && !memcmp(body, "room ", 5);
    struct link *only = request && !of_room ? who_asked(peer, request) : NULL;
    if (!peer || !peer->many || (request && !of_room && !only && memcmp(body, "refused ", 8))) {
        count.lost++;
        return;
    }
    size_t session = is_tenant(peer->name) && !only && !of_room ? session_of(body, length) : 0;
    if (session) only = peer->by_session[session];
    if (only) went = put(only, body, length);
    else if (of_room)
        for (size_t i = peer->many; i--;) went = (has_asked(peer, request, peer->of[i]) && put(peer->of[i], body, length)) || went;
    else
        for (size_t i = peer->many; i--;) went = put(peer->of[i], body, length) || went;
    if (went) count.out++;
}

/* Connections */

static struct link *new_link(void) {
    struct link *link = calloc(1, sizeof *link);
    if (!link) return NULL;
    link->stream.ready = ready, link->stream.readable = readable, link->stream.closed = closed, link->stream.watch.fd = -1;
    link->next = all, all = link;
    return link;
}

static void accept_one(struct watch *watched, uint32_t events) {
    struct listener *listener = (struct listener *)watched;
    (void)events;
    int fd = accept4(watched->fd, NULL, NULL, SOCK_NONBLOCK | SOCK_CLOEXEC);
    struct link *link = fd < 0 ? NULL : new_link();
    if (!link) {
        if (fd >= 0) close(fd);
        if (fd >= 0 || errno == EMFILE || errno == ENFILE || errno == ENOMEM || errno == ENOBUFS) listener->newcomers_until = now() + 3, watch(watched, 0);
        return;
    }
    double time = now();
    if (listener->strangers >= STRANGERS) {     /* (the one that has been silent for the longest time goes) */
        struct link *oldest = NULL;
        for (struct link *other = all; other; other = other->next)
            if (other->listener == listener && (!oldest || other->stream.since < oldest->stream.since)) oldest = other;
        if (oldest) close_stream(&oldest->stream, "too many have said nothing");
    }
    if (listener->newcomers_until < time) listener->newcomers_until = time;
    listener->newcomers_until += 1. / NEWCOMERS;
    link->listener = listener, listener->strangers++;
    if (!take(&link->stream, fd, context)) closed(&link->stream);
}

/* Takes no connection for a while if too many came in a second: these wait. */
static void mind_listener(struct listener *it, double time) {
    if (it->watch.fd >= 0) watch(&it->watch, it->newcomers_until < time + 2 ? EPOLLIN : 0);
}

static void *look_up(void *at) {
    struct lookup *it = at;
    struct addrinfo hints = {.ai_socktype = SOCK_STREAM};
    it->error = getaddrinfo(it->name, it->port, &hints, &it->found);
    pthread_mutex_lock(&lookups_guard);
    it->next = lookups, lookups = it;
    pthread_mutex_unlock(&lookups_guard);
    if (eventfd_write(lookup_end.fd, 1)) abort();
    return NULL;
}

static void begin_lookup(struct host *host) {
    pthread_t thread;
    struct lookup *it = calloc(1, sizeof *it);
    if (!it) return;
    it->host = host;
    snprintf(it->name, sizeof it->name, "%s", host->host), snprintf(it->port, sizeof it->port, "%s", host->port);
    if (pthread_create(&thread, NULL, look_up, it)) free(it);
    else pthread_detach(thread), host->is_looked_up = true;
}

/* Of the addresses that were found the one that is tried now: a name may have some that can't be reached from here. */
static const struct addrinfo *address_of(const struct addrinfo *found, unsigned failures) {
    unsigned many = 0;
    for (const struct addrinfo *it = found; it; it = it->ai_next) many++;
    for (unsigned left = failures % many; left; left--) found = found->ai_next;
    return found;
}

/* Takes what a thread has found, if the file of hosts still has this place. */
static void end_lookup(struct lookup *it) {
    struct host *host = it->host;
    host->is_looked_up = false;
    host->next_try = now() + (it->error ? 2 : 0);
    if (it->error) {
        const char *why = gai_strerror(it->error);
        if (strcmp(why, host->told)) say("%s: %s: tries again", it->name, why), snprintf(host->told, sizeof host->told, "%s", why);
    } else {
        const struct addrinfo *found = address_of(it->found, host->failures);
        if (found->ai_addrlen <= sizeof host->address && !strcmp(it->name, host->host) && !strcmp(it->port, host->port))
            memcpy(&host->address, found->ai_addr, found->ai_addrlen), host->length = found->ai_addrlen;
        freeaddrinfo(it->found);
    }
    free(it);
}

static void end_lookups(struct watch *watched, uint32_t events) {
    eventfd_t many;
    (void)events;
    if (eventfd_read(watched->fd, &many)) return;
    pthread_mutex_lock(&lookups_guard);
    struct lookup *it = lookups, *next;
    lookups = NULL;
    pthread_mutex_unlock(&lookups_guard);
    for (; it; it = next) next = it->next, end_lookup(it);
}

/* Dials a node by the address that was found, which serves once: for the next time it is looked up again. */
static void reach(struct host *host) {
    host->next_try = now() + host->wait;
    if (!host->length) {
        if (!host->is_looked_up) begin_lookup(host);
        return;
    }
    struct link *link = new_link();
    char name[NAME + 8];
    snprintf(name, sizeof name, "node%.*s", NAME, host->name);
    if (!link) return;
    link->host = host, host->link = link;
    if (!dial(&link->stream, (struct sockaddr *)&host->address, host->length, context, name)) closed(&link->stream);
    host->length = 0;
}

/* Files */

/* Our own certificate has to be made anew in time. */
static void report_end(const X509 *own) {
    int days, seconds;
    if (!ASN1_TIME_diff(&days, &seconds, NULL, X509_get0_notAfter(own)) || days >= SOON) return;
    if (days < 0 || seconds < 0) say("%s: this certificate has ended: nobody takes it", certificate);
    else say("%s: this certificate ends in %d day%s", certificate, days, days == 1 ? "" : "s");
}

static SSL_CTX *new_context(void) {
    SSL_CTX *made = SSL_CTX_new(TLS_method());
    if (!made) return NULL;
    SSL_CTX_set_min_proto_version(made, TLS1_3_VERSION);
    SSL_CTX_set_mode(made, SSL_MODE_ENABLE_PARTIAL_WRITE | SSL_MODE_ACCEPT_MOVING_WRITE_BUFFER | SSL_MODE_RELEASE_BUFFERS);
    SSL_CTX_clear_mode(made, SSL_MODE_AUTO_RETRY);      /* (else messages without data keep a read from its end) */
    SSL_CTX_set_read_ahead(made, 1);
    SSL_CTX_set_verify(made, SSL_VERIFY_PEER | SSL_VERIFY_FAIL_IF_NO_PEER_CERT, NULL);
    SSL_CTX_set_verify_depth(made, 4);
    SSL_CTX_set_max_cert_list(made, CHAIN);
    SSL_CTX_set_num_tickets(made, 0);
    SSL_CTX_set_session_cache_mode(made, SSL_SESS_CACHE_OFF);
    /* (by default a stranger may choose a group that costs us a hundred times as much) */
    const char *wrong = !SSL_CTX_set1_groups_list(made, "X25519:P-256:P-384")                     ? "groups"
                        : !SSL_CTX_load_verify_locations(made, ca_file, NULL)                     ? ca_file
                        : SSL_CTX_use_certificate_chain_file(made, certificate) != 1              ? certificate
                        : SSL_CTX_use_PrivateKey_file(made, key, SSL_FILETYPE_PEM) != 1 ||
                                  SSL_CTX_check_private_key(made) != 1                            ? key
                                                                                                  : NULL;
    if (!wrong) return report_end(SSL_CTX_get0_certificate(made)), made;
    const char *why = ERR_reason_error_string(ERR_get_error());
    say("%s: %s", wrong, why ? why : "no use to TLS");
    ERR_clear_error();
    SSL_CTX_free(made);
    return NULL;
}

/* Finds the digits of a certificate's number, in each form in which openssl prints it; false if the line has no number. */
static bool number_of(char *line, char digits[48]) {
    size_t many = 0;
    line += strspn(line, " \t");
    if (!strncmp(line, "serial=", 7)) line += 7;
    if (!strncasecmp(line, "0x", 2)) line += 2;
    for (; (*line && strchr("0123456789abcdefABCDEF", *line)) || (*line == ':' && many); line++)
        if (*line != ':' && (many || *line != '0')) {
            if (many == 46) return false;
            digits[many++] = *line;
        }
    if (!many || (*line && !strchr(" \t\r\n#", *line))) return false;
    if (many % 2) memmove(digits + 1, digits, many++), *digits = '0';
    digits[many] = 0;
    return true;
}

/* Reads who is denied. A line without form would deny nobody and be noticed too late. So it is reported, and those who were denied before
   stay denied. */
static bool read_denied(void) {
    char *line = NULL, digits[48];
    size_t room = 0, many = 0;
    FILE *file = denied_file ? fopen(denied_file, "re") : NULL;
    if (!file) return !denied_file || (say("%s: %s", denied_file, strerror(errno)), false);
    char(*found)[48] = NULL;
    bool good = true;
    for (int number = 1; getline(&line, &room, file) >= 0; number++) {
        if (strchr("#\r\n", line[strspn(line, " \t")])) continue;
        if (!number_of(line, digits)) {
            say("%s: line %d is no number of a certificate", denied_file, number), good = false;
            continue;
        }
        char(*more)[48] = realloc(found, (many + 1) * sizeof *found);
        if (!more) break;
        found = more;
        strcpy(found[many++], digits);
    }
    if (!feof(file) || ferror(file)) say("%s: %s", denied_file, strerror(errno)), good = false;
    free(line), fclose(file);
    char(*both)[48] = good || !denied_many ? found : realloc(found, (many + denied_many) * sizeof *found);
    if (!good && denied_many) {
        if (!both) return free(found), false;
        memcpy(both + many, denied, denied_many * sizeof *both), many += denied_many;
    }
    free(denied), denied = both, denied_many = many;
    return good;
}

static bool split(const char *place, char host[256], char port[6]) {
    const char *colon = strrchr(place, ':');
    if (!colon || colon == place || strlen(colon) > 6 || strspn(colon + 1, "0123456789") != strlen(colon) - 1 || colon - place > 255 || atoi(colon + 1) < 1 || atoi(colon + 1) > 65535)
        return false;
    bool six = *place == '[' && colon[-1] == ']';
    snprintf(host, 256, "%.*s", (int)(colon - place) - 2 * six, place + six);
    snprintf(port, 6, "%s", colon + 1);
    return true;
}

/* The entry of a node: its own, or that of a node whose line is gone; NULL if there are too many. */
static struct host *host_of(const char *name) {
    struct host *empty = NULL;
    for (struct host *it = hosts; it < hosts + hosts_many; it++) {
        if (!strcmp(it->name, name)) return it;
        if (!it->is_there && !it->link && !it->is_looked_up) empty = it;
    }
    if (hosts_many < HOSTS) empty = &hosts[hosts_many++];
    if (!empty) return NULL;
    memset(empty, 0, sizeof *empty);
    snprintf(empty->name, sizeof empty->name, "%s", name), empty->wait = 0.1;
    return empty;
}

/* Reads one line: a node's number and its two places. Only takes it if `is_done`. */
static bool read_host(const char *line, bool is_done, bool *own) {
    char name[8], place[2][300], host[256], ports[2][6] = {{0}}; /* (compared as a whole after a reload) */
    int rest = 0;
    if (sscanf(line, "%7s %299s %299s %n", name, place[0], place[1], &rest) != 3 || line[rest] || !is_name(name, strlen(name)) || is_tenant(name)) return false;
    if (!split(place[1], host, ports[1]) || !split(place[0], host, ports[0])) return false;
    if (!strcmp(name, me)) {
        if (is_done) memcpy(own_ports, ports, sizeof ports);
        *own = true;
        return true;
    }
    if (!is_done) return true;
    struct host *it = host_of(name);
    if (!it) return say("%s: too many nodes: node %s is not dialed", hosts_file, name), true;
    if (strcmp(it->host, host) || strcmp(it->port, ports[0]))
        snprintf(it->host, sizeof it->host, "%s", host), snprintf(it->port, sizeof it->port, "%s", ports[0]), it->length = 0;
    return it->is_there = true;
}

/* Reads the file of hosts. It is read at once, and nothing of it is taken if a line is wrong: so a file that is being written ends no link. */
static bool read_hosts(void) {
    char *text = NULL;
    size_t room = 0;
    bool own = false, good = true;
    FILE *file = fopen(hosts_file, "re");
    if (!file) return say("%s: %s", hosts_file, strerror(errno)), false;
    bool is_read = getdelim(&text, &room, 0, file) >= 0;
    if (!is_read && !feof(file)) say("%s: %s", hosts_file, strerror(errno)), good = false;
    fclose(file);
    for (int turn = 0; turn < 2 && good; turn++) {
        if (turn)
            for (size_t i = 0; i < hosts_many; i++) hosts[i].is_there = false;
        int number = 1;
        for (char *line = text, *stop; good && is_read && *line; line = stop + 1, number++) {
            bool is_last = !*(stop = line + strcspn(line, "\n"));
            *stop = 0;
            if (!strchr("#\r", line[strspn(line, " \t")]) && !(good = read_host(line, turn, &own))) say("%s: line %d", hosts_file, number);
            if (is_last) break;
            *stop = '\n';
        }
        if (good && !(good = own)) say("%s: it has no line of node %s", hosts_file, me);
    }
    free(text);
    return good;
}

static bool listen_at(struct listener *it, const char *port) {
    struct addrinfo hints = {.ai_socktype = SOCK_STREAM, .ai_flags = AI_PASSIVE | AI_NUMERICHOST}, *found = NULL;
    int fd = -1, one = 1, error = getaddrinfo(bind_to, port, &hints, &found);
    if (!error) {
        fd = socket(found->ai_family, SOCK_STREAM | SOCK_NONBLOCK | SOCK_CLOEXEC, 0);
        if (fd >= 0) setsockopt(fd, SOL_SOCKET, SO_REUSEADDR, &one, sizeof one);
        if (fd < 0 || bind(fd, found->ai_addr, found->ai_addrlen) || listen(fd, 128)) error = EAI_SYSTEM;
        freeaddrinfo(found);
    }
    if (error == EAI_SYSTEM && errno == EAFNOSUPPORT && !strcmp(bind_to, "::")) return bind_to = "0.0.0.0", listen_at(it, port);
    if (error) return say("%s:%s: %s", bind_to, port, error == EAI_SYSTEM ? strerror(errno) : gai_strerror(error)), false;
    it->watch = (struct watch){.fd = fd, .call = accept_one};
    watch(&it->watch, EPOLLIN);
    return true;
}

/* What node.c asks of an engine */

void engine_read_words(void) {
    const char *wanted[] = {hosts_file, ca_file, certificate, key};
    for (size_t i = 0; i < 4; i++)
        if (!wanted[i]) wrong(engine_words[i].word, "is wanting");
}

bool engine_begin(void) {
    struct rlimit files;
    struct stat kind;
    if (!stat(key, &kind) && kind.st_mode & (S_IROTH | S_IWOTH)) return say("%s: others may read or write it", key), false;
    if (!read_hosts() || !read_denied() || !(context = new_context())) return false;
    if (getrlimit(RLIMIT_NOFILE, &files)) return false;
    if (files.rlim_cur < 4096 && files.rlim_max > files.rlim_cur) files.rlim_cur = files.rlim_max < 4096 ? files.rlim_max : 4096, setrlimit(RLIMIT_NOFILE, &files);
    most_of_tenants = files.rlim_cur < 2 * FILES ? files.rlim_cur / 2 : files.rlim_cur - FILES;
    lookup_end = (struct watch){.fd = eventfd(0, EFD_CLOEXEC | EFD_NONBLOCK), .call = end_lookups};
    watch(&lookup_end, EPOLLIN);
    return listen_at(&listeners[0], own_ports[0]) && listen_at(&listeners[1], own_ports[1]);
}

/* Why a certificate would not be taken if it came now, with the same chain; NULL if it would. */
static const char *disbelief(X509 *shown, const struct stream *stream) {
    X509_STORE_CTX *trial = X509_STORE_CTX_new();
    const char *why = "out of memory";
    if (trial && X509_STORE_CTX_init(trial, SSL_CTX_get_cert_store(context), shown, SSL_get0_verified_chain(stream->ssl))) {
        X509_STORE_CTX_set_default(trial, stream->dialed ? "ssl_server" : "ssl_client");
        why = X509_verify_cert(trial) == 1 ? NULL : X509_verify_cert_error_string(X509_STORE_CTX_get_error(trial));
    }
    X509_STORE_CTX_free(trial);
    ERR_clear_error();
    return why;
}

/* Ends the link of one who is denied. What he said and the node was not given yet is dropped. */
static void deny(struct link *link) {
    struct peer *peer = link->peer;
    close_stream(&link->stream, "its certificate is denied");
    if (peer->many || !held(peer->queue)) return;
    count.lost += (long)count_lines(peer->queue->bytes + peer->queue->first, held(peer->queue));
    forget(peer->queue, held(peer->queue));
}

/* Ends links whose certificate has ended; and after files have changed, those whose certificate would not be taken now. */
static void check_links(bool is_new) {
    for (struct link *link = all; link; link = link->next) {
        X509 *shown = link->peer ? SSL_get1_peer_certificate(link->stream.ssl) : NULL;
        const char *why = !shown ? NULL : is_new ? disbelief(shown, &link->stream)
                          : X509_cmp_current_time(X509_get0_notAfter(shown)) < 0 ? "its certificate has ended" : NULL;
        if (shown && is_new && is_denied(shown)) deny(link);
        else if (why) close_stream(&link->stream, why);
        X509_free(shown);
    }
}

void engine_hangup(void) {
    SSL_CTX *made = new_context();
    char before[2][6];
    memcpy(before, own_ports, sizeof before);
    if (made) SSL_CTX_free(context), context = made;
    read_denied(), check_links(true);
    for (size_t i = 0; i < hosts_many; i++) hosts[i].is_older = false;
    if (read_hosts() && memcmp(before, own_ports, sizeof before)) say("%s: node %s has other ports there: it takes them at its next start", hosts_file, me);
    memcpy(own_ports, before, sizeof before);
}

static void mind_links(double time) {
    for (struct link *link = all; link; link = link->next) {
        struct stream *stream = &link->stream;
        if (link->is_dead) continue;
        if (!link->peer && time > stream->since + SHOW) close_stream(stream, "no answer");
        else if ((unwritten(stream) || stream->blocked) && time > stream->since + SLOW) slow_links++, close_stream(stream, "it reads nothing");
    }
    for (size_t i = 0; i < hosts_many; i++) {
        struct host *host = &hosts[i];
        if (!host->is_there && host->link) close_stream(&host->link->stream, "no line in the file of hosts");
        else if (host->is_there && !host->link && atoi(host->name) > atoi(me) && time >= host->next_try)
            reach(host);
    }
}

double engine_turn(double time) {
    static double minded, checked;
    struct link *link = later, *next;
    bury();
    if (time >= checked) check_links(false), checked = time + ENDED;
    if (time >= minded) mind_links(time), minded = time + 0.05;
    for (link = later, later = NULL; link; link = next) {
        next = link->later, link->is_later = false;
        if (!link->is_dead && !link->stream.paused) readable(&link->stream);
    }
    double wake = time + 0.1;
    if (paused)
        for (link = all; link; link = link->next) {
            if (!link->stream.paused || link->is_dead || held(link->peer->queue) >= bound / 4) continue;
            double rests = is_tenant(link->peer->name) ? rests_until(link->peer->queue, time) : 0;
            if (rests > 0) wake = rests < wake ? rests : wake;
            else {
                link->stream.paused = false, paused--, mind_stream(&link->stream);
                readable(&link->stream);        /* (TLS may hold bytes) */
            }
        }
    for (link = writers, writers = NULL; link; link = next) {
        next = link->writer, link->is_writer = false;
        if (!link->is_dead && !(link->stream.watch.events & EPOLLOUT)) flush_stream(&link->stream);
    }
    for (int i = 0; i < 2; i++) mind_listener(&listeners[i], time);
    return later ? time : wake;
}

bool engine_is_empty(void) {
    for (struct link *link = all; link; link = link->next)
        if (!link->is_dead && unwritten(&link->stream)) return false;
    return true;
}

/* Connections now, of nodes or of tenants. */
static size_t links_of(bool tenants) {
    size_t many = 0;
    for (struct link *link = all; link; link = link->next) many += link->peer && is_tenant(link->peer->name) == tenants;
    return many;
}

const char *engine_counts(void) {
    static char text[160];
    size_t nodes = links_of(false), tenants = links_of(true);
    snprintf(text, sizeof text, " nodes %zu tenants %zu refused %ld cut_off %ld", nodes, tenants, refused, slow_links);
    return text;
}

static void tell_seconds(void) {
    metric("carrier_second_holders_total", "counter", "Connections of a node whose number somebody else held.");
    for (struct host *it = hosts; it < hosts + hosts_many; it++)
        if (it->is_there) sample("peer", it->name, (double)it->seconds);
}

static void tell_older(void) {
    metric("carrier_journal_older", "gauge", "1 where that node went on from an older journal, and is not heard.");
    for (struct host *it = hosts; it < hosts + hosts_many; it++)
        if (it->is_there) sample("peer", it->name, it->is_older);
}

static void tell_links(void) {
    metric("carrier_link_up", "gauge", "1 where this node is linked to that node of the file of hosts.");
    for (struct host *it = hosts; it < hosts + hosts_many; it++) {
        struct peer *peer = it->is_there ? peer_of(it->name, strlen(it->name), false) : NULL;
        if (it->is_there) sample("peer", it->name, peer && peer->many);
    }
}

void engine_metrics(void) {
    struct tm end;
    tell_links();
    tell_seconds();
    tell_older();
    single("carrier_tenant_connections", "gauge", "Connections of tenants.", (double)links_of(true));
    single("carrier_refused_total", "counter", "Newcomers that were refused.", (double)refused);
    single("carrier_cut_off_total", "counter", "Connections that were ended since the other end took nothing.", (double)slow_links);
    if (ASN1_TIME_to_tm(X509_get0_notAfter(SSL_CTX_get0_certificate(context)), &end))
        single("carrier_certificate_end_timestamp_seconds", "gauge", "When the certificate of this node ends.", (double)timegm(&end));
}

void engine_end(void) {
    for (struct link *link = all; link; link = link->next) close_stream(&link->stream, "the end");
}

void engine_free(int status) { (void)status; }
