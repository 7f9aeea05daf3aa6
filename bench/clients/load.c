/* The clients of a load, and what their operations took. */
#define _GNU_SOURCE
#include "load.h"
#include "loop.h"
#include <signal.h>
#include <stdio.h>
#include <stdlib.h>
#include <string.h>
#include <sys/resource.h>

static const char usage[] =
    "usage: load-ENGINE WHERE FOLDER CLIENTS SECONDS [--from-bob | --flood | --burst | --burst-unread]\n"
    "  So many clients, up to 16 of each of the tenants ann, bob, cid and dan, ask for operations on 16 files of 64 bytes, half of them writes.\n"
    "  With --from-bob the first of them are bob's.\n"
    "  A line of JSON tells how many were done, and the milliseconds that each took. `gap` is the longest time in which nobody was answered,\n"
    "  `longest` the longest that one client waited for the end of its operation, also where that is not known (`lost`).\n"
    "  With --flood ann's requests are sent as fast as they are taken, and no answer is waited for. With --burst each client reads a file of 1 MiB,\n"
    "  and asks for that thousands of times more, at once; what comes is read, or with --burst-unread nothing. A line is told once it begins.\n"
    "  load-links: WHERE is the file of hosts, FOLDER has the certificates. load-mqtt: HOST:PORT, the broker's folder.\n"
    "  load-etcd: HOST:PORT,.., the folder of ca.crt.\n";

static const double SOON = 0.02, PATIENCE = 20, FIRST_WAIT = 0.5, LONGEST_WAIT = 4;    /* seconds */
const char *const tenants[TENANTS] = {"ann", "bob", "cid", "dan"};
struct client clients[CLIENTS];
int clients_many;
bool is_deaf;
long answers_many;
static double until, last_answer, longest_gap, longest_wait;
static struct { double *took; size_t many, room; } kinds[2];    /* reads, writes */
static long lost_many;

static void fail(const char *why) {
    fprintf(stderr, "load: %s\n", why);
    exit(1);
}

static void ask(struct client *it, double time) {
    it->again = time + it->wait * (0.8 + 0.4 * drand48());
    it->wait = it->wait < LONGEST_WAIT ? 2 * it->wait : LONGEST_WAIT;
    engine_ask(it);
}

/* Has the client begin its next operation, as long as the load goes on. */
static void begin(struct client *it) {
    double time = now();
    it->state = IS_FREE;
    if (time >= until) return;
    it->state = ASKS, it->number++, it->file = (int)(drand48() * FILES), it->is_write = drand48() < 0.5, it->is_long = false;
    for (int i = 0; i < SIZE && it->is_write; i++) it->content[i] = (unsigned char)lrand48();
    it->begun = time, it->wait = FIRST_WAIT;
    ask(it, time);
}

/* Notes how long the client waited for this operation's end. */
static void note_wait(const struct client *it, double time) {
    if (it->state == ASKS && time - it->begun > longest_wait) longest_wait = time - it->begun;
}

void done(struct client *it) {
    double time = now();
    note_wait(it, time);
    if (it->state == ASKS) {
        size_t kind = it->is_write;
        if (kinds[kind].many == kinds[kind].room) {
            kinds[kind].room = 2 * kinds[kind].room + 4096;
            if (!(kinds[kind].took = realloc(kinds[kind].took, kinds[kind].room * sizeof(double)))) fail("out of memory");
        }
        kinds[kind].took[kinds[kind].many++] = time - it->begun;
        if (time - last_answer > longest_gap) longest_gap = time - last_answer;
        last_answer = time;
    }
    begin(it);
}

void lost(struct client *it) {
    note_wait(it, now());
    lost_many += it->state == ASKS;
    begin(it);
}

static void turn(void) {
    double time = now();
    for (int i = 0; i < clients_many; i++)
        if (clients[i].state != IS_FREE && time >= clients[i].again) ask(&clients[i], time);
    engine_turn(time);
    loop_once(SOON, NULL);
}

static bool has_asking(void) {
    for (int i = 0; i < clients_many; i++)
        if (clients[i].state == ASKS) return true;
    return false;
}

static void tell(const char *kind, size_t at) {
    printf("\"%s\": [", kind);
    for (size_t i = 0; i < kinds[at].many; i++) printf("%s%.3f", i ? ", " : "", 1000 * kinds[at].took[i]);
    printf("]");
}

static int flood(double seconds) {
    long sent = 0;
    for (until = now() + seconds; now() < until; turn())
        while (engine_flood()) sent++;
    printf("{\"sent\": %ld}\n", sent);
    return 0;
}

/* Has these clients do one operation each on the long file. */
static void use_long(struct client *first, struct client *end, bool is_write) {
    double time = now();
    for (struct client *it = first; it < end; it++) {
        it->state = ASKS, it->number++, it->is_write = is_write, it->is_long = true, it->begun = time, it->wait = PATIENCE;
        ask(it, time);
    }
    while (has_asking())
        if (turn(), now() > time + PATIENCE) fail("no answer in time");
}

static int burst(double seconds, bool is_read) {
    long sent = 0;
    use_long(clients, clients + 1, true);
    use_long(clients, clients + clients_many, false);
    is_deaf = !is_read;
    answers_many = 0;
    puts("begun"), fflush(stdout);
    for (until = now() + seconds; now() < until; turn()) sent += engine_burst();
    printf("{\"sent\": %ld, \"answers\": %ld}\n", sent, answers_many);
    return 0;
}

static int load(double seconds) {
    double start = now();
    until = start + seconds, last_answer = start;
    for (int i = 0; i < clients_many; i++) begin(&clients[i]);
    while (has_asking() && now() < until + PATIENCE) turn();
    double took = now() - start;
    printf("{\"done\": %zu, \"lost\": %ld, \"seconds\": %.3f, \"gap\": %.3f, \"longest\": %.3f, \"took_ms\": {", kinds[0].many + kinds[1].many, lost_many, took,
           longest_gap, longest_wait);
    tell("read", 0), printf(", "), tell("write", 1), printf("}}\n");
    return has_asking() ? 3 : 0;
}

int main(int argc, char **argv) {
    const char *word = argc == 6 ? argv[5] : "";
    bool is_flood = !strcmp(word, "--flood"), is_read = !strcmp(word, "--burst"), is_burst = is_read || !strcmp(word, "--burst-unread");
    int first = !strcmp(word, "--from-bob");
    if (argc != 5 + (is_flood || is_burst || first) || (clients_many = atoi(argv[3])) < 1 || clients_many > CLIENTS - OF_A_TENANT * first) {
        fputs(usage, stderr);
        return 2;
    }
    for (int i = 0; i < clients_many; i++) clients[i] = (struct client){.tenant = first + i / OF_A_TENANT, .session = i % OF_A_TENANT + 1, .wait = FIRST_WAIT};
    signal(SIGPIPE, SIG_IGN);
    srand48(is_flood);
    if (!loop_begin() || !engine_begin(argv[1], argv[2])) return 1;
    for (double end = now() + PATIENCE; !engine_is_ready(); turn())
        if (now() > end) fail("no connection in time, or no answer");
    double seconds = atof(argv[4]);
    return is_flood ? flood(seconds) : is_burst ? burst(seconds, is_read) : load(seconds);
}
