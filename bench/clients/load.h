/* A load by many clients, each of which asks for the next operation once its last one is done. load.c has the clients and what they took. What
   carries them is in links.c, mqtt.c or etcd.c; lines.c has what the first two have in common. */
#ifndef LOAD_H
#define LOAD_H
#include <stdbool.h>
#include <stddef.h>
#include <stdint.h>

enum { TENANTS = 4, OF_A_TENANT = 16, CLIENTS = TENANTS * OF_A_TENANT, FILES = 16, SIZE = 64, LONG = 1 << 20 };
extern const char *const tenants[TENANTS];

struct client {
    int tenant, session;        /* sessions are numbered from 1 */
    enum { LEARNS, TRIES, IS_FREE, ASKS } state;        /* the first two are a session's start (lines.c) */
    unsigned long number;       /* of what it asks, at a node */
    int file;
    bool is_write, is_long;     /* is_long: of the one file of LONG bytes that a burst is about */
    unsigned char content[SIZE];
    double begun, again, wait;  /* when it asked first, when it asks again, and how long after that */
    int32_t stream;             /* of its request to etcd; 0 where none is under way */
    bool succeeded;             /* what etcd says of it */
};
extern struct client clients[CLIENTS];
extern int clients_many;
extern bool is_deaf;           /* reads nothing any more */
extern long answers_many;      /* of a burst */

/* What an engine has. A tenant's clients share one connection to each server that they speak to. */
bool engine_begin(const char *where, const char *folder);       /* false: it has told why */
bool engine_is_ready(void);                                     /* all connections are there, and all clients are free */
void engine_ask(struct client *it);                             /* sends what the client asks, or sends it again */
bool engine_flood(void);                                        /* sends a request more of the first tenant; false where none is taken now */
long engine_burst(void);                                        /* asks for the long file again, as often as is wanted now; how often */
void engine_turn(double time);                                  /* makes what connections are wanting, and writes what waits */

/* What it says to load.c */
void done(struct client *it);
void lost(struct client *it);                                   /* nobody knows how the operation ended */

/* lines.c */
enum { NODES = 64, LINE = 64 + LONG, BURST = 3300 };            /* BURST: lines */
void begin_sessions(void);
bool all_free(void);
int home_of(const struct client *it);                           /* the place of its session's home, of NODES_MANY */
extern int nodes_many;
size_t line_of(const struct client *it, char *line);            /* without LF */
size_t flood_line(char *line);
size_t burst_of(const struct client *it, char *lines);          /* its last line BURST times, each with LF; at most LINE bytes */
void hear(int tenant, const char *text, size_t length);         /* lines of a node, parted by LF */
#endif
