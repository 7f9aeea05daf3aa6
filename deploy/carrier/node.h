/* A carrier has two parts. This one runs the node as a child and keeps what waits for it. The other one, an engine, brings
   lines from others and to them: links, or one broker of MQTT. Several brokers outlive one of them, but an operation costs more, and
   passwords are kept at each. Of the messengers that were tried a cluster of NATS took the most processor time, and in ZeroMQ a
   peer gives itself its name. */
#ifndef NODE_H
#define NODE_H
#include "loop.h"
#include <stddef.h>
#include <stdint.h>

enum {
    NAME = 16,                  /* letters of a tenant's name */
    NAMES = 256,                /* most names whose lines wait at one time */
    LONGEST = 4095,             /* bytes of a line without its LF; a plan with larger files has longer ones */
    LONGEST_EVER = 2097407,     /* of the longest line of any plan */
    CHUNK = 65536               /* bytes of a read from the node, or of a write of a longer line */
};

struct tally {                  /* what a tenant has brought, for the metrics */
    char name[NAME + 1];
    long lines, bytes, dropped;
    double over_rate;           /* seconds */
};

struct queue {                  /* whole lines from one name that wait for the node */
    char name[NAME + 1], head[3 * NAME];    /* head: `NUMBER FROM `, or a topic */
    char *bytes;
    size_t first, end, room;
    double paid_until;          /* how much of its rate a tenant has used */
    uint64_t given_to;          /* where its last lines end in what was written to the node */
    size_t told;                /* bytes that waited for a tenant when he was told something last */
    int users;                  /* as long as there are some, no other name gets this queue */
    long dropped;
    struct tally *tally;        /* of a tenant; NULL for a node */
    bool gone;                  /* of a tenant who is gone by the plan */
};

extern const char *me;          /* the node's number */
extern const char *grid;        /* its grid's name; empty where it has none */
extern size_t longest, bound;   /* bytes of a line; bytes that wait from one name, or for one */
extern int fault;               /* our own status, if it is not 0 */
struct counts { long in, out, lost, full, slow, too_long, strange, memory, connected; };
extern struct counts count;

__attribute__((format(printf, 1, 2))) void say(const char *form, ...);
bool is_name(const char *text, size_t length);
static inline bool is_tenant(const char *name) { return *name >= 'a'; }
struct queue *queue_of(const char *name, size_t length);        /* NULL if there are too many names */
void for_node(struct queue *queue, const char *text, size_t length);    /* takes whole lines, without the last LF */
static inline size_t held(const struct queue *queue) { return queue->end - queue->first; }
size_t count_lines(const char *text, size_t length);
void charge(struct queue *queue, size_t bytes, double time);    /* a tenant has used so much of its rate */
bool add(struct queue *queue, const char *head, const char *body, size_t length, long *full);   /* one line; false if it is dropped */
size_t lines_in(const struct queue *queue, size_t most);        /* bytes of its first whole lines */
void forget(struct queue *queue, size_t bytes);                 /* of its front */
void memory_refused(void);
double about(double seconds);                                   /* a tenth less or more, by chance */
__attribute__((noreturn)) void wrong(const char *what, const char *word);      /* ends: a word is no request */
double number(const char *what, const char *word, double least, double most);
double rests_until(const struct queue *queue, double time);     /* when a tenant who used more than his rate may go on; 0: now */

/* What an engine has */
extern const char engine_words_usage[], engine_usage[];         /* of --help: its words; what it does */
struct word { const char *word, **to; };
extern const struct word engine_words[];        /* the last one has no word */
void engine_read_words(void);                   /* looks at its words, before the node starts */
bool engine_begin(void);                        /* after the node's start; false if it can't begin, with `fault` if that is known */
void engine_carry(const char *to, size_t name, const char *body, size_t length);    /* takes one line, without its LF */
bool engine_is_behind(struct queue *queue, double time);        /* whether a tenant has to take more of what he was told, before his next lines are given */
double engine_turn(double time);                /* writes what waits; the time at which it has to be called again */
bool engine_is_empty(void);                     /* whether nothing waits to be written */
const char *engine_counts(void);                /* its own counts, for the line of counts */
void engine_metrics(void);                      /* its own metrics, by the calls of metrics.h */
void engine_end(void);
void engine_free(int status);                   /* the last call before the carrier ends with this status */
void engine_hangup(void);                       /* SIGHUP: files may have changed */
#endif
