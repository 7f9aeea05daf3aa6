/* carry: runs a node, or any program that reads and writes lines `TO FROM BODY`, and carries its lines by an engine. Lines that
   can't be carried are dropped whole and counted: a node bears their loss. Nothing here waits for the node or for anybody. A tenant's lines are held up while he takes
   answers slowly: what is dropped for lack of room he asks for again, later and in vain. One connection that takes nothing at all
   holds up his others for at most 5 seconds. */
#define _GNU_SOURCE
#include "metrics.h"
#include "node.h"
#include <errno.h>
#include <fcntl.h>
#include <poll.h>
#include <stdarg.h>
#include <stdio.h>
#include <stdlib.h>
#include <string.h>
#include <sys/ioctl.h>
#include <sys/stat.h>
#include <sys/syscall.h>
#include <sys/wait.h>
#include <time.h>
#include <unistd.h>

enum {
    WRITE = 4096,               /* bytes of writes to the node: whole lines, that a pipe takes whole (PIPE_BUF) */
    TURN = 1024,                /* bytes that one name gives to a write before the next one has its turn */
    PIPE = 8192,                /* bytes of the pipe to the node: a flood can put so many before another's line */
    LINES = 16, FEW = 2,        /* the most lines of a tenant that the node has not read, where answers are short, and where they are the longest: .. */
    AHEAD = 4 << 20,            /* .. in between so many that they make it write no more than this */
    PRICE = 800,                /* bytes that each line adds to its own in a tenant's rate, short lines of the node that it causes among them */
    SHORT = 255,                /* bytes of a line of the node that costs a tenant no more than that */
    PART = 4,                   /* so many bytes of longer ones cost him as much as one of his own short ones; so do those of his own behind the first LONGEST */
    ENDS = 10,                  /* seconds that the node has to end once it has closed its output */
    TENANTS = 64,               /* of a plan; what more of them bring is told in one sum */
    METRICS = 10,               /* seconds between two writes of the metrics */
    GREET_FIRST = 3,            /* seconds from the node's first line, by when links are up, until it is to greet the others, .. */
    GREET = 60,                 /* .. and from then on to the next time */
    LACKS = 10,                 /* seconds from a line by which the node asks for chunks that it lacks until it has all, or nobody gives them */
    PLACES = 64,                /* of nodes: that of a node is its number modulo this */
    FORGET = 3 * GREET          /* seconds after which what a node told of its lines is not believed any more */
};

const char *me, *grid = "";
size_t longest = LONGEST, bound = 1 << 20;
int fault;
struct counts count;

static size_t own, rate = 8 << 20;              /* the length of our number; bytes of a tenant in a second */
static const double burst = 0.02;               /* seconds of its rate that a tenant may use at once */
static size_t ahead = LINES;                    /* lines of a tenant that the node has not read */
static const double LOOK = 0.002;               /* seconds between two looks whether the node has read a tenant's lines */
static struct { struct queue of[NAMES]; size_t many, turn; } from;
static struct queue *mine;                      /* the node's lines to itself */
static struct { char (*names)[NAME + 1]; size_t many; } gone;   /* tenants who are gone by the plan */
static struct { struct tally of[TENANTS], others; size_t many; } tallies = {.others.name = "OTHERS"};  /* (no tenant has such a name) */
static struct watch node_in = {.fd = -1}, node_out = {.fd = -1};    /* our ends of its pipes */
static char *piece, *chunk;                     /* output of the node that was read; what is being written to it */
static size_t piece_held, chunk_held, chunk_at;
static bool skipping, node_full;                /* in a line that is too long; the node's pipe is full */
static double rested;                           /* when a tenant that waits for his rate may go on */
static uint64_t given, tick_end;                /* bytes written to the node, in all and up to its last tick */
static size_t tick_waits;                       /* bytes of its own queue up to the end of a tick; 0 without one */
static double tick_time, tick_due, tick_given;
static double quick_time;                       /* from one tick to the next while a peer is silent */
static double asked_since[PLACES];              /* of the node at each place: when it was first sent a line since it told one; 0 where it was sent none */
static double lacks_until;                      /* as long as the node asked for chunks a moment ago */
static const char *metrics_file, *journal;      /* NULL where there is none */
static double metrics_due, last_line;           /* when the metrics are written; when the node last wrote something, 0 before */
static bool node_ready;                         /* it has read its journal */
static double greet_due;                        /* when the node is to greet the others; 0 as long as it is not ready */
static struct form { int node; double form, since; } forms[PLACES];     /* which form of lines a node told last, and when; since 0 where none did */
static long ticks;
static bool engine_runs;                        /* from its begin on */
static volatile sig_atomic_t ending, asked_counts, hung_up;

double about(double seconds) { return seconds * (0.9 + 0.2 * (double)random() / RAND_MAX); }

/* One write for a line, so that it is not mixed with lines of the node. */
void say(const char *form, ...) {
    char text[900] = "carry: ";
    va_list words;
    va_start(words, form);
    vsnprintf(text + 7, sizeof text - 8, form, words);
    va_end(words);
    size_t length = strlen(text);
    text[length] = '\n';
    struct pollfd log = {.fd = STDERR_FILENO, .events = POLLOUT};       /* (a log that nobody reads must not stop us) */
    if (poll(&log, 1, 0) == 1 && log.revents == POLLOUT && write(STDERR_FILENO, text, length + 1) < 0) return;
}

static void say_counts(void) {
    for (size_t i = 0; i < from.many; i++)
        if (from.of[i].dropped) say("%ld lines from %s were more than the bound", from.of[i].dropped, from.of[i].name);
    say("in %ld out %ld%s lost %ld full %ld slow %ld long %ld strange %ld memory %ld connected %ld", count.in, count.out,
        engine_runs ? engine_counts() : "", count.lost, count.full, count.slow, count.too_long, count.strange, count.memory, count.connected);
}

void memory_refused(void) {
    if (!count.memory++) say("out of memory: drops lines");
}

/* Queues of whole lines */

bool is_name(const char *text, size_t length) {
    size_t letters = 0, digits = 0;
    while (letters < length && text[letters] >= 'a' && text[letters] <= 'z') letters++;
    while (digits < length && text[digits] >= '0' && text[digits] <= '9') digits++;
    if (digits) return digits == length && (length == 1 || (length <= 3 && *text != '0'));
    return letters && letters == length && length <= NAME;
}

static bool is_grid(const char *text) {
    size_t length = strspn(text, "abcdefghijklmnopqrstuvwxyz0123456789");
    return *text >= 'a' && length <= NAME && !text[length];
}

static bool is_gone(const char *name, size_t length) {
    for (size_t i = 0; i < gone.many; i++)
        if (!memcmp(gone.names[i], name, length) && !gone.names[i][length]) return true;
    return false;
}

/* (Where there is no memory for a name, its lines are passed over by the node, as any stranger's.) */
static void add_gone(const char *name) {
    char (*more)[NAME + 1] = realloc(gone.names, (gone.many + 1) * sizeof *more);
    if (!more) return;
    gone.names = more;
    memcpy(gone.names[gone.many++], name, strlen(name) + 1);
}

static struct tally *tally_of(const char *name, size_t length) {
    for (size_t i = 0; i < tallies.many; i++)
        if (!memcmp(tallies.of[i].name, name, length) && !tallies.of[i].name[length]) return &tallies.of[i];
    if (tallies.many == TENANTS) return &tallies.others;
    memcpy(tallies.of[tallies.many].name, name, length);
    return &tallies.of[tallies.many++];
}

/* The queue of a name. Where there are too many names, a new one gets a queue that is empty and has no user. */
struct queue *queue_of(const char *name, size_t length) {
    struct queue *empty = NULL;
    for (size_t i = 0; i < from.many; i++) {
        struct queue *queue = &from.of[i];
        if (!memcmp(queue->name, name, length) && !queue->name[length]) return queue;
        if (!held(queue) && !queue->users) empty = queue;
    }
    if (from.many < NAMES) empty = &from.of[from.many++];
    if (!empty) return NULL;
    empty->gone = is_tenant(name) && is_gone(name, length);
    empty->tally = is_tenant(name) && !empty->gone ? tally_of(name, length) : NULL;
    memset(empty->name, 0, sizeof empty->name);
    memcpy(empty->name, name, length);
    snprintf(empty->head, sizeof empty->head, "%s %s ", me, empty->name);
    empty->dropped = 0, empty->paid_until = 0, empty->given_to = 0, empty->told = 0;
    return empty;
}

static bool make_room(struct queue *queue, size_t more) {
    size_t stay = held(queue), room = (queue->end + more) / 2 * 3 + 1024;
    if (queue->end + more <= queue->room) return true;
    if (queue->first >= stay + more) {              /* (so a byte is moved only after as many others have gone) */
        memmove(queue->bytes, queue->bytes + queue->first, stay);
        queue->first = 0, queue->end = stay;
        return true;
    }
    char *bytes = realloc(queue->bytes, room);
    if (!bytes) return false;
    queue->bytes = bytes, queue->room = room;
    return true;
}

bool add(struct queue *queue, const char *head, const char *body, size_t length, long *full) {
    size_t before = strlen(head), more = before + length + 1;
    if (held(queue) + more > bound) {
        queue->dropped++, ++*full;
        if (queue->tally) queue->tally->dropped++;
        return false;
    }
    if (!make_room(queue, more)) {
        memory_refused();
        return false;
    }
    memcpy(queue->bytes + queue->end, head, before);
    memcpy(queue->bytes + queue->end + before, body, length);
    queue->end += more;
    queue->bytes[queue->end - 1] = '\n';
    return true;
}

/* Bytes of the first whole lines: at most `most`, but always one line. */
size_t lines_in(const struct queue *queue, size_t most) {
    const char *text = queue->bytes + queue->first, *last = NULL;
    if (held(queue) <= most) return held(queue);
    if (!(last = memrchr(text, '\n', most))) last = memchr(text, '\n', held(queue));
    return (size_t)(last - text) + 1;
}

void forget(struct queue *queue, size_t bytes) {
    queue->first += bytes;
    if (queue->first < queue->end) return;
    queue->first = queue->end = 0;
    if (queue->room > CHUNK) free(queue->bytes), queue->bytes = NULL, queue->room = 0;     /* (a flood is over) */
}

size_t count_lines(const char *text, size_t length) {
    size_t lines = 0;
    for (const char *end = text + length; (text = memchr(text, '\n', (size_t)(end - text))); text++) lines++;
    return lines;
}

static bool is_told(const struct form *it) { return it->since > 0 && it->since + FORGET > now(); }

/* A node tells by `speaks FORM` that it speaks all forms of lines between nodes up to that one. Of nodes at one place the later one is believed. */
static void hear_form(const char *name, const char *body, size_t length) {
    static const char verb[] = "speaks ";
    const size_t before = sizeof verb - 1;
    double form = 0;
    if (length <= before || length > before + 10 || memcmp(body, verb, before)) return;
    for (size_t i = before; i < length; i++) {
        if (body[i] < '0' || body[i] > '9') return;
        form = 10 * form + (body[i] - '0');
    }
    int node = atoi(name);
    struct form *it = &forms[node % PLACES];
    if (node >= it->node || !is_told(it)) *it = (struct form){node, form, now()};
}

/* To the node */

void for_node(struct queue *queue, const char *text, size_t length) {
    const char *end = text + length, *stop;
    if (!queue) count.full++;
    for (; queue && text < end; text = stop + 1) {
        if (!(stop = memchr(text, '\n', (size_t)(end - text)))) stop = end;
        size_t body = (size_t)(stop - text);
        if (queue->gone) engine_carry(queue->name, strlen(queue->name), "gone", 4);
        else if (strlen(queue->head) + body > longest) count.too_long++;
        else if (body && add(queue, queue->head, text, body, &count.full)) {
            count.in++;
            if (!is_tenant(queue->name) && queue != mine) hear_form(queue->name, text, body), asked_since[atoi(queue->name) % PLACES] = 0;
            if (queue->tally) queue->tally->lines++, queue->tally->bytes += (long)body + 1;
        }
    }
}

void charge(struct queue *queue, size_t bytes, double time) {
    if (queue->paid_until < time) queue->paid_until = time;
    double over = queue->paid_until > time + burst ? queue->paid_until : time + burst;
    queue->paid_until += (double)bytes / (double)rate;
    if (queue->tally && queue->paid_until > over) queue->tally->over_rate += queue->paid_until - over;
}

double rests_until(const struct queue *queue, double time) { return queue->paid_until > time + burst ? queue->paid_until - burst : 0; }

static void give_lines(struct queue *queue, size_t bytes, double time) {
    const char *text = queue->bytes + queue->first;
    memcpy(chunk + chunk_held, text, bytes);
    chunk_held += bytes;
    if (queue == mine && tick_waits) {
        tick_waits -= bytes < tick_waits ? bytes : tick_waits;
        if (!tick_waits) tick_end = given + chunk_held;
    }
    size_t cost = bytes > LONGEST ? LONGEST + (bytes - LONGEST) / PART : bytes;     /* (of more than TURN it is one line) */
    if (is_tenant(queue->name)) charge(queue, cost + PRICE * count_lines(text, bytes), time);
    queue->given_to = given + chunk_held;
    forget(queue, bytes);
}

static uint64_t read_by_node(void) {
    int unread = 0;
    return ioctl(node_in.fd, FIONREAD, &unread) ? given : given - (uint64_t)unread;
}

/* When the next lines of a name may be given; 0: now. A tenant who has used more than his rate waits, so that he can't keep the node busy
   alone; and until the node has read those before, since each of them may make it write a long answer before another's line; and as long as
   he takes his answers so slowly that more of them would find no room. */
static double waits_until(struct queue *queue, uint64_t read, double time) {
    double rests = rests_until(queue, time);
    bool waits = is_tenant(queue->name) && (queue->given_to > read || (queue->told > bound / 2 && engine_is_behind(queue, time)));
    return waits && rests < time + LOOK ? time + LOOK : rests;
}

/* Bytes of the lines that a name gives in one turn. */
static size_t lines_of_turn(const struct queue *queue) {
    size_t most = lines_in(queue, TURN), bytes = 0;
    if (!is_tenant(queue->name)) return most;
    const char *text = queue->bytes + queue->first;
    for (size_t lines = 0; bytes < most && lines < ahead; lines++)
        bytes = (size_t)((const char *)memchr(text + bytes, '\n', most - bytes) - text) + 1;
    return bytes;
}

/* Fills the next write with some whole lines of each name, by turns: so a flood of one does not stop another's lines. */
static void fill_chunk(double time) {
    uint64_t read = read_by_node();
    chunk_at = chunk_held = 0, rested = time + 1;
    for (size_t i = 0; i < from.many; i++) {
        struct queue *queue = &from.of[from.turn % from.many];
        double waits = held(queue) ? waits_until(queue, read, time) : 0;
        size_t bytes = held(queue) && waits == 0 ? lines_of_turn(queue) : 0;
        if (chunk_held && chunk_held + bytes > WRITE) return;
        from.turn = (from.turn + 1) % from.many;
        if (waits > 0 && waits < rested) rested = waits;
        if (bytes) give_lines(queue, bytes, time);
    }
}

static void end_input(void) {
    if (node_in.fd < 0) return;
    watch(&node_in, 0);
    close(node_in.fd);
    node_in.fd = -1;
}

static void feed_node(double time) {
    while (node_in.fd >= 0 && !node_full) {
        if (chunk_at == chunk_held) fill_chunk(time);
        if (chunk_at == chunk_held) return;
        size_t bytes = chunk_held - chunk_at < CHUNK ? chunk_held - chunk_at : CHUNK;
        ssize_t written = write(node_in.fd, chunk + chunk_at, bytes);
        if (written > 0) chunk_at += (size_t)written, given += (uint64_t)written;
        else if (errno == EAGAIN) node_full = true, watch(&node_in, EPOLLOUT);
        else if (errno != EINTR) end_input();
    }
}

static void node_takes(struct watch *it, uint32_t events) {
    (void)events;
    node_full = false, watch(it, 0);
}

/* A tick follows the node's own lines, and comes only once the node has read the tick before. */
static void give_tick(void) {
    if (node_in.fd < 0 || tick_waits || read_by_node() < tick_end) return;
    if (add(mine, mine->head, "tick", 4, &count.full)) tick_waits = held(mine), ticks++;
}

/* Only a tick has a session ask round a peer that is silent, so ticks come quickly then, by the length of registers' lines. They don't while the node asks for chunks that it lacks: a tick
   has it ask again, and those lines are long. */
static double next_tick(double time) {
    double due = tick_due;
    for (size_t i = 0; i < PLACES && time >= lacks_until; i++) {
        double since = asked_since[i] > tick_given ? asked_since[i] : tick_given;
        if (asked_since[i] > 0 && since + quick_time < due) due = since + quick_time;
    }
    return due;
}

/* It is to tell the others which forms of lines it speaks: again and again, since lines are lost, and others are started again. */
static void give_greet(double time) {
    if (node_in.fd >= 0 && add(mine, mine->head, "greet", 5, &count.full)) greet_due = time + about(GREET);
}

/* From the node */

/* A tenant pays for what the node writes for it: answers, and letters to other nodes, which begin with his name. */
static void charge_for(const char *to, size_t name, const char *body, size_t length) {
    const char *space = is_tenant(to) ? NULL : memchr(body, ' ', length);
    if (space) to = body, name = (size_t)(space - body);
    if (name > NAME) return;
    for (size_t i = 0; i < from.many; i++) {
        struct queue *queue = &from.of[i];
        if (!queue->tally || memcmp(queue->name, to, name) || queue->name[name]) continue;
        charge(queue, length / PART, last_line);
        return;
    }
}

/* Whether one of these words, each with a space behind it, stands behind so many others. */
static bool has_word(const char *body, size_t length, int others, const char *const *words) {
    const char *end = body + length, *space;
    for (; others; others--, body = space + 1)
        if (!(space = memchr(body, ' ', (size_t)(end - body)))) return false;
    for (; *words; words++)
        if ((size_t)(end - body) >= strlen(*words) && !memcmp(body, *words, strlen(*words))) return true;
    return false;
}

/* A line to the node of this name. A letter that asks is answered at once: `T S OP ROUND V F ask ..`, and others. */
static void asks_peer(const char *name, const char *body, size_t length) {
    static const char *const letters[] = {"ask", "store ", "confirm ", NULL}, *const chunks[] = {"seeks ", "wants ", NULL};
    double *since = &asked_since[atoi(name) % PLACES];
    if (*since == 0 && has_word(body, length, 6, letters)) *since = last_line;
    if (has_word(body, length, 1, chunks)) lacks_until = last_line + LACKS;
}

/* An answer `plan`, with what this machine's clock says: so clients can tell whether age goes by theirs. */
static void carry_plan(const char *name, size_t name_length, const char *body, size_t length) {
    char word[32], *both = malloc(length + sizeof word);
    int more = snprintf(word, sizeof word, " clock=%lld", (long long)time(NULL));
    if (!both) {
        memory_refused();
        return;
    }
    memcpy(both, body, length), memcpy(both + length, word, (size_t)more);
    engine_carry(name, name_length, both, length + (size_t)more);
    free(both);
}

static void take_line(const char *text, size_t length) {
    const char *space = memchr(text, ' ', length);
    size_t name = space ? (size_t)(space - text) : 0, head = name + own + 2;
    if (length == 2 && !memcmp(text, " ?", 2)) {               /* (a node begins with this) */
        node_ready = true, greet_due = last_line + GREET_FIRST;
        return;
    }
    bool good = is_name(text, name) && length > head && !memcmp(space + 1, me, own) && text[head - 1] == ' ';
    if (good && length > SHORT) charge_for(text, name, text + head, length - head);
    if (length > longest) count.too_long++;
    else if (!good) count.strange++;
    else if (name == own && !memcmp(text, me, own)) for_node(mine, text + head, length - head);
    else {
        if (!is_tenant(text)) hear_form(me, text + head, length - head), asks_peer(text, text + head, length - head);
        bool of_plan = is_tenant(text) && length > head + 5 && !memcmp(text + head, "plan ", 5);
        (of_plan ? carry_plan : engine_carry)(text, name, text + head, length - head);
    }
}

/* (What follows the last LF at the end of its output is no line.) */
static void read_node(struct watch *it, uint32_t events) {
    (void)events;
    ssize_t came = read(it->fd, piece + piece_held, CHUNK);
    if (came < 0 && (errno == EAGAIN || errno == EINTR)) return;
    if (came <= 0) {
        watch(it, 0);
        close(it->fd);
        it->fd = -1, node_ready = false, greet_due = 0;
        return;
    }
    last_line = now();
    char *text = piece, *end = piece + piece_held + came, *search = piece + piece_held;
    for (char *stop; (stop = memchr(search, '\n', (size_t)(end - search))); text = search = stop + 1) {
        if (!skipping) take_line(text, (size_t)(stop - text));
        skipping = false;
    }
    piece_held = (size_t)(end - text);
    if (piece_held > longest && !skipping) skipping = true, count.too_long++;
    if (skipping) piece_held = 0;
    memmove(piece, text, piece_held);
}

/* The process */

static void on_signal(int number) {
    if (number == SIGUSR1) asked_counts = 1;
    else if (number == SIGHUP) hung_up = 1;
    else ending = 1;
}

/* For the node's C library: what a large content took is kept for the next one, and not given back to the system page by page. */
static const char keep_memory[] = "glibc.malloc.mmap_threshold=8388608:glibc.malloc.trim_threshold=67108864";

static bool start(char **command, const sigset_t *open_mask, pid_t *child) {
    int in[2], out[2];
    if (pipe2(in, O_CLOEXEC) || pipe2(out, O_CLOEXEC)) return false;
    if ((*child = fork()) < 0) return false;
    if (*child == 0) {
        setpgid(0, 0);      /* (Ctrl-C is for carry alone; setsid would also make a group of the scheduler) */
        signal(SIGPIPE, SIG_DFL);
        sigprocmask(SIG_SETMASK, open_mask, NULL);
        setenv("GLIBC_TUNABLES", keep_memory, 0);
        if (dup2(in[0], STDIN_FILENO) >= 0 && dup2(out[1], STDOUT_FILENO) >= 0) execvp(*command, command);
        say("%s: %s", *command, strerror(errno));
        _exit(127);
    }
    close(in[0]), close(out[1]);
    node_in = (struct watch){.fd = in[1], .call = node_takes}, node_out = (struct watch){.fd = out[0], .call = read_node};
    fcntl(in[1], F_SETPIPE_SZ, PIPE);
    if (fcntl(in[1], F_SETFL, O_NONBLOCK) || fcntl(out[0], F_SETFL, O_NONBLOCK)) return false;
    watch(&node_out, EPOLLIN);
    return true;
}

/* Metrics */

static void tell_tenants(const char *name, const char *help, double (*value)(const struct tally *)) {
    metric(name, "counter", help);
    for (size_t i = 0; i < tallies.many; i++) sample("tenant", tallies.of[i].name, value(&tallies.of[i]));
    if (tallies.others.lines || tallies.others.dropped) sample("tenant", tallies.others.name, value(&tallies.others));
}

static double lines_of(const struct tally *it) { return (double)it->lines; }
static double bytes_of(const struct tally *it) { return (double)it->bytes; }
static double dropped_of(const struct tally *it) { return (double)it->dropped; }
static double over_rate_of(const struct tally *it) { return it->over_rate; }

/* Nothing is told of a node that has told none for some time: its program, or its carrier, is of before, or it is down. */
static void tell_forms(void) {
    const struct form *mine_told = &forms[atoi(me) % PLACES];
    if (is_told(mine_told) && mine_told->node == atoi(me))
        single("node_line_form", "gauge", "The node told that it speaks all forms of lines between nodes up to this one.", mine_told->form);
    metric("carrier_line_form", "gauge", "The same of each other node that has told it within three minutes.");
    for (const struct form *it = forms; it < forms + PLACES; it++) {
        char peer[12];
        if (!is_told(it) || it->node == atoi(me)) continue;
        snprintf(peer, sizeof peer, "%d", it->node);
        sample("peer", peer, it->form);
    }
}

static void tell_dropped(void) {
    const struct { const char *reason; long lines; } all[] = {{"lost", count.lost}, {"full", count.full}, {"slow", count.slow},
        {"long", count.too_long}, {"strange", count.strange}, {"memory", count.memory}};
    metric("carrier_lines_dropped_total", "counter", "Lines that were dropped: lost without a connection, full by the bound of a sender, slow by that of a reader, long, strange by their form, or for lack of memory.");
    for (size_t i = 0; i < sizeof all / sizeof *all; i++) sample("reason", all[i].reason, (double)all[i].lines);
}

static void tell_metrics(void) {
    struct stat file;
    size_t waits = 0;
    for (size_t i = 0; i < from.many; i++) waits += held(&from.of[i]);
    single("node_ready", "gauge", "1 once the node has read its journal and takes lines, and as long as it runs.", node_ready);
    single("node_ticks_total", "counter", "Ticks that the node was given. It gets none as long as it has not read the last one.", (double)ticks);
    single("node_last_line_timestamp_seconds", "gauge", "When the node last wrote a line; 0 before its first one.", last_line > 0 ? wall_time(last_line) : 0);
    single("node_waiting_bytes", "gauge", "Bytes of lines that wait for the node.", (double)waits);
    if (journal && !stat(journal, &file)) single("node_journal_bytes", "gauge", "Size of the node's journal.", (double)file.st_size);
    tell_forms();
    single("carrier_lines_in_total", "counter", "Lines that were taken for the node.", (double)count.in);
    single("carrier_lines_out_total", "counter", "Lines of the node that were taken for others.", (double)count.out);
    tell_dropped();
    single("carrier_connections_total", "counter", "Connections that were made.", (double)count.connected);
    tell_tenants("tenant_lines_total", "Lines of a tenant that were taken for the node.", lines_of);
    tell_tenants("tenant_bytes_total", "Bytes of these lines.", bytes_of);
    tell_tenants("tenant_lines_dropped_total", "Lines of a tenant that were more than its bound.", dropped_of);
    tell_tenants("tenant_over_rate_seconds_total", "Seconds for which a tenant had to wait, since it had used more than its rate.", over_rate_of);
    if (engine_runs) engine_metrics();
}

static void mind_metrics(double time) {
    if (!metrics_file || time < metrics_due) return;
    write_metrics(metrics_file, tell_metrics);
    metrics_due = time + METRICS;
}

/* One turn: does all that can be done now, and waits for more. */
static void pass(const sigset_t *open_mask) {
    double time = now(), wake;
    if (asked_counts) asked_counts = 0, metrics_due = 0, say_counts();
    mind_metrics(time);
    if (hung_up) hung_up = 0, engine_runs ? engine_hangup() : (void)0;
    if (ending || fault) end_input();
    if (time >= next_tick(time)) give_tick(), tick_given = time, tick_due = time + about(tick_time);
    if (greet_due > 0 && time >= greet_due) give_greet(time);
    wake = engine_runs ? engine_turn(time) : time + 0.1;
    feed_node(time);
    if (next_tick(time) < wake) wake = next_tick(time);
    if (greet_due > 0 && greet_due < wake) wake = greet_due;
    if (metrics_file && metrics_due < wake) wake = metrics_due;
    if (!node_full && rested > time && rested < wake) wake = rested;
    loop_once(wake - time, open_mask);
}

/* Waits until the node's last lines have left. */
static void flush(const sigset_t *open_mask) {
    for (double until = now() + 3; engine_runs && !engine_is_empty() && now() < until; pass(open_mask)) {}
}

static const char usage[] =
    "             [--grid GRID] [--tick SECONDS] [--plan FILE | --longest BYTES] [--metrics FILE] NUMBER -- COMMAND [ARG ..]\n"
    "Runs COMMAND as node NUMBER and carries its lines. It gives a tick each 0.25 s, and carries lines of at most 4095\n"
    "bytes without their end. If the plan, or --longest, has longer lines, it carries these, and ticks come less often:\n"
    "each 2.25 s for lines of 2 MiB, or by the plan's other lines while a node is silent that was asked. SIGTERM ends the command's input, and waits for its end; SIGUSR1 prints the counts.\n"
    "FILE gets metrics for Prometheus each ten seconds, at SIGUSR1 and at the end. GRID is a name for the grid, where several share\n"
    "a machine or a broker: a letter a to z, and up to 15 more letters or digits. It is a label of the metrics.\n"
    "Status: the command's, or 128 and the number of the signal that ended it; 1: a file can't be used; 2: a wrong word;\n"
    "3: out of memory.\n";

static bool show_usage(FILE *out) { return fprintf(out, "usage: carry %s\n%s%s", engine_words_usage, usage, engine_usage) < 0 || fflush(out); }

void wrong(const char *what, const char *word) {
    say("%s: %s", what, word);
    show_usage(stderr);
    exit(2);
}

double number(const char *what, const char *word, double least, double most) {
    char *end;
    double value = strtod(word, &end);
    if (*word < '0' || *word > '9' || *end || !(value >= least && value <= most)) wrong(what, word);
    return value;
}

/* Who is gone by a plan, and its longest line: 255 bytes, and 128 for each block that a tenant's largest file may have; or, of what a tenant
   has, 400 and 15 for each of its lines `open`; or, where a tenant has room for chunks, the longest of any plan, beside the longest of others. (The node itself refuses a
   plan with a fault.) */
static size_t read_plan(const char *plan, size_t *others) {
    struct { char name[17]; size_t opens; } tenants[TENANTS] = {{"", 0}};
    char row[256], name[17];
    size_t found = LONGEST, many = 0;
    bool behind = false;
    FILE *file = fopen(plan, "re");
    if (!file) say("%s: %s", plan, strerror(errno)), exit(1);
    while (fgets(row, sizeof row, file)) {
        unsigned long most = 0, files, kib;
        size_t length = 0;
        if (!strcmp(row, "go\n")) behind = true;
        else if (!behind && many < TENANTS && sscanf(row, "tenant %16s %*s %*s %*s %lu", tenants[many].name, &most) > 0) {
            if (most <= (LONGEST_EVER - 255) / 128) length = 128 * most + 255;
            many++;
        } else if (behind && sscanf(row, "%16s open %lu", name, &files) == 2) {
            for (size_t i = 0; i < many; i++)
                if (!strcmp(tenants[i].name, name)) length = 15 * ++tenants[i].opens + 400;
        } else if (behind && sscanf(row, "gone %16s", name) == 1) {
            add_gone(name);
        } else if (behind && sscanf(row, "%16s chunks %lu", name, &kib) == 2) {
            found = LONGEST_EVER;
        }
        if (*others < length && length <= LONGEST_EVER) *others = length;
        if (found < *others) found = *others;
    }
    fclose(file);
    return found;
}

static double tick_of(size_t line) { return 0.25 + (double)(line - LONGEST) / (1 << 20); }

static char **read_words(char **at) {
    const char *tick = NULL, *length = NULL, *plan = NULL;
    struct word words[] = {{"--tick", &tick}, {"--longest", &length}, {"--plan", &plan}, {"--metrics", &metrics_file}, {"--grid", &grid}, {NULL, NULL}};
    for (at++; *at && !strncmp(*at, "--", 2); at += 2) {
        const struct word *found = words;
        if (!strcmp(*at, "--help")) exit(show_usage(stdout));
        while (found->word && strcmp(*at, found->word)) found++;
        if (!found->word)
            for (found = engine_words; found->word && strcmp(*at, found->word); found++) {}
        if (!found->word || !at[1]) wrong(found->word ? "another word has to follow" : "no such word", *at);
        *found->to = at[1];
    }
    size_t of_registers = LONGEST;
    if (plan) longest = read_plan(plan, &of_registers);
    if (length) longest = of_registers = (size_t)number("--longest", length, LONGEST, LONGEST_EVER);
    tick_time = tick ? number("--tick", tick, 0.01, 3600) : tick_of(longest);
    quick_time = tick ? tick_time : tick_of(of_registers);
    if (!at[0] || !at[1] || strcmp(at[1], "--") || !at[2]) wrong("NUMBER -- COMMAND", "is wanting");
    me = at[0], own = strlen(me);
    if (metrics_file && !*metrics_file) metrics_file = NULL;
    if (*grid && !is_grid(grid)) wrong("--grid", grid);
    for (char **word = at + 2; *word; word++)
        if (!strcmp(*word, "--journal")) journal = word[1];
    if (is_tenant(me) || !is_name(me, own)) wrong("NUMBER", me);
    if (bound < 4 * longest) bound = 4 * longest;
    if (rate < 16 * longest) rate = 16 * longest;
    if (ahead * longest > AHEAD) ahead = AHEAD / longest > FEW ? AHEAD / longest : FEW;
    mine = queue_of(me, own);
    mine->users = 1;
    engine_read_words();
    return at + 2;
}

/* Carrier and node work for some microseconds at a time. So they ask the scheduler for short slices: their turns come sooner, and they
   get no more of the processor. (Linux before 6.12 ignores this.) */
static void ask_short_slices(void) {
    struct { uint32_t size, policy; uint64_t flags; int32_t nice; uint32_t priority; uint64_t runtime, deadline, period; } it = {.size = 48, .runtime = 100000};
    if (syscall(SYS_sched_getattr, 0, &it, sizeof it, 0)) return;
    it.size = 48, it.runtime = 100000;
    syscall(SYS_sched_setattr, 0, &it, 0);
}

/* Waits for the end of a node that has closed its output: not for ever, since we serve nobody meanwhile. */
static int status_of(pid_t child) {
    int status = 0;
    double until = now() + ENDS;
    for (pid_t ended; (ended = waitpid(child, &status, WNOHANG)) != child;) {
        if (ended < 0 && errno != EINTR) return status;
        if (now() > until) say("node %s has closed its output, and does not end: it is killed", me), kill(child, SIGKILL), until += 3600;
        poll(NULL, 0, 10);
    }
    return status;
}

int main(int argc, char **argv) {
    (void)argc;
    char **command = read_words(argv);
    struct sigaction action = {.sa_handler = on_signal};
    sigset_t blocked, open_mask;
    int status = 0, signals[] = {SIGTERM, SIGINT, SIGUSR1, SIGHUP};
    pid_t child = -1;
    ask_short_slices();
    while ((status = open("/dev/null", O_RDWR)) >= 0 && status < 3) {}     /* (no pipe of ours may become 0, 1 or 2) */
    close(status);
    sigemptyset(&blocked);
    for (int i = 0; i < 4; i++) sigaddset(&blocked, signals[i]), sigaction(signals[i], &action, NULL);
    sigprocmask(SIG_BLOCK, &blocked, &open_mask);
    signal(SIGPIPE, SIG_IGN);
    srandom((unsigned)getpid());
    piece = malloc(longest + CHUNK + 1), chunk = malloc(longest < WRITE ? WRITE : longest + 1);
    if (!piece || !chunk || !loop_begin() || !start(command, &open_mask, &child)) {
        say("%s: %s", *command, strerror(errno));
        return errno == ENOMEM ? 3 : 1;
    }
    if (!(engine_runs = engine_begin()) && !fault) fault = 1;
    tick_due = now() + about(tick_time);
    while (node_out.fd >= 0) pass(&open_mask);
    end_input();
    flush(&open_mask);
    engine_end();
    status = status_of(child);
    if (WIFSIGNALED(status)) say("node %s ended by signal %d%s", me, WTERMSIG(status), WTERMSIG(status) == SIGKILL ? ": killed, maybe for lack of memory" : "");
    else say("node %s ended with status %d", me, WEXITSTATUS(status));
    say_counts();
    metrics_due = 0, mind_metrics(now());
    if (!fault) fault = WIFEXITED(status) ? WEXITSTATUS(status) : 128 + WTERMSIG(status);
    engine_free(fault);
    return fault;
}
