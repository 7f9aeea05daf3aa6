/* The engine over a broker of MQTT. A message's topic is gridfs/TO/FROM, or gridfs/GRID/TO/FROM, its payload BODY lines parted by LF. FROM is taken from
   the topic alone: so the broker's access list decides who may speak as whom. Nothing here waits for the broker or for a host's address. */
#define _GNU_SOURCE
#include "metrics.h"
#include "node.h"
#include <errno.h>
#include <mosquitto.h>
#include <netdb.h>
#include <pthread.h>
#include <stdio.h>
#include <stdlib.h>
#include <string.h>
#include <sys/eventfd.h>
#include <sys/socket.h>
#include <sys/stat.h>
#include <unistd.h>

enum { KEEPALIVE = 5 };         /* seconds */

static const char *place, *host, *password_file, *ca_file, *certificate, *key;
static int port;
static char topics[NAME + sizeof "gridfs//"];    /* how all of the grid begin */
static char prefix[sizeof topics + sizeof "NNN/"];       /* of topics of lines to the node */
static char user[NAME + sizeof "-NNN"];
static const double NEVER = 1e18;

static struct queue to[NAMES];                  /* lines that wait for the broker; the head of each is a topic */
static size_t to_many, to_turn;
static long messages_in, messages;

static struct mosquitto *broker;
static struct watch to_broker = {.fd = -1};     /* the broker's socket */
static enum { AWAY, LOOKING, COMING, HERE } state;
static bool heard, slow_told, file_told;
static int refused;                             /* what CONNACK said */
static int looked_up, look_error;               /* of `look` */
static struct watch look_done = {.fd = -1};
static pthread_t look_thread;
static double next_try, wait_time = 0.1, look_until, connected_at, deaf_at;
static char why[300], told[300];

const char engine_words_usage[] = "--broker HOST:PORT [--ca-file FILE] [--certificate FILE --key FILE] --password-file FILE";
const char engine_usage[] =
    "Over an MQTT broker, by the topics gridfs/TO/FROM, or gridfs/GRID/TO/FROM: with TLS where --ca-file says whom to trust; as the user\n"
    "NUMBER, or GRID-NUMBER, with the first line of the password file (not wanted with a certificate). Status 1 also: the broker or TLS\n"
    "refuses the first connection.\n";
const struct word engine_words[] = {{"--broker", &place}, {"--ca-file", &ca_file}, {"--certificate", &certificate},
                                    {"--key", &key}, {"--password-file", &password_file}, {NULL, NULL}};

/* The queue of one to whom the node writes. One that is empty is given to another name if there are too many. */
static struct queue *queue_to(const char *name, size_t length) {
    struct queue *empty = NULL;
    for (size_t i = 0; i < to_many; i++) {
        if (!memcmp(to[i].name, name, length) && !to[i].name[length]) return &to[i];
        if (!held(&to[i])) empty = &to[i];
    }
    if (to_many < NAMES) empty = &to[to_many++];
    if (!empty) return NULL;
    memset(empty->name, 0, sizeof empty->name);
    memcpy(empty->name, name, length);
    snprintf(empty->head, sizeof empty->head, "%s%s/%s", topics, empty->name, me);
    return empty;
}

void engine_carry(const char *name, size_t name_length, const char *body, size_t length) {
    struct queue *queue = state == HERE ? queue_to(name, name_length) : NULL;
    if (!queue) count.lost++;
    else if (add(queue, "", body, length, &count.slow)) count.out++;
    else if (!slow_told) slow_told = true, say("the broker takes less than node %s writes: drops lines", me);
}

/* (The library closes its socket by itself, which takes it from epoll too.) */
static void forget_socket(void) {
    to_broker.fd = -1, to_broker.events = 0;
}

/* The broker */

static void broken(const char *reason) {
    if (state == HERE) {
        say("node %s disconnected: %s", me, reason);
        if (now() - connected_at > 10) wait_time = 0.1;
    } else if (strcmp(reason, told)) say("%s:%d: %s: tries again", host, port, reason);
    snprintf(told, sizeof told, "%s", reason);
    for (size_t i = 0; i < to_many; i++) {
        struct queue *queue = &to[i];
        if (held(queue)) count.lost += (long)count_lines(queue->bytes + queue->first, held(queue));
        forget(queue, held(queue));
    }
    forget_socket();
    state = AWAY;
    next_try = now() + about(wait_time);
    wait_time = wait_time < 2.5 ? 2 * wait_time : 5;
}

static void broken_by(int result) {
    bool silence = result == MOSQ_ERR_KEEPALIVE || (result == MOSQ_ERR_ERRNO && errno == EINTR);
    /* A first connection that is refused by the broker (3: it isn't ready yet) or by TLS is for a person to mend. A later
       one is tried again, since it may be the broker that is mended. */
    if (!count.connected && *why && ((refused && refused != 3) || result == MOSQ_ERR_TLS)) {
        say("%s:%d: %s", host, port, why);
        state = AWAY, fault = 1;
    } else if (*why) broken(why);
    else if (silence) broken("no answer within 5 s");
    else broken(result == MOSQ_ERR_ERRNO ? strerror(errno) : mosquitto_strerror(result));
}

/* the first fault that the library tells of TLS says most */
static void on_log(struct mosquitto *library, void *unused, int level, const char *text) {
    (void)library, (void)unused;
    if (level == MOSQ_LOG_ERR && !*why) snprintf(why, sizeof why, "%s", text);
}

/* an access list refuses without a sound; and what comes back says that the broker has all that went before */
static int word_to_itself(void) {
    char topic[sizeof prefix + 2];
    snprintf(topic, sizeof topic, "%s%s", prefix, me);
    heard = false;
    return mosquitto_publish(broker, NULL, topic, 0, NULL, 0, false);
}

static void on_connect(struct mosquitto *library, void *unused, int result) {
    (void)unused;
    char topic[sizeof prefix + 1];
    if ((refused = result)) {
        snprintf(why, sizeof why, "%s", mosquitto_connack_string(result));
        return;
    }
    mosquitto_log_callback_set(library, NULL);  /* it costs for each message */
    snprintf(topic, sizeof topic, "%s+", prefix);
    state = mosquitto_subscribe(library, NULL, topic, 0) || word_to_itself() ? AWAY : HERE;
    if (state == AWAY) return;
    say("node %s connected to %s:%d", me, host, port);
    connected_at = now(), deaf_at = connected_at + 5, slow_told = false, *told = *why = 0, count.connected++;
}

static void on_message(struct mosquitto *library, void *unused, const struct mosquitto_message *it) {
    (void)library, (void)unused;
    bool mine = !strncmp(it->topic, prefix, strlen(prefix));
    const char *name = mine ? it->topic + strlen(prefix) : "";
    messages_in++;
    if (it->retain || !is_name(name, strlen(name))) count.strange++;
    else if (!strcmp(name, me)) heard = true, deaf_at = NEVER;
    else if (it->payloadlen > 0) for_node(queue_of(name, strlen(name)), it->payload, (size_t)it->payloadlen);
}

/* Looking up addresses and trying each may take long, and the library does it within its call: so in a thread, which
   alone uses it meanwhile. A signal now and then ends the attempt at one address (EINTR), and the next is tried. */
static void *look(void *unused) {
    looked_up = mosquitto_connect(broker, host, port, KEEPALIVE);
    look_error = errno;
    if (eventfd_write(look_done.fd, 1)) abort();
    return unused;
}

/* The first line of the file, read again for each connection: a password may change. What is wrong with it, or NULL. */
static const char *set_password(void) {
    char line[1024] = "";
    struct stat kind;
    const char *wrong = NULL;
    if (!password_file) return NULL;
    FILE *file = fopen(password_file, "re");
    if (!file) return strerror(errno);
    size_t length = fgets(line, sizeof line, file) ? strcspn(line, "\r\n") : 0;
    if (fstat(fileno(file), &kind)) wrong = strerror(errno);
    else if (kind.st_mode & (S_IROTH | S_IWOTH)) wrong = "others may read or write it";
    else if (!length || length >= sizeof line - 1) wrong = "no password on its first line";
    line[length] = 0;
    if (!wrong && mosquitto_username_pw_set(broker, user, line)) wrong = strerror(ENOMEM);
    fclose(file);
    return wrong;
}

static void try_broker(void) {
    *why = 0, refused = 0, look_until = now() + KEEPALIVE;
    mosquitto_log_callback_set(broker, on_log);
    const char *wrong = set_password();
    if (wrong && !file_told) say("%s: %s", password_file, wrong);  /* the last password is used again */
    file_told = wrong;
    state = LOOKING;
    if (pthread_create(&look_thread, NULL, look, NULL)) broken("no thread can be started");
}

static void looked(struct watch *watched, uint32_t events) {
    eventfd_t one;
    (void)events;
    if (eventfd_read(watched->fd, &one)) return;
    pthread_join(look_thread, NULL);
    state = COMING, errno = look_error;
    if (looked_up == MOSQ_ERR_EAI) broken(gai_strerror(errno));
    else if (looked_up > 0) broken_by(looked_up);
}

static void use_broker(uint32_t events) {
    int result = MOSQ_ERR_SUCCESS, error = 0;
    socklen_t size = sizeof error;
    if (state == COMING && events & (EPOLLERR | EPOLLHUP)) {     /* of these the library tells nothing amid TLS */
        getsockopt(mosquitto_socket(broker), SOL_SOCKET, SO_ERROR, &error, &size);
        broken(error ? strerror(error) : "no connection");
        return;
    }
    for (int most = 500; events && !result && most; most--) {  /* one message each, till none is left */
        errno = 0;
        result = mosquitto_loop_read(broker, 1);
        if (errno == EAGAIN || state != HERE) break;
    }
    if (!result && events && (state == COMING || events & EPOLLOUT)) result = mosquitto_loop_write(broker, 1);
    if (!result) result = mosquitto_loop_misc(broker);
    if (result) broken_by(result);
    else if (state == AWAY) broken("out of memory");
}

static void happened(struct watch *it, uint32_t events) {
    (void)it;
    use_broker(events);
}

/* Lines that wait for one name become one message; while the broker takes none, more of them come to share one. */
static void publish(void) {
    for (size_t i = 0; i < to_many && state == HERE && !mosquitto_want_write(broker); i++) {
        struct queue *queue = &to[to_turn = (to_turn + 1) % to_many];
        while (held(queue) && !mosquitto_want_write(broker)) {
            size_t bytes = lines_in(queue, CHUNK);
            int result = mosquitto_publish(broker, NULL, queue->head, (int)bytes - 1, queue->bytes + queue->first, 0, false);
            if (result == MOSQ_ERR_NOMEM) memory_refused();
            else if (result) {
                broken_by(result);
                return;
            } else messages++;
            forget(queue, bytes);
        }
    }
}

/* What node.c asks of an engine */

static bool cannot(const char *what, const char *why_not, int status) {
    say("%s: %s", what, why_not);
    fault = status;
    return false;
}

static void on_usr2(int number) { (void)number; }

/* (after the node's start: it would inherit what the library opens) */
bool engine_begin(void) {
    const char *files[] = {ca_file, certificate, key}, *wrong = NULL;
    char name[40];
    snprintf(name, sizeof name, "gridfs-%s", user);
    struct sigaction action = {.sa_handler = on_usr2};
    sigaction(SIGUSR2, &action, NULL);          /* of `look` */
    signal(SIGHUP, SIG_DFL);
    look_done = (struct watch){.fd = eventfd(0, EFD_CLOEXEC), .call = looked};
    bool is_there = look_done.fd >= 0 && !mosquitto_lib_init() &&
                    (broker = mosquitto_new(name, true, NULL));
    if (!is_there) return cannot("libmosquitto", strerror(errno), errno == ENOMEM ? 3 : 1);
    watch(&look_done, EPOLLIN);
    mosquitto_connect_callback_set(broker, on_connect);
    mosquitto_message_callback_set(broker, on_message);
    mosquitto_int_option(broker, MOSQ_OPT_TCP_NODELAY, 1);
    for (int i = 0; i < 3; i++)
        if (files[i] && access(files[i], R_OK)) return cannot(files[i], strerror(errno), 1);
    if (ca_file && mosquitto_tls_set(broker, ca_file, NULL, certificate, key, NULL)) return cannot(ca_file, "no use to TLS", 1);
    return !(wrong = set_password()) || cannot(password_file, wrong, 1);
}

static void set_host(const char *word) {
    const char *colon = strrchr(word, ':');
    if (!colon || colon == word) wrong("--broker", word);
    port = (int)number("--broker", colon + 1, 1, 65535);
    bool six = *word == '[' && colon[-1] == ']';
    if (!(host = strndup(word + six, (size_t)(colon - word) - 2 * six))) wrong("--broker", strerror(errno));
}

void engine_read_words(void) {
    if (!place) wrong("--broker", "is wanting");
    set_host(place);
    snprintf(topics, sizeof topics, "gridfs/%s%s", grid, *grid ? "/" : "");
    snprintf(prefix, sizeof prefix, "%s%s/", topics, me);
    snprintf(user, sizeof user, "%s%s%s", grid, *grid ? "-" : "", me);
    if (!certificate != !key || (certificate && !ca_file)) wrong("--certificate", "goes with --key and --ca-file");
    if (!password_file && !certificate) wrong("--password-file", "is wanting");
}

/* (The broker keeps what waits for a tenant.) */
bool engine_is_behind(struct queue *queue, double time) {
    (void)queue, (void)time;
    return false;
}

double engine_turn(double time) {
    if (state == COMING || state == HERE) use_broker(0);
    if (state == AWAY && !fault && time >= next_try) try_broker();
    if (state == LOOKING && time >= look_until) pthread_kill(look_thread, SIGUSR2), look_until = time + KEEPALIVE;
    if (state == HERE && time > deaf_at)
        deaf_at = NEVER, say("the broker doesn't carry what node %s tells itself: its access list?", me);
    publish();
    if (state == COMING || state == HERE) {
        if (to_broker.fd != mosquitto_socket(broker)) to_broker = (struct watch){.fd = mosquitto_socket(broker), .call = happened};
        watch(&to_broker, EPOLLIN | (state == HERE && mosquitto_want_write(broker) ? EPOLLOUT : 0));
    }
    return state == AWAY && next_try > time && next_try < time + 1 ? next_try : time + 1;
}

/* The node's last lines have left when a word to itself has come back, which goes after them. */
bool engine_is_empty(void) {
    static bool asked;
    static double until;
    size_t left = 0;
    if (until == 0) until = now() + 1;
    for (size_t i = 0; i < to_many; i++) left += held(&to[i]);
    if (!asked && !left && state == HERE) asked = !word_to_itself();
    return state != HERE || (asked && heard) || now() > until;
}

const char *engine_counts(void) {
    static char text[80];
    snprintf(text, sizeof text, " messages_in %ld messages %ld", messages_in, messages);
    return text;
}

void engine_metrics(void) {
    single("carrier_broker_up", "gauge", "1 while the broker is connected.", state == HERE);
    single("carrier_messages_in_total", "counter", "Messages of the broker.", (double)messages_in);
    single("carrier_messages_out_total", "counter", "Messages to the broker.", (double)messages);
}

void engine_end(void) {
    if (state == HERE) mosquitto_disconnect(broker);
}

void engine_hangup(void) {}     /* (SIGHUP ends this carrier) */

void engine_free(int status) {
    if (state == LOOKING) _exit(status);        /* a thread is still within the library */
    mosquitto_destroy(broker);
    mosquitto_lib_cleanup();
}
