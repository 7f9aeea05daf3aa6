/* What clients and nodes say to each other (docs/FORMATS.md, Lines of nodes). */
#define _GNU_SOURCE
#include "load.h"
#include <stdio.h>
#include <stdlib.h>
#include <string.h>

static const unsigned long HIGH = 3000000000UL;         /* a number that no client reaches */
int nodes_many;

void begin_sessions(void) {
    for (int i = 0; i < clients_many; i++) clients[i].number = HIGH + (unsigned long)lrand48() % 1000000000UL;
}

bool all_free(void) {
    for (int i = 0; i < clients_many; i++)
        if (clients[i].state != IS_FREE) return false;
    return true;
}

int home_of(const struct client *it) { return (it->tenant * OF_A_TENANT + it->session - 1) % nodes_many; }

size_t line_of(const struct client *it, char *line) {
    static const char digits[] = "0123456789abcdef";
    if (it->state == LEARNS) return (size_t)snprintf(line, LINE, "abandon %d %lu", it->session, it->number);
    size_t length = (size_t)snprintf(line, LINE, "%s %d %lu %d %d", it->is_write ? "write" : "read", it->session, it->number, it->is_long, it->is_long ? 0 : it->file);
    if (!it->is_write) return length;
    line[length++] = ' ';
    if (it->is_long) {
        line[length++] = '=';
        memset(line + length, 'x', LONG);
        return length + LONG;
    }
    for (int i = 0; i < SIZE; i++) line[length++] = digits[it->content[i] >> 4], line[length++] = digits[it->content[i] & 15];
    return length;
}

size_t flood_line(char *line) {
    static unsigned long many;
    many++;
    return (size_t)snprintf(line, LINE, "read %lu %lu 0 0", many % OF_A_TENANT + 1, many);
}

size_t burst_of(const struct client *it, char *lines) {
    size_t length = line_of(it, lines);
    lines[length++] = '\n';
    for (int i = 1; i < BURST; i++) memcpy(lines + (size_t)i * length, lines, length);
    return BURST * length;
}

/* A session's start: it asks under a number that is too high, is told the last one, gives that up, and reads once under the next. */
static void go_on_starting(struct client *it, unsigned long last, bool has_ended) {
    it->number = last, it->is_write = it->is_long = false, it->file = 0;
    if (has_ended || !last) it->state = TRIES, it->number++;
    engine_ask(it);
}

static void hear_line(int tenant, const char *text, size_t length) {
    char head[80], kind[12] = "";
    int session;
    unsigned long number, last = 0;
    memcpy(head, text, length = length < sizeof head ? length : sizeof head - 1), head[length] = 0;
    bool is_done = sscanf(head, "done %11s %d %lu", kind, &session, &number) == 3, is_gone = sscanf(head, "gone %d %lu", &session, &number) == 2;
    if (!is_done && !is_gone && sscanf(head, "refused %11s %d %lu %lu", kind, &session, &number, &last) < 3) return;
    answers_many += is_done;
    struct client *it = &clients[(tenant - clients[0].tenant) * OF_A_TENANT + session - 1];
    if (session < 1 || session > OF_A_TENANT || it >= clients + clients_many || it->state == IS_FREE || it->number != number) return;
    bool is_old = !strcmp(kind, "old");
    if (it->state == LEARNS) go_on_starting(it, is_done || is_gone ? number : last, is_done || is_gone);
    else if (is_done) done(it);
    else if (is_gone) lost(it);
    else if (is_old && it->state == TRIES) go_on_starting(it, last, true);
    else if (is_old) it->number = last, lost(it);
    else if (strcmp(kind, "busy")) {
        fprintf(stderr, "load: a node says to %s: %s\n", tenants[tenant], head);
        exit(1);
    }
}

void hear(int tenant, const char *text, size_t length) {
    for (const char *end = text + length, *stop; text < end; text = stop + 1) {
        if (!(stop = memchr(text, '\n', (size_t)(end - text)))) stop = end;
        hear_line(tenant, text, (size_t)(stop - text));
    }
}
