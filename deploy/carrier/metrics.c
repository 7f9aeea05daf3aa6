#define _GNU_SOURCE
#include "metrics.h"
#include "node.h"
#include <errno.h>
#include <fcntl.h>
#include <limits.h>
#include <stdio.h>
#include <string.h>
#include <sys/stat.h>
#include <time.h>
#include <unistd.h>

static FILE *out;
static const char *current;

void metric(const char *name, const char *type, const char *help) {
    current = name;
    fprintf(out, "# HELP gridfs_%s %s\n# TYPE gridfs_%s %s\n", name, help, name, type);
}

/* (Values of labels are numbers and words of letters: there is nothing in them to escape.) */
void sample(const char *label, const char *value, double number) {
    fprintf(out, "gridfs_%s{node=\"%s\"", current, me);
    if (*grid) fprintf(out, ",grid=\"%s\"", grid);
    if (label) fprintf(out, ",%s=\"%s\"", label, value);
    fprintf(out, "} %.15g\n", number);
}

void single(const char *name, const char *type, const char *help, double number) {
    metric(name, type, help);
    sample(NULL, NULL, number);
}

double wall_time(double time) {
    struct timespec moment;
    clock_gettime(CLOCK_REALTIME, &moment);
    return (double)moment.tv_sec + (double)moment.tv_nsec / 1e9 - (now() - time);
}

/* The file is for a collector that runs as another user. */
static bool write_beside(const char *beside, void (*tell)(void)) {
    if (unlink(beside) && errno != ENOENT) return false;
    int fd = open(beside, O_WRONLY | O_CREAT | O_EXCL | O_CLOEXEC, 0644);
    if (fd < 0) return false;
    if (!(out = fdopen(fd, "w"))) return close(fd), false;
    tell();
    bool good = !fflush(out) && !ferror(out) && !fchmod(fd, 0644);
    int error = errno;
    fclose(out);
    errno = error;
    return good;
}

void write_metrics(const char *file, void (*tell)(void)) {
    static char told[80];
    char beside[PATH_MAX] = "", why[sizeof told] = "";
    if (snprintf(beside, sizeof beside, "%s.new", file) >= PATH_MAX) errno = ENAMETOOLONG, *beside = 0;
    if (!*beside || !write_beside(beside, tell) || rename(beside, file)) {
        snprintf(why, sizeof why, "%s", strerror(errno));
        if (strcmp(why, told)) say("%s: %s: there are no metrics", file, why);
        if (*beside) unlink(beside);
    }
    memcpy(told, why, sizeof told);
}
