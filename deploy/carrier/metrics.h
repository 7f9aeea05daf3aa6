/* A file for Prometheus, in its text format. It is written beside and renamed, so that nobody reads a half of it. */
#ifndef METRICS_H
#define METRICS_H

void write_metrics(const char *file, void (*tell)(void));       /* `tell` makes the calls below; a fault of the file is reported once */
void metric(const char *name, const char *type, const char *help);      /* its samples follow */
void sample(const char *label, const char *value, double number);       /* label: NULL if there is none beside the node's */
void single(const char *name, const char *type, const char *help, double number);       /* one that has one sample */
double wall_time(double time);                                  /* of the loop's time, in seconds since 1970 */
#endif
