/* Lines on standard error. */
#ifndef LOG_H
#define LOG_H

/* Opens standard error anew where it is a pipe or a terminal, before any line: then no write waits, and whoever shares
 * it keeps one that does. */
void open_log(void);

/* A line on standard error, written at once: `capture: ` and what the format makes. A line that finds no room is left
 * out and counted, so that nobody waits for whoever reads it. */
void log_line(const char *format, ...) __attribute__((format(printf, 1, 2)));

#endif
