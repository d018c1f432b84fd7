/* What is noted for the facts beside a recording: a file of lines, each an object of JSON. */
#ifndef EVENTS_H
#define EVENTS_H

#include <stdbool.h>

enum { JSON_NAME_LEN = 128 };

/* Opens the file at `path`, behind whose bytes events are put. Whether it could; else a line has said why not. */
bool open_events(const char *path);

/* Whether events are noted. */
bool has_events(void);

/* Notes an event, where events are noted: whether it was. It is put behind the others at once; where that fails, a line
 * says so, once. */
bool note_event(const char *format, ...) __attribute__((format(printf, 1, 2)));

/* An interface's name as JSON has it, without the quotation marks. Bytes that are no ASCII stay as they are. */
void print_json_name(const char *name, char text[JSON_NAME_LEN]);

#endif
