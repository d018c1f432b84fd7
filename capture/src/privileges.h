/* What the program may do beyond its user: to capture, and no more than that. */
#ifndef PRIVILEGES_H
#define PRIVILEGES_H

#include "arguments.h"

#include <stdbool.h>

/* Gives up all capabilities, and all that a program could give; where root can't be limited by Landlock, its user too,
 * for that of the feeds. Only cap_net_raw is kept where it was had, out of force, for an interface that comes back.
 * Whether that could be done; else a line has said why not. */
bool drop_privileges(const struct arguments *arguments);

/* The same of a program that captures nothing: only those are kept by which root reads the files of others. */
bool drop_privileges_but_files(void);

/* Puts cap_net_raw in force for this thread, and out of force again; a line says where that can't be done. */
void begin_to_open(void);
void end_to_open(void);

#endif
