/* Where the program may write, once all is open: below the folders of its feeds, events and counts alone. */
#ifndef WRITTEN_FOLDERS_H
#define WRITTEN_FOLDERS_H

#include "arguments.h"

#include <stdbool.h>

/* Whether the kernel has Landlock, by which a program limits what it may write. */
bool has_landlock(void);

/* Has the kernel refuse all writing but below the folders of what the arguments name, by Landlock; reading isn't
 * limited. Where that can't be done a line says so, and the run goes on. */
void limit_writing(const struct arguments *arguments);

#endif
