/* What --help prints. */
#ifndef USAGE_H
#define USAGE_H

extern const char USAGE[];

#endif
