/* A program that the kernel runs on the frames of an interface, so that those it drops are never brought. */
#ifndef PREFILTER_H
#define PREFILTER_H

#include <pcap/pcap.h>
#include <stdbool.h>

/* Has the kernel drop what the program of a listing drops, of all these sources of an interface's frames. Whether it
 * could; else a line has said why not. */
bool drop_by_listing(pcap_t *const *pcaps, int count, const char *interface, const char *path);

#endif
