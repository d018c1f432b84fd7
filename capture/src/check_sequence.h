/* The frame check sequence of Ethernet (IEEE 802.3, 3.2.9): the CRC-32 of zlib and of PNG. */
#ifndef CHECK_SEQUENCE_H
#define CHECK_SEQUENCE_H

#include <stddef.h>
#include <stdint.h>

enum { CHECK_SEQUENCE_LEN = 4 };

/* The check sequence of a frame's bytes; its lowest byte goes onto the wire first. */
uint32_t check_sequence(const unsigned char *frame, size_t len);

#endif
