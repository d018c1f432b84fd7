#include "check_sequence.h"

/* libdeflate takes half the time of a zlib at 60 bytes and an eighth at 1,500. */
#ifndef WITHOUT_LIBDEFLATE
#include <libdeflate.h>

uint32_t check_sequence(const unsigned char *frame, size_t len) {
    return libdeflate_crc32(0, frame, len);
}
#else
#include <zlib.h>

uint32_t check_sequence(const unsigned char *frame, size_t len) {
    return (uint32_t)crc32_z(0, frame, len);
}
#endif
