#include "listing.h"

#include <errno.h>
#include <pthread.h>
#include <stdbool.h>
#include <stdint.h>
#include <stdio.h>
#include <stdlib.h>
#include <string.h>

#define NO_LISTING "no listing of a program: <count>,<code> <jt> <jf> <k>,.."

/* The legal codes, by docs/user/formats/filters.md. libpcap takes others for valid, and aborts where it runs one. */
static const unsigned char CODES[] = {
    0x00, 0x20, 0x28, 0x30, 0x40, 0x48, 0x50, 0x60, 0x80, 0x01, 0x61, 0x81, 0xb1, 0x02, 0x03, 0x04, 0x0c,
    0x14, 0x1c, 0x24, 0x2c, 0x34, 0x3c, 0x44, 0x4c, 0x54, 0x5c, 0x64, 0x6c, 0x74, 0x7c, 0x84, 0x94, 0x9c,
    0xa4, 0xac, 0x05, 0x15, 0x1d, 0x25, 0x2d, 0x35, 0x3d, 0x45, 0x4d, 0x06, 0x16, 0x07, 0x87,
};

/* The longest listing, and how many numbers an instruction has in it. */
enum { MOST_BYTES = 1048576, FIELDS = 4 };

/* Reads a number of decimal digits and nothing else. Whether the word is one of 32 bits. */
static bool read_number(const char *word, unsigned long *number) {
    errno = 0;
    *number = strtoul(word, NULL, 10);
    return errno == 0 && *number <= UINT32_MAX && word[strspn(word, "0123456789")] == '\0';
}

/* Reads the numbers of a piece, between spaces or tabs, and carriage returns at its ends. How many they are, 0 of an
 * empty piece; -1 where they are over FIELDS or something else stands there. */
static int read_numbers(char *piece, unsigned long numbers[FIELDS]) {
    char *rest, *first = piece + strspn(piece, " \t\r");
    for (size_t len = strlen(first); len > 0 && strchr(" \t\r", first[len - 1]) != NULL; len--)
        first[len - 1] = '\0';
    int count = 0;
    for (char *word = strtok_r(first, " \t", &rest); word != NULL; word = strtok_r(NULL, " \t", &rest))
        if (count == FIELDS || !read_number(word, &numbers[count++]))
            return -1;
    return count;
}

/* Puts an instruction behind the others. Whether there is room and each field is in its range. */
static bool add_insn(struct listing *listing, const unsigned long fields[FIELDS]) {
    if (listing->count == MOST_INSNS || fields[0] > UINT16_MAX || fields[1] > UINT8_MAX || fields[2] > UINT8_MAX)
        return false;
    listing->insns[listing->count++] =
        (struct bpf_insn){(u_short)fields[0], (u_char)fields[1], (u_char)fields[2], (bpf_u_int32)fields[3]};
    return true;
}

/* Reads a listing: pieces that end at commas and line feeds, of which the first is the count of instructions and each
 * other one an instruction. Whether it is one; the kernel judges the program. */
static bool take_apart(char *text, struct listing *listing) {
    unsigned long numbers[FIELDS], said = 0;
    char *rest;
    bool is_counted = false;
    for (char *piece = strtok_r(text, ",\n", &rest); piece != NULL; piece = strtok_r(NULL, ",\n", &rest)) {
        int count = read_numbers(piece, numbers);
        if (count == 1 && !is_counted) {
            said = numbers[0];
            is_counted = true;
        } else if (count != 0 && (count != FIELDS || !is_counted || !add_insn(listing, numbers))) {
            return false;
        }
    }
    return listing->count != 0 && listing->count == said;
}

static bool has_legal_codes(const struct listing *listing) {
    for (unsigned at = 0; at < listing->count; at++)
        if (listing->insns[at].code > UINT8_MAX || memchr(CODES, listing->insns[at].code, sizeof CODES) == NULL)
            return false;
    return true;
}

/* Reads a file as a text of at most MOST_BYTES. NULL, or why it is not one. */
static const char *read_text(const char *path, char text[MOST_BYTES + 1]) {
    FILE *file = fopen(path, "re");
    if (file == NULL)
        return strerror(errno);
    size_t len = fread(text, 1, MOST_BYTES + 1, file);
    int fault = ferror(file) ? errno : 0;
    fclose(file);
    if (fault != 0)
        return strerror(fault);
    if (len > MOST_BYTES)
        return "a listing has at most 1,048,576 bytes";
    text[len] = '\0';
    return memchr(text, '\0', len) == NULL ? NULL : NO_LISTING;
}

const char *read_listing(const char *path, struct listing *listing) {
    /* Room that all interfaces share. */
    static pthread_mutex_t reading = PTHREAD_MUTEX_INITIALIZER;
    static char text[MOST_BYTES + 1];
    listing->count = 0;
    pthread_mutex_lock(&reading);
    const char *fault = read_text(path, text);
    if (fault == NULL && !take_apart(text, listing))
        fault = NO_LISTING;
    if (fault == NULL && !has_legal_codes(listing))
        fault = "the code of an instruction is not legal";
    pthread_mutex_unlock(&reading);
    return fault;
}
