/* The listing of a program: `<count>,<code> <jt> <jf> <k>,..`, as `bpfrec asm` prints it, or one instruction a line, as
 * `tcpdump -ddd` does. */
#ifndef LISTING_H
#define LISTING_H

#include <pcap/pcap.h>

/* What is put ahead of a program that the kernel runs has six instructions, and what is put behind one that returns A
 * three. */
enum { MOST_INSNS = 4096, HEAD_INSNS = 6, TAIL_INSNS = 3 };

/* A program and room for its head and its tail. */
struct listing {
    unsigned count;
    struct bpf_insn insns[HEAD_INSNS + MOST_INSNS + TAIL_INSNS];
};

/* Reads the listing of a file. NULL, or why it is not one. */
const char *read_listing(const char *path, struct listing *listing);

#endif
