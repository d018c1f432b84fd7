/* Listings of programs. */
#define _GNU_SOURCE
#include "listing.h"
#include "script.h"

static void answer(const char *call) {
    static struct listing listing;
    const char *fault = is(call, "listing") ? read_listing(next_word(), &listing) : "no call";
    if (fault != NULL) {
        printf("%s", fault);
        return;
    }
    printf("%u", listing.count);
    for (const struct bpf_insn *insn = listing.insns; insn < listing.insns + listing.count; insn++)
        printf(",%u %u %u %u", insn->code, insn->jt, insn->jf, insn->k);
}
