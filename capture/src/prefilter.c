#include "prefilter.h"
#include "listing.h"
#include "log.h"

#include <linux/filter.h>
#include <string.h>

enum { WHOLE_FRAME = 262144, LEAST_WIRE_LEN = 60 };

/* Lets the program return a frame whole or not at all: the kernel would cut it to as many bytes as is returned. */
static void return_whole_frames(struct listing *program) {
    static const struct bpf_insn TAIL[TAIL_INSNS] = {
        BPF_JUMP(BPF_JMP | BPF_JEQ | BPF_K, 0, 1, 0),
        BPF_STMT(BPF_RET | BPF_K, WHOLE_FRAME),
        BPF_STMT(BPF_RET | BPF_K, 0),
    };
    unsigned count = program->count, returns = 0;
    for (unsigned i = 0; i < count; i++) {
        struct bpf_insn *insn = &program->insns[i];
        if (insn->code == (BPF_RET | BPF_K) && insn->k != 0)
            insn->k = WHOLE_FRAME;
        if (insn->code == (BPF_RET | BPF_A)) {
            *insn = (struct bpf_insn)BPF_STMT(BPF_JMP | BPF_JA, count - i - 1);
            returns++;
        }
    }
    if (returns == 0)
        return;
    memcpy(program->insns + count, TAIL, sizeof TAIL);
    program->count += TAIL_INSNS;
}

/* Lets through what the kernel sees otherwise than the recorder will: a frame whose VLAN tag the kernel has taken out,
 * as it does with each tagged frame that it receives whatever the adapter's settings are, and a frame that will be
 * padded. The recorder judges these itself. A is 0 again where the program begins. The presence of the tag is loaded as
 * a byte: libpcap runs the program on the first frames by itself, and knows no other form of it. */
static void pass_what_differs(struct listing *program) {
    static const struct bpf_insn HEAD[HEAD_INSNS] = {
        BPF_STMT(BPF_LD | BPF_B | BPF_ABS, (bpf_u_int32)(SKF_AD_OFF + SKF_AD_VLAN_TAG_PRESENT)),
        BPF_JUMP(BPF_JMP | BPF_JEQ | BPF_K, 0, 0, 2),
        BPF_STMT(BPF_LD | BPF_W | BPF_LEN, 0),
        BPF_JUMP(BPF_JMP | BPF_JGE | BPF_K, LEAST_WIRE_LEN, 1, 0),
        BPF_STMT(BPF_RET | BPF_K, WHOLE_FRAME),
        BPF_STMT(BPF_LD | BPF_IMM, 0),
    };
    memmove(program->insns + HEAD_INSNS, program->insns, program->count * sizeof *program->insns);
    memcpy(program->insns, HEAD, sizeof HEAD);
    program->count += HEAD_INSNS;
}

bool drop_by_listing(pcap_t *const *pcaps, int count, const char *interface, const char *path) {
    static struct listing program;
    const char *fault = read_listing(path, &program);
    if (fault != NULL) {
        log_line("%s: %s", path, fault);
        return false;
    }
    return_whole_frames(&program);
    pass_what_differs(&program);
    if (program.count > MOST_INSNS) {
        log_line("%s: %s: too long for the kernel: the recorder alone runs it", interface, path);
        return true;
    }
    struct bpf_program given = {program.count, program.insns};
    for (int at = 0; at < count; at++)
        if (pcap_setfilter(pcaps[at], &given) != 0) {
            log_line("%s: %s: %s", interface, path, pcap_geterr(pcaps[at]));
            return false;
        }
    return true;
}
