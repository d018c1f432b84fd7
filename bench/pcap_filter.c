/* Times libpcap's interpreter on the programs and frames of compare.py: the other side of `bench machine`,
 * with the same words after `machine`, and the same lines of output but that of the steps. */
#include <inttypes.h>
#include <pcap/pcap.h>
#include <stdint.h>
#include <stdio.h>
#include <stdlib.h>
#include <string.h>
#include <sys/types.h>
#include <time.h>

static unsigned char *contents(const char *path, size_t *length) {
    FILE *file = fopen(path, "rb");
    if (file == NULL || fseek(file, 0, SEEK_END) != 0)
        exit(3);
    *length = (size_t)ftell(file);
    rewind(file);
    unsigned char *bytes = malloc(*length + 1);
    if (bytes == NULL || fread(bytes, 1, *length, file) != *length)
        exit(3);
    bytes[*length] = 0;
    fclose(file);
    return bytes;
}

static struct bpf_insn *program_of(const char *path) {
    size_t length;
    char *text = (char *)contents(path, &length);
    unsigned long count = strtoul(text, &text, 10);
    struct bpf_insn *program = calloc(count, sizeof *program);
    for (unsigned long i = 0; i < count; i++) {
        text += strcspn(text, "0123456789");
        program[i].code = (u_short)strtoul(text, &text, 10);
        program[i].jt = (u_char)strtoul(text, &text, 10);
        program[i].jf = (u_char)strtoul(text, &text, 10);
        program[i].k = (bpf_u_int32)strtoul(text, &text, 10);
    }
    return program;
}

int main(int argc, char **argv) {
    if (argc < 5)
        return 2;
    size_t bytes;
    struct bpf_insn *program = program_of(argv[2]);
    unsigned char *frames = contents(argv[3], &bytes);
    size_t length = strtoul(argv[4], NULL, 10), count = bytes / length;
    if (strcmp(argv[1], "values") == 0) {
        for (size_t i = 0; i < count; i++)
            printf("%u\n", bpf_filter(program, frames + i * length, (u_int)length, (u_int)length));
        return 0;
    }
    unsigned long turns = strtoul(argv[5], NULL, 10);
    struct timespec begin, end;
    uint64_t sum = 0;
    clock_gettime(CLOCK_MONOTONIC, &begin);
    for (unsigned long turn = 0; turn < turns; turn++)
        for (size_t i = 0; i < count; i++)
            sum += bpf_filter(program, frames + i * length, (u_int)length, (u_int)length);
    clock_gettime(CLOCK_MONOTONIC, &end);
    double spent = (double)(end.tv_sec - begin.tv_sec) * 1e9 + (double)(end.tv_nsec - begin.tv_nsec);
    printf("libpcap.frame %zu %.3f %" PRIu64 "\n", length, spent / ((double)count * (double)turns), sum);
    return 0;
}
