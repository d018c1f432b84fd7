/* What `bpfrec record` does with one feed, in plain C on libpcap's interpreter: reads the feed, runs the
 * filter on each frame without its check sequence, and appends the records of accepted frames to a file.
 *
 * usage: record_feed LISTING FEED OUT [shared]
 *
 * With `shared` each frame takes the filter as one that may be replaced meanwhile: under a mutex, with a
 * reference that is counted. It prints how many frames it read and kept. */
#include <pcap/pcap.h>
#include <pthread.h>
#include <stdatomic.h>
#include <stdint.h>
#include <stdio.h>
#include <stdlib.h>
#include <string.h>
#include <sys/types.h>

enum { HEAD = 9, LEAST = 18, MOST = 16383, CHECK_SEQUENCE = 4, BUFFER = 1 << 16 };

/* A filter, and how many hold it. */
struct filter {
    atomic_long holders;
    struct bpf_insn *program;
};

static pthread_mutex_t lock = PTHREAD_MUTEX_INITIALIZER;
static struct filter *in_force;

static struct bpf_insn *program_of(const char *path) {
    FILE *file = fopen(path, "r");
    unsigned count, code, jt, jf, k;
    if (file == NULL || fscanf(file, "%u", &count) != 1)
        exit(3);
    struct bpf_insn *program = calloc(count, sizeof *program);
    for (unsigned i = 0; i < count; i++) {
        if (program == NULL || fscanf(file, "%*[ ,\n]%u %u %u %u", &code, &jt, &jf, &k) != 4)
            exit(3);
        program[i] = (struct bpf_insn){(u_short)code, (u_char)jt, (u_char)jf, k};
    }
    fclose(file);
    return program;
}

static struct filter *take_filter(void) {
    pthread_mutex_lock(&lock);
    struct filter *filter = in_force;
    atomic_fetch_add(&filter->holders, 1);
    pthread_mutex_unlock(&lock);
    return filter;
}

static void let_go(struct filter *filter) {
    if (atomic_fetch_sub(&filter->holders, 1) == 1)
        free(filter);
}

static FILE *opened(const char *path, const char *mode) {
    FILE *file = fopen(path, mode);
    if (file == NULL || setvbuf(file, NULL, _IOFBF, BUFFER) != 0)
        exit(3);
    return file;
}

int main(int argc, char **argv) {
    if (argc < 4)
        return 2;
    int shared = argc > 4 && strcmp(argv[4], "shared") == 0;
    struct filter *first = malloc(sizeof *first);
    if (first == NULL)
        return 4;
    atomic_init(&first->holders, 1);
    first->program = program_of(argv[1]);
    in_force = first;
    FILE *feed = opened(argv[2], "rb"), *out = opened(argv[3], "wb");
    static unsigned char record[HEAD + MOST];
    unsigned long frames = 0, kept = 0;
    while (fread(record, 1, HEAD, feed) == HEAD) {
        unsigned length = record[7] | (unsigned)record[8] << 8;
        if (length < LEAST || length > MOST || fread(record + HEAD, 1, length, feed) != length)
            return 1;
        struct filter *filter = shared ? take_filter() : first;
        unsigned view = length - CHECK_SEQUENCE;
        int accepted = bpf_filter(filter->program, record + HEAD, view, view) != 0;
        if (shared)
            let_go(filter);
        frames++;
        if (!accepted)
            continue;
        kept++;
        if (fwrite(record, 1, HEAD + length, out) != HEAD + length)
            return 3;
    }
    if (fclose(out) != 0)
        return 3;
    printf("%lu %lu\n", frames, kept);
    return 0;
}
