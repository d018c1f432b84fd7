/* A thread that writes a feed's full buffers, while the next ones are filled. */
#ifndef OUTPUT_THREAD_H
#define OUTPUT_THREAD_H

#include "output.h"

#include <pthread.h>

/* So many that neither thread often waits for the other. */
enum { BLOCKS = 8 };

struct output_thread {
    struct output *output;
    struct {
        unsigned char *bytes;
        size_t len;
    } blocks[BLOCKS];      /* a ring */
    unsigned first, count; /* of those that are to be written */
    bool is_started, is_ending;
    bool is_open; /* whether the output was after the last write */
    pthread_t thread;
    pthread_mutex_t lock;
    pthread_cond_t changed;
};

/* Starts the thread, with blocks of so many bytes. Where it can't be, `is_started` stays false. */
void start_output_thread(struct output_thread *writer, struct output *output, size_t room);

/* Gives it a block to write, once there is another for it, which is taken in its place. Whether the output was still
 * open then; until the thread has ended, it alone looks at the output. */
bool hand_over(struct output_thread *writer, unsigned char **bytes, size_t len);

/* Ends it once all is written. */
void end_output_thread(struct output_thread *writer);

#endif
