#include "output_thread.h"

#include <stdlib.h>

static void *write_on(void *argument) {
    struct output_thread *writer = argument;
    pthread_mutex_lock(&writer->lock);
    while (writer->count > 0 || !writer->is_ending) {
        if (writer->count == 0) {
            pthread_cond_wait(&writer->changed, &writer->lock);
            continue;
        }
        unsigned at = writer->first;
        pthread_mutex_unlock(&writer->lock);
        bool goes_on = write_all(writer->output, writer->blocks[at].bytes, writer->blocks[at].len);
        pthread_mutex_lock(&writer->lock);
        writer->is_open = goes_on;
        writer->first = (at + 1) % BLOCKS;
        writer->count--;
        pthread_cond_signal(&writer->changed);
    }
    pthread_mutex_unlock(&writer->lock);
    return NULL;
}

void start_output_thread(struct output_thread *writer, struct output *output, size_t room) {
    bool has_room = true;
    *writer = (struct output_thread){.output = output, .is_open = is_open(output)};
    for (int i = 0; i < BLOCKS; i++)
        has_room &= (writer->blocks[i].bytes = malloc(room)) != NULL;
    pthread_mutex_init(&writer->lock, NULL);
    pthread_cond_init(&writer->changed, NULL);
    writer->is_started = has_room && pthread_create(&writer->thread, NULL, write_on, writer) == 0;
}

bool hand_over(struct output_thread *writer, unsigned char **bytes, size_t len) {
    pthread_mutex_lock(&writer->lock);
    while (writer->count == BLOCKS)
        pthread_cond_wait(&writer->changed, &writer->lock);
    bool was_open = writer->is_open;
    unsigned at = (writer->first + writer->count++) % BLOCKS;
    unsigned char *room = writer->blocks[at].bytes;
    writer->blocks[at].bytes = *bytes;
    writer->blocks[at].len = len;
    *bytes = room;
    pthread_cond_signal(&writer->changed);
    pthread_mutex_unlock(&writer->lock);
    return was_open;
}

void end_output_thread(struct output_thread *writer) {
    if (writer->is_started) {
        pthread_mutex_lock(&writer->lock);
        writer->is_ending = true;
        pthread_cond_signal(&writer->changed);
        pthread_mutex_unlock(&writer->lock);
        pthread_join(writer->thread, NULL);
        writer->is_started = false;
    }
    for (int i = 0; i < BLOCKS; i++) {
        free(writer->blocks[i].bytes);
        writer->blocks[i].bytes = NULL;
    }
}
