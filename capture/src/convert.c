#define _GNU_SOURCE
#include "convert.h"
#include "check_sequence.h"
#include "events.h"
#include "log.h"
#include "signals.h"

#include <inttypes.h>
#include <pthread.h>
#include <signal.h>
#include <stdio.h>
#include <string.h>
#include <sys/stat.h>

enum { LEAST_CAPTURED_LEN = 14 };

static bool is_regular(const char *path) {
    struct stat kind;
    return strcmp(path, "-") != 0 && stat(path, &kind) == 0 && S_ISREG(kind.st_mode);
}

/* The least moment of a file's frames. Whether one has a moment; why the file can't be read is said once it is
 * converted. */
static bool least_moment(const struct arguments *arguments, const char *path, nanoseconds *least) {
    struct capture_file file = {.input.fd = -1};
    struct file_frame frame = {0};
    bool has_time = false;
    if (open_file(&file, path, arguments->interface))
        while (next_frame(&file, &frame) == READING_SOME)
            if (frame.has_time && (!has_time || frame.moment < *least)) {
                *least = frame.moment;
                has_time = true;
            }
    close_file(&file);
    return has_time;
}

/* Takes the least moment of all files for their origin. Whether each could be read twice. */
static bool find_least(struct arguments *arguments) {
    for (int i = 0; i < arguments->count; i++) {
        nanoseconds moment;
        if (!is_regular(arguments->routes[i].from)) {
            log_line("%s: beside other files it needs --origin, since it can't be read twice",
                     arguments->routes[i].from);
            return false;
        }
        if (!least_moment(arguments, arguments->routes[i].from, &moment))
            continue;
        if (arguments->origin.is_first_frame || moment < arguments->origin.at)
            arguments->origin = (struct origin){false, moment};
    }
    arguments->origin.is_first_frame = false;
    return true;
}

bool find_origin(struct arguments *arguments) {
    if (!arguments->origin.is_first_frame || (arguments->count == 1 && !is_regular(arguments->routes[0].from)))
        return true;
    sigset_t ending;
    sigemptyset(&ending);
    sigaddset(&ending, SIGINT);
    sigaddset(&ending, SIGTERM);
    sigaddset(&ending, SIGHUP);
    /* Nothing is begun, so a signal just ends the program. */
    pthread_sigmask(SIG_UNBLOCK, &ending, NULL);
    bool is_known = find_least(arguments);
    pthread_sigmask(SIG_BLOCK, &ending, NULL);
    return is_known;
}

void note_file_origin(const struct arguments *arguments) {
    char text[SECONDS_TEXT_LEN];
    if (arguments->origin.is_first_frame)
        return;
    print_seconds(arguments->origin.at, text);
    note_event("{\"origin\": \"%s\", \"counter\": 0, \"scale\": \"UTC\"}", text);
}

static void flush_before_waiting(void *listener) {
    struct conversion *conversion = listener;
    flush_feed(&conversion->feed);
}

/* The counter of a frame; one without a time has that of the frame before. */
static uint64_t counter_of(struct conversion *conversion, const struct file_frame *frame) {
    if (!frame->has_time)
        return conversion->counter;
    if (conversion->origin.is_first_frame)
        conversion->origin = (struct origin){false, frame->moment};
    if (frame->moment < conversion->origin.at) {
        if (conversion->before++ == 0 || frame->moment < conversion->least)
            conversion->least = frame->moment;
    }
    conversion->counter = counter_at(frame->moment, &conversion->origin);
    return conversion->counter;
}

/* Whether a run that is stopped leaves the rest of a file: of a pipe it still takes what has come. */
static bool is_left(const struct capture_file *file) {
    return is_hurried() || (is_stopping() && !file->input.waits);
}

/* Puts a frame into the feed, or counts why it is left out. Whether the feed is still open. */
static bool put_counted(struct conversion *conversion, const struct file_frame *frame) {
    const struct captured *captured = &frame->captured;
    uint64_t skipped = conversion->feed.skipped;
    bool goes_on = put_frame(&conversion->feed, counter_of(conversion, frame), captured);
    if (conversion->feed.skipped != skipped) {
        conversion->cut += !captured->is_whole;
        size_t least = LEAST_CAPTURED_LEN + (captured->has_check_sequence ? CHECK_SEQUENCE_LEN : 0);
        conversion->too_short += captured->is_whole && captured->len < least;
    }
    return goes_on;
}

/* Says what a feed lacks though its file is whole, which is no good end. */
static void judge_feed(struct conversion *conversion) {
    const struct feed *feed = &conversion->feed;
    if (feed->frames == 0 && feed->skipped > 0)
        log_line("%s: no frame is taken: %" PRIu64 " cut short, %" PRIu64 " too short, %" PRIu64 " too long",
                 conversion->from, conversion->cut, conversion->too_short,
                 feed->skipped - conversion->cut - conversion->too_short);
    if (conversion->before > 0) {
        char least[SECONDS_TEXT_LEN], cure[2 * SECONDS_TEXT_LEN] = "some are before 1970";
        print_seconds(conversion->least, least);
        if (conversion->least >= 0)
            snprintf(cure, sizeof cure, "--origin %s has none", least);
        log_line("%s: %" PRIu64 " frames are before the origin, and 325 days late: %s", conversion->from,
                 conversion->before, cure);
    }
    conversion->is_well &= conversion->before == 0 && (feed->frames > 0 || feed->skipped == 0);
}

static void convert(struct conversion *conversion) {
    struct file_frame frame;
    enum reading reading = READING_SOME;
    if (!conversion->file.input.waits)
        write_beside(&conversion->feed);
    while (!is_left(&conversion->file) && (reading = next_frame(&conversion->file, &frame)) == READING_SOME)
        if (!put_counted(conversion, &frame))
            break;
    flush_feed(&conversion->feed);
    conversion->is_well = reading != READING_FAULT;
    if (conversion->is_well && is_open(&conversion->feed.output))
        judge_feed(conversion);
}

void run_conversion(struct conversion *conversion) {
    struct capture_file *file = &conversion->file;
    struct feed *feed = &conversion->feed;
    struct output *output = &feed->output;
    file->input = (struct input){.fd = -1, .before_waiting = flush_before_waiting, .listener = conversion};
    output->fd = -1;
    conversion->origin = conversion->arguments->origin;
    if (open_file(file, conversion->from, conversion->arguments->interface) && open_feed(feed, conversion->to))
        convert(conversion);
    if (file->input.fault[0] != 0)
        log_line("%s: %s", conversion->from, file->input.fault);
    close_feed(feed);
    if (!is_open(output)) {
        conversion->is_well &= output->state == OUTPUT_LEFT;
        log_line("%s: %s", conversion->to, output_fault(output));
    }
    log_line("%s frames %" PRIu64 " bytes %" PRIu64 " skipped %" PRIu64 " waited %" PRId64, conversion->from,
             feed->frames, feed->frame_bytes, feed->skipped, output->waited / (NANOSECONDS_PER_SECOND / 1000));
    close_file(file);
}
