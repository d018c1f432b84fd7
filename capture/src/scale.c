#define _GNU_SOURCE
#include "scale.h"
#include "log.h"

#include <pthread.h>
#include <stdio.h>
#include <string.h>
#include <sys/timex.h>

enum { TAI_AHEAD_SECONDS = 37 };

static pthread_mutex_t lock = PTHREAD_MUTEX_INITIALIZER;
static struct scale shown;
static bool is_shown;

/* How far TAI is ahead of UTC, in seconds: as the kernel was told, or as it has been since 2017. */
static int tai_ahead(void) {
    struct timex times = {0};
    return adjtimex(&times) >= 0 && times.tai > 0 ? times.tai : TAI_AHEAD_SECONDS;
}

/* Whether a clock is ahead by so many seconds, to one. */
static bool is_near(nanoseconds ahead, int seconds) {
    nanoseconds off = ahead - (nanoseconds)seconds * NANOSECONDS_PER_SECOND;
    return off > -NANOSECONDS_PER_SECOND && off < NANOSECONDS_PER_SECOND;
}

struct scale scale_ahead(nanoseconds ahead) {
    int tai = tai_ahead();
    if (is_near(ahead, tai))
        return (struct scale){SCALE_TAI, tai};
    return (struct scale){is_near(ahead, 0) ? SCALE_UTC : SCALE_UNKNOWN, 0};
}

bool is_same_scale(const struct scale *one, const struct scale *other) {
    return one->kind == other->kind && one->tai_offset == other->tai_offset;
}

void show_scale(const char *interface, const struct scale *scale) {
    pthread_mutex_lock(&lock);
    if (!is_shown) {
        shown = *scale;
    } else if (shown.kind != SCALE_UNKNOWN && !is_same_scale(&shown, scale)) {
        log_line("%s: its frames have another time scale than those before, so the facts have none", interface);
        shown = (struct scale){0};
    }
    is_shown = true;
    pthread_mutex_unlock(&lock);
}

struct scale scale_of_run(void) {
    pthread_mutex_lock(&lock);
    struct scale scale = shown;
    pthread_mutex_unlock(&lock);
    return scale;
}

void print_scale(const struct scale *scale, char *text) {
    if (scale->kind == SCALE_TAI)
        snprintf(text, SCALE_TEXT_LEN, "\"scale\": \"TAI\", \"tai_offset\": %d", scale->tai_offset);
    else
        snprintf(text, SCALE_TEXT_LEN, "\"scale\": %s", scale->kind == SCALE_UTC ? "\"UTC\"" : "null");
}
