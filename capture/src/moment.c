#define _GNU_SOURCE
#include "moment.h"

#include <inttypes.h>
#include <stdio.h>
#include <string.h>
#include <time.h>

enum { MOST_SECOND_DIGITS = 10, MOST_FRACTION_DIGITS = 9 };

/* Reads so many digits at least and at most, and returns how many there were; 0 where they are too few or too many. */
static int digits(const char *text, int least, int most, int64_t *value) {
    int count = 0;
    for (*value = 0; text[count] >= '0' && text[count] <= '9'; count++) {
        if (count == most)
            return 0;
        *value = *value * 10 + (text[count] - '0');
    }
    return count >= least ? count : 0;
}

/* Reads what follows a second: nothing, or a point and its fraction. Whether only `end` follows. */
static bool fraction(const char *text, const char *end, int64_t *value) {
    *value = 0;
    if (*text == '.') {
        int count = digits(text + 1, 1, MOST_FRACTION_DIGITS, value);
        if (count == 0)
            return false;
        text += 1 + count;
        for (; count < MOST_FRACTION_DIGITS; count++)
            *value *= 10;
    }
    return strcmp(text, end) == 0;
}

/* Reads a number of two or four digits and the sign after it. */
static const char *field(const char *text, int width, char sign, int *value) {
    int64_t number;
    if (text == NULL || digits(text, width, width, &number) != width || (sign != 0 && text[width] != sign))
        return NULL;
    *value = (int)number;
    return text + width + (sign != 0);
}

/* Reads a date and a time of day in UTC. Whether it is one. */
static bool calendar(const char *text, nanoseconds *at) {
    struct tm day = {0}, back;
    int64_t rest;
    text = field(text, 4, '-', &day.tm_year);
    text = field(text, 2, '-', &day.tm_mon);
    text = field(text, 2, 'T', &day.tm_mday);
    text = field(text, 2, ':', &day.tm_hour);
    text = field(text, 2, ':', &day.tm_min);
    text = field(text, 2, 0, &day.tm_sec);
    if (text == NULL || !fraction(text, "Z", &rest))
        return false;
    day.tm_year -= 1900;
    day.tm_mon -= 1;
    struct tm given = day;
    time_t seconds = timegm(&day);
    /* A day that no month has becomes one of the next. */
    if (gmtime_r(&seconds, &back) == NULL || back.tm_mday != given.tm_mday || back.tm_hour != given.tm_hour ||
        back.tm_min != given.tm_min || back.tm_sec != given.tm_sec || back.tm_mon != given.tm_mon || seconds < 0)
        return false;
    *at = (nanoseconds)seconds * NANOSECONDS_PER_SECOND + rest;
    return true;
}

bool origin_of(const char *text, struct origin *origin) {
    *origin = (struct origin){false, 0};
    if (strcmp(text, "zero") == 0)
        return true;
    if (strcmp(text, "first") == 0) {
        origin->is_first_frame = true;
        return true;
    }
    if (strcmp(text, "now") == 0) {
        struct timespec now;
        clock_gettime(CLOCK_REALTIME, &now);
        nanoseconds at = (nanoseconds)now.tv_sec * NANOSECONDS_PER_SECOND + now.tv_nsec;
        origin->at = at - at % NANOSECONDS_PER_TICK;
        return true;
    }
    int64_t seconds, rest;
    int count = digits(text, 1, MOST_SECOND_DIGITS, &seconds);
    if (count > 0 && fraction(text + count, "", &rest)) {
        origin->at = (nanoseconds)seconds * NANOSECONDS_PER_SECOND + rest;
        return true;
    }
    return calendar(text, &origin->at);
}

bool add_turns(struct origin *origin, nanoseconds now) {
    if (origin->at > now)
        return false;
    origin->at += (now - origin->at) / COUNTER_TURN * COUNTER_TURN;
    return true;
}

uint64_t counter_at(nanoseconds moment, const struct origin *origin) {
    static const uint64_t MASK = ((uint64_t)1 << COUNTER_BITS) - 1;
    nanoseconds since = moment - origin->at;
    /* Mostly so, and a division of 64 bits is a multiplication. */
    if (since >= 0 && since <= INT64_MAX)
        return (uint64_t)since / NANOSECONDS_PER_TICK & MASK;
    nanoseconds ticks = since / NANOSECONDS_PER_TICK - (since % NANOSECONDS_PER_TICK < 0);
    return (uint64_t)ticks & MASK;
}

void print_seconds(nanoseconds time, char *text) {
    nanoseconds size = time < 0 ? -time : time;
    int64_t seconds = (int64_t)(size / NANOSECONDS_PER_SECOND), rest = (int64_t)(size % NANOSECONDS_PER_SECOND);
    snprintf(text, SECONDS_TEXT_LEN, "%s%" PRId64 ".%09" PRId64, time < 0 ? "-" : "", seconds, rest);
}

int64_t steady_now(void) {
    struct timespec now;
    clock_gettime(CLOCK_MONOTONIC, &now);
    return (int64_t)now.tv_sec * NANOSECONDS_PER_SECOND + now.tv_nsec;
}
