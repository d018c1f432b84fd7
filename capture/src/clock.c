#define _GNU_SOURCE
#include "clock.h"
#include "events.h"
#include "log.h"
#include "scale.h"

#include <inttypes.h>
#include <pthread.h>
#include <stdatomic.h>
#include <time.h>

/* A wall clock that was set. Nothing else moves it against the one that runs on: both are slewed alike. */
static const int64_t LEAST_STEP = NANOSECONDS_PER_SECOND / 2000;
/* Frames that come so soon one after the other show no setting that the next look wouldn't. */
static const int64_t SOON = NANOSECONDS_PER_SECOND / 1000;
/* How long frames are waited for that show when a setting was. */
static const int64_t BEFORE_REPORT = NANOSECONDS_PER_SECOND / 10;

/* Counters in their upper half are of before, for 162 days after they have begun at 0 again. */
static const uint64_t UPPER_HALF = (uint64_t)1 << (COUNTER_BITS - 1);

/* Of more settings than this only the last are known; a frame that waited for longer has the time of a later one. */
enum { KEPT_SETTINGS = 1024, LOOKS = 3 };

/* Of the settings of before only so many are noted again. */
enum { MOST_NOTED = 16 };

/* A setting of the wall clock. Moments are by the clock that runs on. The first is the beginning. */
struct setting {
    int64_t ahead;                       /* how far the wall clock is ahead from then on */
    int64_t after, before;               /* it was between these: when its look before and the one that saw it were */
    uint64_t counter;                    /* from which on it was reported to hold */
    _Atomic int64_t last_old, first_new; /* the last frame that was stamped before it, and the first after it */
};

/* A look at both clocks: when it was, how far the wall clock was ahead, and how long it took. */
struct look {
    int64_t steady, ahead, took;
};

static struct setting settings[KEPT_SETTINGS];
static int64_t first_ahead;       /* how far the wall clock was ahead at the beginning */
static atomic_uint newest;        /* the number of the last setting */
static _Atomic int64_t last_look; /* which saw no setting */
static unsigned reported;         /* the number of the last setting that was reported */
static struct origin origin;
static struct scale noted_scale; /* of the origins that were noted last */
static nanoseconds turned_by;    /* by how much counters have begun at 0 again since the beginning */
static uint64_t counter_before;  /* at the last look */
static unsigned first_high;  /* the setting that held when counters came into their upper half, or at the beginning */
static unsigned last_before; /* the last setting before they began at 0 again */
static pthread_mutex_t lock = PTHREAD_MUTEX_INITIALIZER;

static struct setting *setting_of(unsigned number) {
    return &settings[number % KEPT_SETTINGS];
}

/* How far the wall clock was set since the beginning, by a setting. */
static int64_t set_by(unsigned number) {
    return setting_of(number)->ahead - first_ahead;
}

/* Looks a few times, and takes the quickest look: another program may have run in between. */
static struct look look_at_clocks(void) {
    struct look best = {.took = INT64_MAX};
    for (int turn = 0; turn < LOOKS; turn++) {
        struct timespec wall;
        int64_t begin = steady_now();
        clock_gettime(CLOCK_REALTIME, &wall);
        int64_t took = steady_now() - begin;
        if (took < best.took) {
            int64_t at = (int64_t)wall.tv_sec * NANOSECONDS_PER_SECOND + wall.tv_nsec;
            best = (struct look){begin, at - begin - took / 2, took};
        }
    }
    return best;
}

static bool shows_setting(const struct look *look) {
    int64_t step = look->ahead - setting_of(atomic_load(&newest))->ahead, least = LEAST_STEP + look->took;
    return step > least || step < -least;
}

void start_clock(const struct origin *first) {
    struct look look = look_at_clocks();
    origin = *first;
    first_ahead = look.ahead;
    settings[0] = (struct setting){look.ahead, INT64_MIN, look.steady, 0, INT64_MIN, INT64_MAX};
    atomic_store(&last_look, look.steady);
    counter_before = counter_now();
}

void follow_clock(void) {
    struct look look = look_at_clocks();
    if (!shows_setting(&look)) {
        atomic_store(&last_look, look.steady);
        return;
    }
    pthread_mutex_lock(&lock);
    /* Another thread may have seen it since. */
    look = look_at_clocks();
    if (shows_setting(&look)) {
        unsigned number = atomic_load(&newest) + 1;
        struct setting *setting = setting_of(number);
        setting->ahead = look.ahead;
        setting->after = atomic_load(&last_look);
        setting->before = look.steady;
        atomic_store(&setting->last_old, INT64_MIN);
        atomic_store(&setting->first_new, INT64_MAX);
        atomic_store(&newest, number);
    }
    pthread_mutex_unlock(&lock);
}

/* ---- what is reported */

nanoseconds moment_of(int64_t steady) {
    return (nanoseconds)steady + first_ahead;
}

/* The counter at a moment of the clock that runs on. */
static uint64_t counter_of(int64_t steady) {
    return counter_at(moment_of(steady), &origin);
}

uint64_t counter_now(void) {
    return counter_of(steady_now());
}

static int64_t least(int64_t one, int64_t other) {
    return one < other ? one : other;
}

static int64_t greatest(int64_t one, int64_t other) {
    return one > other ? one : other;
}

/* From when on a setting is reported to hold: a moment before the first frame that is known to come after it, since
 * others may wait that came a little sooner, but not before the last look that didn't see it, nor before the last frame
 * that is known to come before it. */
static int64_t holds_from(const struct setting *setting) {
    int64_t new = least(atomic_load(&setting->first_new), setting->before);
    int64_t old = greatest(atomic_load(&setting->last_old) + NANOSECONDS_PER_TICK, setting->after);
    return greatest(setting->after, least(new, greatest(new - SOON, old)));
}

/* Notes for the facts that by a setting counters count from its origin, from a counter on. */
static void note_origin(unsigned number, nanoseconds since, uint64_t counter) {
    char text[SECONDS_TEXT_LEN], scale[SCALE_TEXT_LEN];
    print_seconds(origin.at + since + set_by(number), text);
    print_scale(&noted_scale, scale);
    note_event("{\"origin\": \"%s\", \"counter\": %" PRIu64 ", %s}", text, counter, scale);
}

/* Notes again, where counters have begun at 0 again and are in their lower half, what holds for those in the upper
 * half, of before: of several origins that hold for a counter the last counts. */
static void note_upper_half(void) {
    unsigned first = last_before - first_high < MOST_NOTED ? first_high : last_before - MOST_NOTED + 1;
    if (turned_by == 0 || counter_before >= UPPER_HALF || atomic_load(&newest) - first >= KEPT_SETTINGS)
        return;
    for (unsigned number = first; number <= last_before; number++) {
        uint64_t counter = setting_of(number)->counter;
        note_origin(number, turned_by - COUNTER_TURN, number == first ? UPPER_HALF : counter);
    }
}

/* Finds from which counter on a setting holds, by what frames have shown so far. Whether that is one from before
 * counters have begun at 0 again. */
static bool place_setting(unsigned number) {
    struct setting *setting = setting_of(number);
    setting->counter = counter_of(holds_from(setting));
    return turned_by != 0 && counter_before < UPPER_HALF && setting->counter >= UPPER_HALF;
}

/* Prints the origin from a setting on, and by how much the clock was set. */
static void print_setting(unsigned number, bool is_before, char text[SECONDS_TEXT_LEN], char by[SECONDS_TEXT_LEN]) {
    print_seconds(origin.at + turned_by - (is_before ? COUNTER_TURN : 0) + set_by(number), text);
    print_seconds(setting_of(number)->ahead - setting_of(number - 1)->ahead, by);
}

/* Notes a setting for the facts. What was noted of the same one before no longer counts. */
static void note_setting(unsigned number, bool is_before) {
    char text[SECONDS_TEXT_LEN], by[SECONDS_TEXT_LEN], scale[SCALE_TEXT_LEN];
    print_setting(number, is_before, text, by);
    print_scale(&noted_scale, scale);
    note_event("{\"origin\": \"%s\", \"counter\": %" PRIu64 ", \"set_by\": \"%s\", \"setting\": %u, %s}", text,
               setting_of(number)->counter, by, number, scale);
}

/* Notes those of these settings that aren't reported yet: a frame that came after them may end a recording, whose facts
 * are written before they are reported. */
static void note_early(unsigned first, unsigned last) {
    pthread_mutex_lock(&lock);
    for (unsigned number = first > reported ? first : reported + 1; number <= last; number++)
        note_setting(number, place_setting(number));
    pthread_mutex_unlock(&lock);
}

static void report_setting(unsigned number) {
    char text[SECONDS_TEXT_LEN], by[SECONDS_TEXT_LEN];
    pthread_mutex_lock(&lock);
    bool is_before = place_setting(number);
    uint64_t counter = setting_of(number)->counter;
    reported = number;
    print_setting(number, is_before, text, by);
    note_setting(number, is_before);
    /* It came just before counters began at 0 again, and holds for those too. */
    if (is_before) {
        last_before = number;
        note_origin(number, turned_by, 0);
    }
    note_upper_half();
    pthread_mutex_unlock(&lock);
    log_line("origin %s from counter %" PRIu64 " on: the clock was set by %s%s s", text, counter,
             by[0] == '-' ? "" : "+", by);
}

void report_origin(void) {
    char text[SECONDS_TEXT_LEN];
    print_seconds(origin.at, text);
    log_line("origin %s", text);
    noted_scale = scale_of_run();
    note_origin(0, 0, 0);
}

/* Notes again what holds once frames have shown another scale. Only those of an adapter's clock do so later, whose
 * settings aren't seen: it has no other origins. */
static void follow_scale(void) {
    struct scale scale = scale_of_run();
    if (is_same_scale(&scale, &noted_scale))
        return;
    pthread_mutex_lock(&lock);
    noted_scale = scale;
    note_origin(reported, turned_by, 0);
    note_upper_half();
    pthread_mutex_unlock(&lock);
}

/* Reports the origin that is right once counters have begun at 0 again. */
static void follow_counter(void) {
    uint64_t before = counter_before;
    pthread_mutex_lock(&lock);
    counter_before = counter_now();
    bool has_turned = counter_before < before;
    if (has_turned) {
        turned_by += COUNTER_TURN;
        last_before = reported;
        note_origin(reported, turned_by, 0);
        note_upper_half();
    } else if (before < UPPER_HALF && counter_before >= UPPER_HALF) {
        first_high = reported;
        if (turned_by != 0)
            note_origin(reported, turned_by, UPPER_HALF);
    }
    pthread_mutex_unlock(&lock);
    if (has_turned) {
        char text[SECONDS_TEXT_LEN];
        print_seconds(origin.at + turned_by + set_by(reported), text);
        log_line("origin %s from counter 0 on: counters have begun at 0 again", text);
    }
}

void report_settings(bool is_end) {
    follow_scale();
    follow_counter();
    while (reported != atomic_load(&newest)) {
        if (!is_end && steady_now() - setting_of(reported + 1)->before < BEFORE_REPORT)
            return;
        report_setting(reported + 1);
    }
}

/* ---- frames */

/* Whether a frame may have come at a moment that is by a setting: in its time, and not before the earliest one. */
static bool could_be(unsigned number, unsigned last, int64_t moment, int64_t earliest) {
    int64_t end = number == last ? steady_now() : setting_of(number + 1)->before;
    return moment >= setting_of(number)->after && moment <= end + LEAST_STEP && moment >= earliest - LEAST_STEP;
}

/* A moment that is counted from the beginning's wall clock, by the clock that runs on. */
static int64_t steady_of(nanoseconds moment) {
    return (int64_t)(moment - first_ahead);
}

/* Notes that a frame came at this moment after each of these settings, and the one before it before them. */
static void note_frames(unsigned first, unsigned last, int64_t before, int64_t moment) {
    for (unsigned number = first; number <= last; number++) {
        struct setting *setting = setting_of(number);
        int64_t earliest = atomic_load(&setting->first_new), latest = atomic_load(&setting->last_old);
        while (moment < earliest && !atomic_compare_exchange_weak(&setting->first_new, &earliest, moment))
            ;
        while (before > latest && !atomic_compare_exchange_weak(&setting->last_old, &latest, before))
            ;
    }
}

/* By which setting a frame was stamped. One that waited while the clock was set has its time by the old one: of the
 * moments that fit the first is right, since between two frames less time goes by than by which a clock is set. */
static unsigned setting_by_which(const struct frame_clock *clock, nanoseconds stamp) {
    unsigned last = atomic_load(&newest), found = last;
    unsigned first = last - clock->setting < KEPT_SETTINGS ? clock->setting : last;
    int64_t first_fit = INT64_MAX, earliest = greatest(steady_of(clock->last), clock->none_before);
    for (unsigned number = first; number - first <= last - first; number++) {
        int64_t moment = (int64_t)(stamp - setting_of(number)->ahead);
        if (moment < first_fit && could_be(number, last, moment, earliest)) {
            first_fit = moment;
            found = number;
        }
    }
    return found;
}

void note_none_before(struct frame_clock *clock, int64_t moment) {
    clock->none_before = moment;
}

/* The same where a frame doesn't follow the one before closely, or the clock was set. */
static nanoseconds judged_moment(struct frame_clock *clock, nanoseconds stamp) {
    follow_clock();
    unsigned before = clock->setting;
    clock->setting = setting_by_which(clock, stamp);
    nanoseconds moment = stamp - set_by(clock->setting);
    if (clock->setting != before) {
        note_frames(before + 1, clock->setting, steady_of(clock->last), steady_of(moment));
        note_early(before + 1, clock->setting);
    }
    return moment;
}

nanoseconds steady_moment(struct frame_clock *clock, nanoseconds stamp) {
    nanoseconds moment = stamp - set_by(clock->setting), since = moment - clock->last;
    if (since < 0 || since > SOON || clock->setting != atomic_load_explicit(&newest, memory_order_relaxed)) {
        moment = judged_moment(clock, stamp);
        since = moment - clock->last;
        /* A setting is known to a part of a millisecond, by which no counter steps back. */
        if (clock->setting != 0 && since < 0 && since > -SOON)
            moment = clock->last;
    }
    clock->last = moment;
    return moment;
}
