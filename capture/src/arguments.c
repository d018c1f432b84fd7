#define _GNU_SOURCE
#include "arguments.h"
#include "capture_file.h"
#include "log.h"
#include "usage.h"

#include <errno.h>
#include <fcntl.h>
#include <getopt.h>
#include <limits.h>
#include <stdio.h>
#include <stdlib.h>
#include <string.h>
#include <unistd.h>

enum {
    LEAST_BUFFER = 1,
    USUAL_BUFFER = 256,
    MOST_BUFFER = 2047,
    BUFFERS_IN_MEMORY = 4,
    /* The kernel makes up to so many times as much of a buffer as is asked for. */
    BUFFER_FOLD = 2,
    MOST_HOLD = 60,
    BYTES_A_MIB = 1 << 20,
    MOST_INTERFACE = 65535,
    WRONG_ARGUMENTS = 2,
    /* The longest name of an option has fewer letters; and so many of them may be wrong where it is meant. */
    LONGEST_OPTION = 32,
    MOST_SLIPS = 3,
    MOST_DASHES = 2,
};

enum {
    FIRST_LONG = 256,
    ORIGIN,
    BUFFER,
    DIRECTION,
    PREFILTER,
    SPAN,
    NO_PROMISCUOUS,
    CLOCK,
    CHECK_SEQUENCE,
    INTERFACE,
    QUIET,
    STRICT,
    HOLD,
    EVENTS,
    COUNTS,
    PARENT,
    VERSION_ASKED,
    HELP
};

static const struct option OPTIONS[] = {
    {"origin", required_argument, NULL, ORIGIN},
    {"buffer", required_argument, NULL, BUFFER},
    {"direction", required_argument, NULL, DIRECTION},
    {"prefilter", required_argument, NULL, PREFILTER},
    {"span", required_argument, NULL, SPAN},
    {"no-promiscuous", no_argument, NULL, NO_PROMISCUOUS},
    {"clock", required_argument, NULL, CLOCK},
    {"check-sequence", required_argument, NULL, CHECK_SEQUENCE},
    {"interface", required_argument, NULL, INTERFACE},
    {"quiet", no_argument, NULL, QUIET},
    {"strict", no_argument, NULL, STRICT},
    {"hold", required_argument, NULL, HOLD},
    {"events", required_argument, NULL, EVENTS},
    {"counts", required_argument, NULL, COUNTS},
    {"parent", required_argument, NULL, PARENT},
    {"version", no_argument, NULL, VERSION_ASKED},
    {"help", no_argument, NULL, HELP},
    {NULL, 0, NULL, 0},
};

/* What an option takes whose value may be refused; NULL for others. */
static const char *taken_by(int option) {
    switch (option) {
    case ORIGIN:
        return "now, zero, or a time as 1764590400.25 or 2025-12-01T12:00:00.25Z; with -r first too";
    case BUFFER:
        return "1 to 2047 MiB";
    case INTERFACE:
        return "0 to 65535";
    case DIRECTION:
        return "both, in or out";
    case CLOCK:
        return "host or adapter";
    case CHECK_SEQUENCE:
        return "given, missing or adapter";
    case HOLD:
        return "0 to 60 seconds";
    case COUNTS:
        return "the number of a descriptor that is open for writing, 3 or more";
    case PARENT:
        return "the number of a process";
    case PREFILTER:
        return "INTERFACE=LISTING";
    case SPAN:
        return "INTERFACE=TICKS, of 100 ns, 1 to 281474976710655";
    default:
        return NULL;
    }
}

static const int64_t MOST_SPAN = ((int64_t)1 << COUNTER_BITS) - 1;

/* Reads a number in a range; whether it is one. */
static bool wide_number_of(const char *text, int64_t least, int64_t most, int64_t *number) {
    char *end;
    *number = strtoll(text, &end, 10);
    return *text >= '0' && *text <= '9' && *end == 0 && *number >= least && *number <= most;
}

/* The same of one that is an int. */
static bool number_of(const char *text, int least, int most, int *number) {
    int64_t value;
    if (!wide_number_of(text, least, most, &value))
        return false;
    *number = (int)value;
    return true;
}

/* Reads the number of a descriptor that was given open for writing, and lets no write of it wait. Whether it is one:
 * those of the program itself are closed by execve. */
static bool take_descriptor(const char *text, int *descriptor) {
    if (!number_of(text, STDERR_FILENO + 1, INT_MAX, descriptor))
        return false;
    int flags = fcntl(*descriptor, F_GETFD), mode = fcntl(*descriptor, F_GETFL);
    return flags >= 0 && (flags & FD_CLOEXEC) == 0 && (mode & O_ACCMODE) != O_RDONLY &&
           fcntl(*descriptor, F_SETFL, mode | O_NONBLOCK) == 0;
}

/* Finds a text among those of a choice, which end with NULL; whether it is there. */
static bool choice_of(const char *text, const char *const *choices, int *choice) {
    for (*choice = 0; choices[*choice] != NULL; (*choice)++)
        if (strcmp(text, choices[*choice]) == 0)
            return true;
    return false;
}

/* Takes INTERFACE=LISTING or INTERFACE=TICKS apart, for when its route is known. Whether it is one. */
static bool take_given(int option, char *text, struct arguments *arguments) {
    char *sign = strchr(text, '=');
    struct given given = {.interface = text};
    if (sign == NULL || sign == text || sign[1] == 0)
        return false;
    if (option == PREFILTER)
        given.prefilter = sign + 1;
    else if (!wide_number_of(sign + 1, 1, MOST_SPAN, &given.span))
        return false;
    *sign = 0;
    arguments->given[arguments->given_count++] = given;
    return true;
}

/* Takes a path, or an option without a value: true. */
static bool take_any(int option, const char *value, struct arguments *arguments) {
    arguments->is_promiscuous &= option != NO_PROMISCUOUS;
    arguments->is_strict |= option == STRICT;
    arguments->is_quiet |= option == QUIET;
    if (option == EVENTS)
        arguments->events = value;
    return true;
}

/* Takes an option's value; whether it is one. */
static bool take_option(int option, char *value, struct arguments *arguments) {
    static const char *const DIRECTIONS[] = {"both", "in", "out", NULL}, *const CLOCKS[] = {"host", "adapter", NULL};
    static const char *const CHECK_SEQUENCES[] = {"adapter", "given", "missing", NULL};
    bool is_right;
    int choice;
    switch (option) {
    case ORIGIN:
        return origin_of(value, &arguments->origin);
    case BUFFER:
        return number_of(value, LEAST_BUFFER, MOST_BUFFER, &arguments->buffer_mib);
    case INTERFACE:
        return number_of(value, 0, MOST_INTERFACE, &arguments->interface);
    case DIRECTION:
        is_right = choice_of(value, DIRECTIONS, &choice);
        arguments->direction = (enum direction)choice;
        return is_right;
    case CLOCK:
        is_right = choice_of(value, CLOCKS, &choice);
        arguments->uses_adapter_clock = choice != 0;
        return is_right;
    case CHECK_SEQUENCE:
        is_right = choice_of(value, CHECK_SEQUENCES, &choice);
        arguments->check_sequences = (enum check_sequences)choice;
        return is_right;
    case HOLD:
        return number_of(value, 0, MOST_HOLD, &arguments->hold_seconds);
    case COUNTS:
        return take_descriptor(value, &arguments->counts);
    case PARENT:
        return number_of(value, 1, INT_MAX, &arguments->parent);
    case PREFILTER:
    case SPAN:
        return take_given(option, value, arguments);
    default:
        return take_any(option, value, arguments);
    }
}

/* Says what is wrong, of which argument: the status. */
static int wrong(const char *what, const char *argument) {
    log_line("%s%s: bpfrec capture --help has its arguments", what, argument);
    return WRONG_ARGUMENTS;
}

/* How many letters must be changed, put in or left out to make another word of one, ahead of its value. */
static size_t distance(const char *word, const char *other) {
    size_t length = strlen(other), row[LONGEST_OPTION + 1];
    for (size_t j = 0; j <= length; j++)
        row[j] = j;
    for (size_t i = 1; word[i - 1] != 0 && word[i - 1] != '='; i++) {
        size_t left_above = row[0];
        row[0] = i;
        for (size_t j = 1; j <= length; j++) {
            size_t above = row[j], changed = left_above + (word[i - 1] != other[j - 1]);
            size_t less = above < row[j - 1] ? above : row[j - 1];
            row[j] = changed < less + 1 ? changed : less + 1;
            left_above = above;
        }
    }
    return row[length];
}

/* The option that a word of two dashes means; NULL where none is like it. */
static const char *option_like(const char *word) {
    const char *name = word + MOST_DASHES, *nearest = NULL;
    size_t least = MOST_SLIPS + 1;
    for (const struct option *at = OPTIONS; at->name != NULL; at++) {
        size_t slips = distance(name, at->name);
        if (slips < least) {
            least = slips;
            nearest = at->name;
        }
    }
    return nearest;
}

/* Says what is wrong with an option, by what getopt says of it and its word: the status. */
static int wrong_option(int found, const char *word) {
    char letter[] = {'-', (char)optopt, 0};
    if (found == ':')
        return wrong("a value is missing behind ", word);
    if (optopt >= FIRST_LONG)
        return wrong("it takes no value: ", word);
    if (optopt != 0 || option_like(word) == NULL)
        return wrong("no such option: ", optopt != 0 ? letter : word);
    log_line("no such option: %s: did you mean --%s?", word, option_like(word));
    return WRONG_ARGUMENTS;
}

/* Says what an option takes, where its value is not that: the status. */
static int wrong_value(int option, const char *value) {
    const struct option *known = OPTIONS;
    while (known->val != option)
        known++;
    log_line("--%s %s: %s", known->name, value, taken_by(option));
    return WRONG_ARGUMENTS;
}

/* Takes apart INTERFACE=PIPE at its first sign, and FILE=FEED at its last. */
static int take_route(char *given, struct arguments *arguments) {
    char *sign = arguments->are_files ? strrchr(given, '=') : strchr(given, '=');
    if (sign == NULL || sign == given || sign[1] == 0)
        return wrong(arguments->are_files ? "no FILE=FEED: " : "no INTERFACE=PIPE: ", given);
    *sign = 0;
    arguments->routes[arguments->count++] = (struct route){.from = given, .to = sign + 1};
    return 0;
}

/* Gives each route of an interface what was given of it. Whether there is one. */
static bool place(const struct given *given, struct arguments *arguments) {
    bool is_placed = false;
    for (int at = 0; at < arguments->count && !arguments->are_files; at++) {
        struct route *route = &arguments->routes[at];
        if (strcmp(route->from, given->interface) != 0)
            continue;
        if (given->prefilter != NULL)
            route->prefilter = given->prefilter;
        else
            route->span = given->span;
        is_placed = true;
    }
    return is_placed;
}

/* 0, or the status where something was given of no route. */
static int place_all(struct arguments *arguments) {
    for (const struct given *given = arguments->given; given < arguments->given + arguments->given_count; given++)
        if (!place(given, arguments))
            return wrong(given->prefilter != NULL ? "--prefilter of what isn't captured: "
                                                  : "--span of what isn't captured: ",
                         given->interface);
    return 0;
}

static int read_routes(int count, char **given, struct arguments *arguments) {
    int status = 0;
    for (int i = 0; i < count && status == 0; i++)
        status = take_route(given[i], arguments);
    if (status == 0 && arguments->count == 0)
        return wrong("nothing to capture", "");
    return status == 0 ? place_all(arguments) : status;
}

/* The kernel's buffer for each of so many interfaces, in MiB, where no other is given. */
static int usual_buffer(int count) {
    int64_t pages = sysconf(_SC_PHYS_PAGES), page_len = sysconf(_SC_PAGESIZE);
    int64_t share = pages * page_len / BYTES_A_MIB / BUFFERS_IN_MEMORY / BUFFER_FOLD / count;
    return share >= USUAL_BUFFER ? USUAL_BUFFER : share > LEAST_BUFFER ? (int)share : LEAST_BUFFER;
}

/* Prints a text that was asked for. The status. */
static int show(const char *text) {
    if (fputs(text, stdout) >= 0 && fflush(stdout) == 0)
        return 0;
    log_line("file -: %s", strerror(errno));
    return 1;
}

/* Reads the options. 0, or the status with which to end. `origin` is the one that is given, NULL where none is. */
static int read_options(int argc, char **argv, struct arguments *arguments, bool *is_done, const char **origin) {
    int option, status = 0;
    opterr = 0;
    while (status == 0 && (option = getopt_long(argc, argv, ":r:", OPTIONS, NULL)) != -1) {
        if (option == HELP || option == VERSION_ASKED) {
            *is_done = true;
            return show(option == HELP ? USAGE : "capture " VERSION "\n");
        }
        if (option == '?' || option == ':')
            return wrong_option(option, argv[optind - 1]);
        if (arguments->routes == NULL || arguments->given == NULL)
            return wrong("there is no memory for the arguments", "");
        arguments->are_files |= option == 'r';
        if (option == ORIGIN)
            *origin = optarg;
        const char *given = optarg;
        if (option == 'r')
            status = take_route(optarg, arguments);
        else if (!take_option(option, optarg, arguments))
            status = wrong_value(option, given);
    }
    return status;
}

/* Judges the origin of interfaces, and adds to it what makes times right by now. 0, or the status where it is refused.
 */
static int place_origin(const char *given, struct arguments *arguments) {
    struct origin now;
    char at_text[SECONDS_TEXT_LEN], now_text[SECONDS_TEXT_LEN];
    if (arguments->origin.is_first_frame) {
        log_line("--origin first: it needs -r, since the first frames of interfaces aren't known");
        return WRONG_ARGUMENTS;
    }
    origin_of("now", &now);
    print_seconds(arguments->origin.at, at_text);
    print_seconds(now.at, now_text);
    if (add_turns(&arguments->origin, now.at))
        return 0;
    log_line("--origin %s: %s lies ahead of now, which is %s", given, at_text, now_text);
    return WRONG_ARGUMENTS;
}

int read_arguments(int argc, char **argv, struct arguments *arguments, bool *is_done) {
    const char *origin = NULL;
    *arguments = (struct arguments){.interface = EVERY_INTERFACE, .is_promiscuous = true};
    *is_done = false;
    arguments->routes = calloc((size_t)argc, sizeof *arguments->routes);
    arguments->given = calloc((size_t)argc, sizeof *arguments->given);
    int status = read_options(argc, argv, arguments, is_done, &origin);
    if (status != 0 || *is_done)
        return status;
    if (origin == NULL)
        origin_of(arguments->are_files ? "first" : "now", &arguments->origin);
    status = origin == NULL || arguments->are_files ? 0 : place_origin(origin, arguments);
    if (status == 0)
        status = read_routes(argc - optind, argv + optind, arguments);
    if (status == 0 && arguments->buffer_mib == 0)
        arguments->buffer_mib = usual_buffer(arguments->count);
    return status;
}
