/* How a run is ended: asked once, each thread writes what it has; asked again later, it waits for nobody. */
#ifndef SIGNALS_H
#define SIGNALS_H

#include <stdbool.h>

/* Ends that can be polled: each is readable (hung up) once the run is to end, or to end at once. */
extern int stop_fd, hurry_fd;

/* Makes these ends and keeps INT, TERM, HUP, USR1 and USR2 from all threads that start later; whether it could. HUP is
 * ignored where it was, as nohup does it. */
bool prepare_stop(void);

bool is_stopping(void);
bool is_hurried(void);

/* Has the run end, as INT does. */
void stop_run(void);

/* How many times the feeds were asked, by USR1, to go over to what their paths name by then. */
int switches_asked(void);

/* Whether it was said, by USR2, that feeds whose readers leave are to go on with the next ones; `switched` is how many
 * switches a feed has done. */
bool is_held(int switched);

/* Ends the run, as TERM does, once a process has ended; at once where there is none by now. */
void follow_process(int process);

/* Serves the signals until `ended_fd` is hung up, which the last thread closes, and calls `now_and_then` every 20 ms,
 * where it isn't NULL. */
void serve_signals(int ended_fd, void (*now_and_then)(void));

#endif
