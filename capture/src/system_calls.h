/* The calls of the kernel that are left to a program that captures, by seccomp(2). */
#ifndef SYSTEM_CALLS_H
#define SYSTEM_CALLS_H

/* Forbids all calls but those that capturing needs, to this thread and those that it starts: any other one fails with
 * EPERM, and none starts a program. Built without libseccomp it does nothing. */
void forbid_other_calls(void);

#endif
