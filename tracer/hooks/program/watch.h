/* A watch for waits without end. */
#ifndef SPBAGS_PROGRAM_WATCH_H
#define SPBAGS_PROGRAM_WATCH_H

#include "base/common.h"

/* How long it waits, by the setting. */
void watch_set_patience(void);
/* It begins for this thread. */
void watch_begin(void);

/* Whether this signal is the watch's; then it looks, in the handler. The program takes a signal for itself. */
bool watch_is_signal(int number, const siginfo_t *about);
void watch_look(void);
void watch_leave_signal(int number);

/* A sleep ends that began at this time, in nanoseconds. */
uint64_t watch_time(void);
void watch_end_sleep(uint64_t began);

void watch_tell_endless(void);

#endif
