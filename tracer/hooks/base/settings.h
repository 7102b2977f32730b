/* The settings: environment variables, each with what it may be, what it is by default, and one line of help. With
   SPBAGS_HELP=1 a program prints them, and the pages' tables are made of this file by tracer/tables. */
#ifndef SPBAGS_BASE_SETTINGS_H
#define SPBAGS_BASE_SETTINGS_H

#include "base/common.h"

/* clang-format off */
#define SETTINGS(SETTING) \
    SETTING(TRACE, "a file, fd:N or -", "no trace", "where the trace goes") \
    SETTING(REPORT, "a file, fd:N or -", "standard error", \
            "where the report of the detector inside goes") \
    SETTING(PLACES, "a file, fd:N or -", "for a file TRACE.places", \
            "the places for spbags-lines; empty means none") \
    SETTING(UNIT, "1, 2, 4 or 8", "4", "the bytes of one location") \
    SETTING(VERSION, "1 or 2", "2", "the version of the trace's text") \
    SETTING(REPEATS, "0 or 1", "0", "1 writes repeats too") \
    SETTING(STREAMS, "0 or 1", "0", "1: to use a stream or descriptor is a write") \
    SETTING(REUSE, "0 or 1", "1", "0: no memory of the heap comes again, and none is left out") \
    SETTING(PATIENCE, "a number of seconds", "30", \
            "after these a line says that the program does nothing new") \
    SETTING(EXITCODE, "a status from 0 to 255", "the program's", "the status if the report has races") \
    SETTING(INCOMPLETE_OK, "0 or 1", "0", "1 accepts what wasn't seen or modelled") \
    SETTING(MAX_BYTES, "a number of bytes", "for a file a quarter of the free space", \
            "the most bytes of the trace") \
    SETTING(HELP, "0 or 1", "0", "1 prints all settings")

#define OPENMP_SETTINGS(SETTING) \
    SETTING(ITERATIONS, "a number of iterations", "1", "so many consecutive ones make one child") \
    SETTING(TEAM, "a number of threads", "2", "the most threads of a team, up to 64") \
    SETTING(NESTED, "0 or 1", "0", "1: a region inside another one has a team too") \
    SETTING(DEPEND, "ignore or order", "an end of the run", "what is done for depend")

/* Those that spbags-run alone sets: descriptors, and where a run ends. */
#define RUNNER_SETTINGS(SETTING) \
    SETTING(SAYS, "fd:N", "", "") \
    SETTING(LOOK, "fd:N", "", "") \
    SETTING(DIVIDE, "fd:N", "", "") \
    SETTING(WAITED, "fd:N", "", "") \
    SETTING(OTHERS, "numbers of constructs", "", "") \
    SETTING(PROGRESS, "fd:N", "", "") \
    SETTING(LAST, "a number of records", "", "")
/* clang-format on */

enum setting {
#define NUMBER_OF(NAME, ...) SETTING_##NAME,
    SETTINGS(NUMBER_OF) OPENMP_SETTINGS(NUMBER_OF) RUNNER_SETTINGS(NUMBER_OF)
#undef NUMBER_OF
};

/* Its name, with SPBAGS_ before it. */
const char *settings_name(enum setting setting);
/* What the environment says, or NULL; and the same where it isn't empty. */
const char *settings_given(enum setting setting);
const char *settings_text(enum setting setting);
/* Whether it is this one of its values. What is none of them ends the run. */
bool settings_is(enum setting setting, const char *value);
/* The same where all values are digits. */
unsigned settings_digit(enum setting setting);
/* A number that the table or else the caller has a default for. */
uint64_t settings_number(enum setting setting);
uint64_t settings_number_or(enum setting setting, uint64_t otherwise);
/* That of another variable. */
uint64_t settings_number_in(const char *variable, const char *expected, uint64_t otherwise);
/* The status, or -1. */
int settings_status(enum setting setting);
void settings_forget(enum setting setting);
/* Prints all, if that is asked for, and ends the program. */
void settings_help(void);

#endif
