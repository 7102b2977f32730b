/* What goes out of the program: the trace or the report. Places have an output of their own. */
#ifndef SPBAGS_BASE_OUTPUT_H
#define SPBAGS_BASE_OUTPUT_H

#include "base/common.h"

/* No record has more bytes, nor has the header. */
enum { OUTPUT_LONGEST = 32 };
/* What goes out at once. A pipe takes many such pieces, so that its reader has some while the program makes others. */
enum { OUTPUT_PIECE = 1 << 16, OUTPUT_PIPE = 1 << 20 };

struct output {
    const char *name;
    int file;
    /* Of the bytes: how many are used, how many of those have gone out, and how many may be used at most. */
    size_t used, gone, room;
    uint64_t written, most;
    /* What is done at that limit. */
    void (*at_limit)(void);
    char bytes[OUTPUT_PIECE];
};

/* What the run makes. */
extern struct output output_of_run;

/* NAME is a file, fd:N an open descriptor, and - the standard output: what the program prints there goes to its
   standard error instead. VARIABLE is the setting that says so. Gives the descriptor. */
int output_open(const char *name, const char *variable);
/* Where NAME is fd:N with a descriptor that isn't the program's, this is that descriptor, out of the way; else -1. */
int output_named_file(const char *variable, const char *name);
/* Out of the program's way: its own files keep their numbers, and what it starts doesn't get ours. */
int output_move_away(const char *variable, int file);

void output_write(struct output *output);
void output_close(struct output *output);
void output_make_room(struct output *output);

/* Room for one more record. */
static inline char *output_room(struct output *output) {
    if (__builtin_expect(output->used + OUTPUT_LONGEST > output->room, 0))
        output_make_room(output);
    return output->bytes + output->used;
}

#endif
