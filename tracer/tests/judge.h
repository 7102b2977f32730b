/* Says which variables of a run race, by definition: it keeps the dag of the strands with all its paths, and every
   access, and asks of each two accesses of one variable whether a path leads from the one to the other.
   It knows nothing of traces, bags or stacks. tests/random_cilk.py writes programs that call it. */
#include <stdbool.h>
#include <stdint.h>
#include <stdio.h>
#include <stdlib.h>
#include <string.h>

enum { MOST_STRANDS = 4096, MOST_VARIABLES = 4096, MOST_ACCESSES = 65536, MOST_DEPTH = 256, WORDS = MOST_STRANDS / 64 };

/* By strand: those from which a path leads to it, itself among them. */
static uint64_t before[MOST_STRANDS][WORDS];
static int strands, now;

static const char *names[MOST_VARIABLES];
static int variables;

static struct access {
    int variable, strand;
    bool writes;
} accesses[MOST_ACCESSES];
static int accessed;

/* By function that runs: the last strands of its children that it hasn't waited for; and by child its parent's. */
static struct frame {
    int last[MOST_DEPTH], children, at_spawn;
} frames[MOST_DEPTH];
static int depth;

static void check(bool fits) {
    if (!fits) {
        fprintf(stderr, "judge: a program is too large\n");
        exit(2);
    }
}

/* A new strand, to which an edge leads from this one. */
static int strand_after(int from) {
    int made = strands++;
    check(strands < MOST_STRANDS);
    memcpy(before[made], before[from], sizeof before[made]);
    before[made][made / 64] |= (uint64_t)1 << made % 64;
    return made;
}

static void edge(int from, int to) {
    for (int word = 0; word < WORDS; word++)
        before[to][word] |= before[from][word];
}

static bool is_path(int from, int to) { return before[to][from / 64] >> from % 64 & 1; }

static void enter(void) {
    check(++depth < MOST_DEPTH);
    frames[depth].children = 0;
}

static void sync_children(void) {
    struct frame *frame = &frames[depth];
    if (frame->children == 0)
        return;
    now = strand_after(now);
    while (frame->children > 0)
        edge(frame->last[--frame->children], now);
}

static void leave(void) {
    sync_children();
    depth--;
}

static void spawn(void) {
    frames[depth].at_spawn = now;
    now = strand_after(now);
}

/* The child that was spawned last in this function has ended. */
static void spawned(void) {
    struct frame *frame = &frames[depth];
    check(frame->children < MOST_DEPTH);
    frame->last[frame->children++] = now;
    now = strand_after(frame->at_spawn);
}

static int variable(const char *name) {
    check(variables < MOST_VARIABLES);
    names[variables] = name;
    return variables++;
}

static void touch(int variable, bool writes) {
    check(accessed < MOST_ACCESSES);
    accesses[accessed++] = (struct access){variable, now, writes};
}

static bool is_racy(int variable) {
    for (int i = 0; i < accessed; i++)
        for (int j = 0; accesses[i].variable == variable && accesses[i].writes && j < accessed; j++)
            if (accesses[j].variable == variable && !is_path(accesses[i].strand, accesses[j].strand) &&
                !is_path(accesses[j].strand, accesses[i].strand))
                return true;
    return false;
}

/* Begins a program, and ends it: prints the names of those that race. */
static void begin_program(void) {
    memset(before, 0, sizeof before);
    strands = variables = accessed = depth = now = 0;
    now = strand_after(0);
    enter();
}

static void end_program(int number) {
    leave();
    printf("%d", number);
    for (int at = 0; at < variables; at++)
        if (is_racy(at))
            printf(" %s", names[at]);
    printf("\n");
}
