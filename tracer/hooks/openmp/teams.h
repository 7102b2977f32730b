/* Teams: a region is run by several members, of which one runs at a time, or by one thread alone. */
#ifndef SPBAGS_OPENMP_TEAMS_H
#define SPBAGS_OPENMP_TEAMS_H

#include "openmp/team.h"

enum { TEAMS_MOST_LEVELS = 64 };

extern struct teams {
    /* How many members a team has, unless the program wants fewer; and whether SPBAGS_TEAM says so. */
    uint64_t size;
    bool is_chosen;
    /* Whether teams in others may have several members, by SPBAGS_NESTED. */
    bool nests;
    /* How many OMP_NUM_THREADS says that a team wants where the program itself doesn't say, by the number of teams
       around. */
    int threads_of_level[TEAMS_MOST_LEVELS], levels_named;
    int active_levels, most_active_levels;
} teams;

/* What OMP_NUM_THREADS says, or 0. */
static inline int teams_threads_by_variable(int around) {
    return around < teams.levels_named ? teams.threads_of_level[around] : 0;
}

/* A team begins, with so many threads if that isn't 0, and does the region, and ends. */
void teams_begin(unsigned threads, void *data, uintptr_t stack_pointer, uintptr_t code);
void teams_run(struct region region, uintptr_t code);
void teams_end(uintptr_t stack_pointer, uintptr_t code);
void teams_do(struct region region, unsigned threads, uintptr_t stack_pointer, uintptr_t code);

/* In a team of this size, whose region wants so many threads or 0, one asks for its number. */
void teams_note_asking(uint64_t size, uint64_t wanted, uintptr_t code);

#endif
