/* What omp.h declares beside locks. What is asked of devices and places is answered as where there are none. */
#include "openmp/loops.h"
#include "openmp/notes.h"
#include "openmp/teams.h"

/* What the program is told of the processors: more than one, so that it doesn't take a serial course. */
enum { PROCESSORS = 8 };

static double seconds(clockid_t clock, int (*ask)(clockid_t, struct timespec *)) {
    struct timespec time;
    ask(clock, &time);
    return (double)time.tv_sec + (double)time.tv_nsec / 1e9;
}

/* What a region does may depend on how many threads it has. */
static void note_question(const struct scope *team) {
    if (!team->alone)
        teams_note_asking(team->size, team->team_wanted, team->team ? team->team->code : team->code);
}

/* A member may do what only one of its number does, so loops aren't all the first member's any more. */
static void ask_in_team(struct scope *thread) {
    thread->team->asks = true;
    note_question(scopes_team());
    if (scopes.newest->kind == SCOPE_SHARE && thread->loop && !thread->loop->ordered)
        thread->loop->in_blocks = true;
}

/* The thread at this level, or NULL. The program's beginning has the level 0. */
static const struct scope *thread_of_level(int of) {
    const struct scope *at = scopes.newest;
    int now = scopes_level(false);
    if (of < 0 || of > now)
        return NULL;
    for (; now > of || !scopes_is_thread(at); at--)
        now -= at->kind == SCOPE_TEAM;
    return at;
}

#pragma GCC visibility push(hidden)

double omp_get_wtime(void) { return seconds(CLOCK_MONOTONIC, clock_gettime); }
double omp_get_wtick(void) { return seconds(CLOCK_MONOTONIC, clock_getres); }

/* ---- Threads ---- */

void omp_set_num_threads(int threads) { scopes_task()->threads_wanted = threads; }
int omp_get_num_threads(void) { return (int)scopes_team()->size; }
int omp_get_num_procs(void) { return PROCESSORS; }
int omp_get_thread_limit(void) { return INT_MAX; }
int omp_in_parallel(void) { return teams.active_levels > 0; }

int omp_get_max_threads(void) {
    int wanted = scopes_task()->threads_wanted;
    return (int)(wanted > 0 ? least((size_t)wanted, teams.size) : teams.size);
}

int omp_get_thread_num(void) { return scopes_thread()->thread; }

/* gcc would ask once for a whole loop, and asks for itself in a master region or where it adds up what tasks have, so
   programs have other names for both. */
int __spbags_num_threads(void) {
    note_question(scopes_team());
    return omp_get_num_threads();
}
int __spbags_thread_num(void) {
    struct scope *thread = scopes_thread();
    enum scope_kind task = scopes_holder()->kind;
    if (thread->kind == SCOPE_MEMBER && task != SCOPE_TASK)
        ask_in_team(thread);
    else if (teams.active_levels > 0 && task != SCOPE_TEAM)
        notes_keep(&notes.task_asks, CODE);
    if (thread->kind == SCOPE_TEAM)
        note_question(thread);
    return thread->thread;
}

/* ---- Levels ---- */

int omp_get_level(void) { return scopes_level(false); }
int omp_get_active_level(void) { return scopes_level(true); }

int omp_get_ancestor_thread_num(int of) {
    const struct scope *thread = thread_of_level(of);
    note_question(scopes_team());
    return thread ? thread->thread : -1;
}
int omp_get_team_size(int of) {
    const struct scope *thread = thread_of_level(of);
    note_question(scopes_team());
    return thread ? (int)thread->size : -1;
}
void omp_set_max_active_levels(int most) { teams.most_active_levels = most >= 0 ? most : teams.most_active_levels; }
int omp_get_max_active_levels(void) { return teams.most_active_levels; }
int omp_get_supported_active_levels(void) { return INT_MAX; }
void omp_set_nested(int nested) { teams.most_active_levels = nested ? INT_MAX : 1; }
int omp_get_nested(void) { return teams.most_active_levels > 1; }

/* ---- Settings that change nothing here ---- */

static int dynamic_threads, chosen_schedule = 2, schedule_size = 1, default_device;

void omp_set_dynamic(int dynamic) { dynamic_threads = dynamic != 0; }
int omp_get_dynamic(void) { return dynamic_threads; }
void omp_set_schedule(int kind, int size) { chosen_schedule = kind, schedule_size = size; }
void omp_get_schedule(int *kind, int *size) { *kind = chosen_schedule, *size = schedule_size; }
void omp_set_default_device(int device) { default_device = device; }
int omp_get_default_device(void) { return default_device; }
int omp_get_num_devices(void) { return 0; }
int omp_get_initial_device(void) { return 0; }
int omp_get_device_num(void) { return 0; }
int omp_is_initial_device(void) { return 1; }
int omp_get_num_teams(void) { return 1; }
int omp_get_team_num(void) { return 0; }
int omp_get_max_task_priority(void) { return 0; }
int omp_in_final(void) { return scopes_task()->final; }
int omp_get_proc_bind(void) { return 0; }
int omp_get_num_places(void) { return 0; }
int omp_get_place_num(void) { return -1; }
int omp_get_partition_num_places(void) { return 0; }

#pragma GCC visibility pop
