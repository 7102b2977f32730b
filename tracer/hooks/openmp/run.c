/* The beginning of a run with OpenMP, whose settings are those of the environment. */
#include "base/openmp.h"
#include "openmp/bodies.h"
#include "openmp/cancel.h"
#include "openmp/depend.h"
#include "openmp/loops.h"
#include "openmp/notes.h"
#include "openmp/others.h"
#include "openmp/reductions.h"
#include "openmp/teams.h"
#include "openmp/turns.h"
#include "shadow/own.h"
#include "base/settings.h"

static uint64_t threads_of_team(void) {
    uint64_t threads = settings_number(SETTING_TEAM);
    if (threads > STACK_MOST)
        tell_fault("SPBAGS_TEAM=%llu: a team has at most %d threads", (unsigned long long)threads, STACK_MOST);
    return threads;
}

size_t openmp_room_for_members(size_t *own_size) {
    const size_t room = (size_t)120 << 20, whole = *own_size > room ? *own_size : room;
    uint64_t others = threads_of_team() - 1;
    if (others == 0)
        return 0;
    if (settings_is(SETTING_NESTED, "1"))
        others = STACK_MOST - 1;
    *own_size = least(*own_size, whole / 2);
    turns.stack_size = least(*own_size, ((whole - *own_size) / others - stacks_gap) & ~(size_t)0xffff);
    return others * (turns.stack_size + stacks_gap);
}

static bool is_true(const char *variable) {
    const char *value = getenv(variable);
    return value && strcasecmp(value, "true") == 0;
}

/* Numbers with commas between. */
static void set_threads_of_levels(void) {
    const char *name = "OMP_NUM_THREADS", *value = getenv(name), *at = value;
    while (at && *at) {
        char *rest;
        long threads = strtol(at, &rest, 10);
        rest += strspn(rest, " ");
        if (threads < 1 || threads > INT_MAX || (*rest != '\0' && (*rest != ',' || rest[1] == '\0')))
            tell_fault("%s=%s: expected numbers of threads, at least 1, with commas between", name, value);
        if (teams.levels_named < TEAMS_MOST_LEVELS)
            teams.threads_of_level[teams.levels_named++] = (int)threads;
        at = rest + (*rest == ',');
    }
}

/* How many regions around one another may have several threads: as many as the environment says, or 1. */
static int levels_of_teams(void) {
    bool is_nested = teams.nests || teams.levels_named > 1 || is_true("OMP_NESTED");
    uint64_t levels = settings_number_in("OMP_MAX_ACTIVE_LEVELS", "a number of levels", is_nested ? INT_MAX : 1);
    return teams.nests ? INT_MAX : (int)least(levels, INT_MAX);
}

__attribute__((constructor(102))) static void start_openmp(void) {
    scopes_start();
    bodies_start();
    loops_start();
    scopes.first->loop = loops_of_thread();
    teams.size = threads_of_team();
    teams.is_chosen = settings_text(SETTING_TEAM) != NULL;
    teams.nests = settings_is(SETTING_NESTED, "1");
    others_start();
    set_threads_of_levels();
    scopes.first->threads_wanted = teams_threads_by_variable(0);
    teams.most_active_levels = levels_of_teams();
    depend_read_settings();
    cancel_is_allowed = is_true("OMP_CANCELLATION");
    loops.iterations = settings_number(SETTING_ITERATIONS);
    reductions_start();
    turns.own[0] = own_find();
    if (doing.tracing)
        own_enter(&turns.own[0]);
}
