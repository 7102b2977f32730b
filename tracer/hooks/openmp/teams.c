#include "openmp/teams.h"

#include "records/look_stacks.h"
#include "openmp/children.h"
#include "openmp/loops.h"
#include "openmp/members.h"
#include "openmp/notes.h"
#include "openmp/parts.h"
#include "openmp/turns.h"

struct teams teams = {.most_active_levels = 1};

/* What only threads with other numbers do isn't run. Where neither the program nor the user says how many there are,
   there may be more. */
void teams_note_asking(uint64_t size, uint64_t wanted, uintptr_t code) {
    bool is_as_wanted = wanted > 0 ? wanted <= size : teams.is_chosen;
    if (notes.small_team_asks || is_as_wanted)
        return;
    notes.small_team_asks = true;
    notes.small_team = code;
    notes.small_team_has = size;
    notes.small_team_wants = wanted;
}

/* How many threads there may be, where the program wants so many, or as many as there are. */
static unsigned size_of_team(uint64_t wanted, uintptr_t code) {
    uint64_t most = doing.tracing ? least(teams.size, STACK_MOST - turns.stacks_used + 1) : 1;
    if (wanted > most && notes.small_team == 0) {
        notes.small_team = code;
        notes.small_team_has = most;
        notes.small_team_wants = wanted;
    }
    return (unsigned)(wanted > 0 ? least(wanted, most) : most);
}

/* Whether a team that wants so many threads, or as many as there are, has one and no more. */
static bool is_alone(uint64_t wanted, uintptr_t code) {
    if (teams.active_levels >= teams.most_active_levels)
        return true;
    if (wanted == 1) {
        if (teams_threads_by_variable(scopes_level(false)) == 1)
            notes_keep(&notes.alone_by_variable, code);
        return true;
    }
    if (teams.active_levels == 0 || teams.nests)
        return false;
    notes_keep(&notes.inner_team, code);
    return true;
}

void teams_begin(unsigned threads, void *data, uintptr_t stack_pointer, uintptr_t code) {
    uint64_t wanted = threads > 0 ? threads : (uint64_t)scopes_task()->threads_wanted;
    bool alone = is_alone(wanted, code);
    parts_forget_below(stack_pointer);
    struct scope *team = scopes_push(SCOPE_TEAM, false);
    int inner = teams_threads_by_variable(scopes_level(false));
    team->threads_wanted = inner > 0 ? inner : team->threads_wanted;
    team->alone = alone;
    team->size = alone ? 1 : size_of_team(wanted, code);
    team->team_wanted = wanted;
    team->code = code;
    team->stack_end = stack_pointer;
    team->loop = loops_of_thread();
    teams.active_levels += !alone;
    parts_open(FRAME_CALLED, stack_pointer, code);
    frames_note_part((struct frame_part){.data = (uintptr_t)data, .of = look_stacks_region});
}

void teams_end(uintptr_t stack_pointer, uintptr_t code) {
    const struct scope *team = scopes.newest;
    teams.active_levels -= !team->alone;
    loops_end_from(team->loop);
    parts_close(code);
    children_end_waiting(code);
    parts_forget_below(stack_pointer);
}

void teams_run(struct region region, uintptr_t code) {
    struct scope *scope = scopes.newest;
    if (scope->size == 1) {
        if (region.whole)
            loops_begin(*region.whole);
        region.run(region.data);
        return;
    }
    struct member members[scope->size];
    struct team team = {.region = region,
                        .code = code,
                        .frame = frames_top,
                        .members = members,
                        .size = scope->size,
                        .wanted = scope->team_wanted,
                        .first_loop = loops.next};
    scope->team = &team;
    members_do_region(&team);
}

void teams_do(struct region region, unsigned threads, uintptr_t stack_pointer, uintptr_t code) {
    teams_begin(threads, region.data, stack_pointer, code);
    teams_run(region, code);
    teams_end(stack_pointer, code);
}

#pragma GCC visibility push(hidden)

void GOMP_parallel(void (*run)(void *), void *data, unsigned threads, unsigned flags) {
    (void)flags;
    teams_do((struct region){run, data, NULL, 1}, threads, STACK_POINTER, CODE);
}

#pragma GCC visibility pop
