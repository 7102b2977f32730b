#include "openmp/notes.h"

#include "base/openmp.h"
#include "openmp/loops.h"
#include "openmp/others.h"
#include "openmp/team.h"
#include "openmp/waits.h"
#include "base/source_line.h"

struct notes notes;

void notes_add_outlived(uint64_t count, uintptr_t wait, uintptr_t code) {
    if (notes.outlived == 0) {
        notes.outlived_wait = wait;
        notes.outlived_code = code;
    }
    notes.outlived += count;
}

void notes_name_region(uintptr_t region, uintptr_t code) {
    uintptr_t *named[] = {&notes.small_team, &notes.inner_team, &notes.alone_by_variable, &notes.last_does};
    for (size_t at = 0; at < sizeof named / sizeof *named; at++)
        if (*named[at] == region)
            *named[at] = code;
}

/* The place in the source, up to the next call of this. */
static const char *place_of(uintptr_t code) {
    static char line[400];
    return source_line(code, line, sizeof line);
}

/* A member of a team ends the run. */
static void tell_unfinished(void) {
    const struct scope *thread = scopes_thread();
    if (thread->kind == SCOPE_MEMBER)
        tell_incomplete("%s: the run ends inside this parallel region: what its other threads do up to their next "
                        "barrier isn't modelled",
                        place_of(thread->team->code));
}

static void tell_waits(void) {
    char code[400];
    if (notes.outlived > 0 || waits_is_astray(scopes.begun))
        tell_unmodelled(waits_is_second || waits_write(scopes.begun) ? "waits" : "incomplete",
                        "%s: this wait doesn't wait for %llu tasks, iterations or other parts, the first from %s. In "
                        "the trace they have ended, so races with what follows aren't seen",
                        place_of(notes.outlived_wait), (unsigned long long)notes.outlived,
                        source_line(notes.outlived_code, code, sizeof code));
}

/* What is in an order here that another run may not have. Where two threads may do something, the last one does it. */
static void tell_order(void) {
    if (notes.master_does_more != 0)
        tell_incomplete("%s: the thread of this master region also does a loop, sections or a single region before the "
                        "next barrier, and any thread may do those: races between both aren't seen",
                        place_of(notes.master_does_more));
    if (notes.after_ordered != 0)
        tell_incomplete("%s: this access to shared memory comes after its iteration's ordered region, and in the trace "
                        "before the next iteration's: races of such accesses aren't seen",
                        place_of(notes.after_ordered));
    if (notes.last_does != 0)
        tell_incomplete(
            "%s: this parallel region asks for a thread's number, and the last thread does its single regions "
            "or sums: races of these with what only that thread does aren't seen",
            place_of(notes.last_does));
}

/* What a thread has of its own is recorded where others access it. */
static void tell_others(void) {
    if (notes.others_own != 0)
        tell_incomplete("%s: this accesses what another thread has of its own, by threadprivate or thread_local. What "
                        "that thread does there isn't recorded: races with it aren't seen",
                        place_of(notes.others_own));
    others_tell();
    if (notes.beside_name != 0)
        tell_incomplete("%s: this accesses a variable of the parallel region that single regions, sections or "
                        "iterations access by its name, and others in another thread by a pointer. Where the thread "
                        "that has it does the former, races of both aren't seen",
                        place_of(notes.beside_name));
    if (notes.beside_task != 0)
        tell_incomplete("%s: this accesses a variable of the parallel region that a task accesses too, which its "
                        "thread has made in a loop, a section or a single region: races of both aren't seen",
                        place_of(notes.beside_task));
}

static void tell_depend(void) {
    if (notes.depend_wait != 0)
        tell_incomplete("%s: this depends on a task, and waits for all before it by SPBAGS_DEPEND=order: races of what "
                        "comes before with what comes after aren't seen",
                        place_of(notes.depend_wait));
    if (notes.depend_ignored != 0)
        tell_seeming("%s: by SPBAGS_DEPEND=ignore nothing waits for data: what depend orders may look like a race",
                     place_of(notes.depend_ignored));
}

/* What isn't parallel here, or isn't run, though it may be in another run. */
static void tell_left_out(void) {
    if (notes.blocks_of != 0)
        tell_incomplete("%s: each of %u threads does a block of this loop, since %s: races inside a block aren't seen",
                        place_of(notes.blocks_of), notes.blocks_team,
                        notes.blocks_asked ? "its region asks for a thread's number"
                                           : "with schedule(static) and nowait a thread relies on what it did before");
    if (notes.inner_team != 0)
        tell_incomplete("%s: a team inside another one has one thread: SPBAGS_NESTED=1 gives it several",
                        place_of(notes.inner_team));
    if (notes.alone_by_variable != 0)
        tell_incomplete("%s: this parallel region has one thread by OMP_NUM_THREADS, so nothing in it is parallel",
                        place_of(notes.alone_by_variable));
    if (notes.masked_out != 0)
        tell_incomplete("%s: this region is for thread %d, and its team has %d: it isn't run. SPBAGS_TEAM says how "
                        "many there may be",
                        place_of(notes.masked_out), notes.masked_thread, notes.masked_team);
    if (notes.cancelled != 0)
        tell_incomplete("%s: OMP_CANCELLATION lets this cancel what is done, but here all of it is done",
                        place_of(notes.cancelled));
    if (notes.has_long_shares)
        tell_incomplete("SPBAGS_ITERATIONS=%llu makes that many iterations one child: races between them aren't seen",
                        (unsigned long long)loops.iterations);
}

static void tell_small_team(void) {
    if (notes.small_team_asks)
        tell_incomplete("%s: this parallel region has %llu threads, and asks for a thread's number, or how many there "
                        "are: what only others do isn't run. SPBAGS_TEAM says how many there may be",
                        place_of(notes.small_team), (unsigned long long)notes.small_team_has);
    else if (notes.small_team != 0)
        tell_incomplete(
            "%s: this parallel region wants %llu threads, and has %llu: SPBAGS_TEAM says how many there may be",
            place_of(notes.small_team), (unsigned long long)notes.small_team_wants,
            (unsigned long long)notes.small_team_has);
}

/* What can't be judged, or not well. */
static void tell_unsure(void) {
    if (notes.simd_loop != 0)
        tell_incomplete("%s: a loop with simd alone runs serially here: whether its iterations depend on each other "
                        "isn't checked",
                        place_of(notes.simd_loop));
    if (notes.task_asks != 0)
        tell_seeming("%s: a task or an iteration asks for its thread's number, which is that of the thread that makes "
                     "it, so memory that they choose by that number may look like a race",
                     place_of(notes.task_asks));
}

void openmp_tell_notes(void) {
    tell_waits();
    tell_order();
    tell_others();
    tell_depend();
    tell_unfinished();
    tell_left_out();
    tell_small_team();
    tell_unsure();
}
