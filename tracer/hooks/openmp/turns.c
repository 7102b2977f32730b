#include "openmp/turns.h"

#include "program/hidden.h"
#include "program/locations.h"
#include "records/look_stacks.h"
#include "base/memory.h"
#include "openmp/bodies.h"
#include "base/caller.h"
#include "base/doing.h"
#include "base/tell.h"
#include "records/guards.h"
#include "shadow/frames.h"
#include "program/watch.h"

struct turns turns = {.stacks_used = 1};
/* What signals a member lets through. */
static sigset_t members_mask;

/* The guards that are held on each stack. */
static struct {
    struct guard list[GUARD_MOST];
    unsigned count;
} kept[STACK_MOST];

static struct own_of_thread *own_of(const struct stack *stack) { return &turns.own[stack - stacks]; }

/* What others have recorded there is forgotten. */
static void enter_own(const struct stack *stack) {
    const struct own_of_thread *own = own_of(stack);
    for (size_t at = 0; at < OWN_PARTS; at++)
        locations_clear(own->part[at].first, own->part[at].end - own->part[at].first);
    own_enter(own);
}

static void leave_stack(void) {
    struct stack *stack = stacks_running;
    if (doing.tracing)
        own_leave(own_of(stack));
    stack->frames = frames_all;
    stack->frames_end = frames_end;
    stack->top = frames_top;
    stack->grouped = frames_grouped;
    stack->silent_frame = frames_silent;
    stack->parts = frames_parts;
    stack->lowest = stacks_lowest;
    stack->bodies = bodies.first;
    stack->newest_body = bodies.newest;
    stack->hidden = frames_hidden;
    stack->hidden_updates = hidden_updates;
    stack->statics = frames_statics;
    kept[stack - stacks].count = guards_held;
    memcpy(kept[stack - stacks].list, guards, guards_held * sizeof *guards);
}

static void enter_stack(struct stack *stack) {
    stacks_running = stack;
    stacks_follow_running();
    frames_all = stack->frames;
    frames_end = stack->frames_end;
    frames_top = stack->top;
    frames_grouped = stack->grouped;
    frames_silent = stack->silent_frame;
    frames_parts = stack->parts;
    stacks_lowest = stack->lowest;
    bodies = (struct bodies){stack->bodies, stack->newest_body};
    frames_hidden = stack->hidden;
    hidden_updates = stack->hidden_updates;
    frames_statics = stack->statics;
    guards_held = kept[stack - stacks].count;
    memcpy(guards, kept[stack - stacks].list, guards_held * sizeof *guards);
    blocks_leave_quick_sites();
    if (doing.tracing)
        enter_own(stack);
    frames_find_short_way();
}

static void give_turn(struct stack *next) {
    if (doing.looking)
        look_stacks_node_of(look_stacks_top());
    leave_stack();
    enter_stack(next);
    sem_post(&next->turn);
}

void turns_switch_to(struct stack *next) {
    struct stack *stack = stacks_running;
    sigset_t all, before;
    int error = errno;
    sigfillset(&all);
    sigprocmask(SIG_BLOCK, &all, &before);
    give_turn(next);
    wait_for(&stack->turn);
    stacks_running_thread = __builtin_thread_pointer();
    sigprocmask(SIG_SETMASK, &before, NULL);
    errno = error;
}

/* The first turn of a member's thread. */
static void prepare_thread(void) {
    sigaltstack(&(stack_t){.ss_sp = stacks_for_signals, .ss_size = sizeof stacks_for_signals}, NULL);
    *own_of(stacks_running) = own_find();
    if (doing.tracing)
        enter_own(stacks_running);
    watch_begin();
}

static void *take_turns(void *with) {
    struct stack *stack = with;
    sigset_t all;
    sigfillset(&all);
    for (bool is_prepared = false;; is_prepared = true) {
        wait_for(&stack->turn);
        stacks_running_thread = __builtin_thread_pointer();
        if (!is_prepared)
            prepare_thread();
        sigprocmask(SIG_SETMASK, &members_mask, NULL);
        struct member *member = stack->member;
        stack->does->run(member, STACK_POINTER);
        sigprocmask(SIG_BLOCK, &all, NULL);
        give_turn(stack->does->next(member));
    }
    return NULL;
}

static void start_thread(struct stack *stack) {
    sigset_t all;
    pthread_t thread;
    pthread_attr_t attributes;
    sem_init(&stack->turn, 0, 0);
    sigfillset(&all);
    sigprocmask(SIG_BLOCK, &all, &members_mask);
    pthread_attr_init(&attributes);
    pthread_attr_setstack(&attributes, (void *)stack->first, stack->end - stack->first);
    int error = __real_pthread_create(&thread, &attributes, take_turns, stack);
    pthread_attr_destroy(&attributes);
    sigprocmask(SIG_SETMASK, &members_mask, NULL);
    if (error != 0)
        tell_fault("a thread of a team can't be started: %s", strerror(error));
}

/* The next stack below all others. */
static void add_stack(void) {
    struct stack *stack = &stacks[stacks_count];
    uintptr_t end = stacks[stacks_count - 1].first - stacks_gap, first = end - turns.stack_size;
    int flags = MAP_PRIVATE | MAP_ANONYMOUS | MAP_NORESERVE | MAP_STACK | MAP_FIXED_NOREPLACE;
    if (mmap((void *)first, turns.stack_size, PROT_READ | PROT_WRITE, flags, -1, 0) != (void *)first)
        tell_fault("there is no room for the stacks of a team below the program's own: SPBAGS_TEAM=1 needs none");
    size_t most_frames = turns.stack_size / 16 * 2;
    *stack = (struct stack){.first = first, .end = end, .lowest = end};
    stack->frames = memory_reserve(most_frames * sizeof *frames_all);
    stack->frames_end = stack->frames + most_frames;
    stack->parts = doing.looking ? memory_reserve(most_frames * sizeof *frames_parts) : NULL;
    stack->bodies = bodies_reserve();
    stacks_count++;
    start_thread(stack);
}

struct stack *turns_next_stack(const struct turn *turn, struct member *member, uint32_t node) {
    if (turns.stacks_used == stacks_count)
        add_stack();
    struct stack *stack = &stacks[turns.stacks_used++];
    stack->top = stack->frames;
    *stack->top = (struct frame){.kind = FRAME_ROOT, .end = UINTPTR_MAX, .node = node};
    stack->quick_end = stack->own_end = stack->end;
    stack->grouped = stack->silent_frame = NULL;
    stack->newest_body = stack->bodies;
    kept[stack - stacks].count = stack->hidden = stack->hidden_updates = stack->statics = 0;
    stack->does = turn;
    stack->member = member;
    return stack;
}
