/* Reductions that tasks take part in, as clang compiles them. For each variable it hands over functions that begin and
   end a copy, and that combine it. As a task runs at once, where it is made, it takes the copy of its thread, which is
   combined where its group ends, or what its thread does in the region. */
#include "openmp/children.h"
#include "openmp/clang/clang.h"
#include "openmp/parts.h"
#include "openmp/reductions.h"
#include "openmp/tasks.h"

#pragma GCC visibility push(hidden)

struct clang_reduction {
    void *shared, *original;
    size_t size;
    void (*begin)(void *, void *);
    void (*end)(void *);
    void (*combine)(void *, void *);
    uint32_t flags;
};
enum clang_reduction_flag { BEGINS_LATE = 1 };

/* Before each copy, whether it has begun. */
enum { COPY_ALIGNMENT = 64 };
struct copy_header {
    _Alignas(COPY_ALIGNMENT) bool begun;
};

static struct copy_header *header_of_copy(uintptr_t copy) { return (struct copy_header *)copy - 1; }

static uintptr_t begun_copy(uintptr_t copy, const struct clang_reduction *of) {
    struct copy_header *header = header_of_copy(copy);
    if (!header->begun && of->begin)
        of->begin((void *)copy, of->original);
    header->begun = true;
    return copy;
}

/* As gcc's code hands them over; each variable's third word is where LIST has it. */
static uintptr_t *reductions_of(size_t count, const struct clang_reduction *list) {
    uintptr_t *array = calloc(REDUCTION_FIRST + count * REDUCTION_WORDS_EACH, sizeof *array);
    if (!array)
        tell_fault("out of memory for the copies of reductions");
    array[REDUCTION_VARIABLES] = count;
    array[REDUCTION_MEMORY] = COPY_ALIGNMENT;
    for (size_t at = 0; at < count; at++) {
        uintptr_t *variable = array + REDUCTION_FIRST + at * REDUCTION_WORDS_EACH;
        variable[0] = (uintptr_t)list[at].shared;
        variable[1] = array[REDUCTION_SIZE] + sizeof(struct copy_header);
        variable[2] = (uintptr_t)&list[at];
        array[REDUCTION_SIZE] = (variable[1] + list[at].size + COPY_ALIGNMENT - 1) & ~(uintptr_t)(COPY_ALIGNMENT - 1);
    }
    return array;
}

static void begin_reductions(size_t count, const struct clang_reduction *list, uintptr_t stack_pointer,
                             uintptr_t code) {
    uintptr_t *array = reductions_of(count, list);
    reductions_register(scopes.newest, array, NULL);
    parts_open(FRAME_CALLED, stack_pointer, code);
    for (size_t at = 0; at < count; at++)
        if ((list[at].flags & BEGINS_LATE) == 0)
            begun_copy(reductions_copy_of(array, array + REDUCTION_FIRST + at * REDUCTION_WORDS_EACH), &list[at]);
    parts_close(code);
}

/* All tasks that take part have been waited for. */
static void end_reductions(uintptr_t *array, uintptr_t stack_pointer, uintptr_t code) {
    if (!array)
        return;
    parts_open(FRAME_CALLED, stack_pointer, code);
    for (uintptr_t number = 0; number < array[REDUCTION_VARIABLES]; number++) {
        uintptr_t *variable = array + REDUCTION_FIRST + number * REDUCTION_WORDS_EACH,
                  copy = reductions_copy_of(array, variable);
        const struct clang_reduction *of = (const struct clang_reduction *)variable[2];
        if (!header_of_copy(copy)->begun)
            continue;
        of->combine(of->shared, (void *)copy);
        if (of->end)
            of->end((void *)copy);
    }
    parts_close(code);
    free(array);
}

static void end_group(uintptr_t stack_pointer, uintptr_t code) {
    uintptr_t *reductions = scopes.newest->reductions;
    children_end_waiting(code);
    end_reductions(reductions, stack_pointer, code);
}

void __kmpc_taskgroup(CLANG) { IGNORE, scopes_push(SCOPE_GROUP, false); }
void __kmpc_end_taskgroup(CLANG) {
    IGNORE, tasks_note_shares_left(CODE);
    end_group(STACK_POINTER, CODE);
}

void *__kmpc_taskred_init(int32_t number, int32_t count, const struct clang_reduction *list) {
    (void)number;
    begin_reductions((size_t)count, list, STACK_POINTER, CODE);
    return NULL;
}

/* Of a loop or sections, which get a group; or of a region. */
void *__kmpc_taskred_modifier_init(CLANG, int32_t is_loop, int32_t count, const struct clang_reduction *list) {
    IGNORE;
    if (is_loop)
        scopes_push(SCOPE_GROUP, false);
    begin_reductions((size_t)count, list, STACK_POINTER, CODE);
    return NULL;
}

void __kmpc_task_reduction_modifier_fini(CLANG, int32_t is_loop) {
    IGNORE;
    if (is_loop) {
        end_group(STACK_POINTER, CODE);
        return;
    }
    struct scope *thread = scopes_thread();
    children_join_from(scopes.newest, CODE);
    end_reductions(thread->reductions, STACK_POINTER, CODE);
    thread->reductions = NULL;
}

void *__kmpc_task_reduction_get_th_data(int32_t number, void *group, void *data) {
    uintptr_t *array, *variable = reductions_find((uintptr_t)data, &array);
    (void)number, (void)group;
    return (void *)begun_copy(reductions_copy_of(array, variable), (const struct clang_reduction *)variable[2]);
}

#pragma GCC visibility pop
