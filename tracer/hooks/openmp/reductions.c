#include "openmp/reductions.h"

#include "base/memory.h"
#include "openmp/barriers.h"
#include "openmp/children.h"
#include "openmp/ordered.h"
#include "openmp/shares.h"
#include "openmp/teams.h"
#include "shadow/own.h"

static const size_t most_copies = (size_t)1 << 36;

void reductions_start(void) { own_copies.first = own_copies.end = (uintptr_t)memory_reserve(most_copies); }

static uintptr_t own_block(size_t alignment, size_t size) {
    uintptr_t block = (own_copies.end + alignment - 1) & ~(alignment - 1);
    own_copies.end = (block + size + 15) & ~(uintptr_t)15;
    if (own_copies.end - own_copies.first > most_copies)
        tell_fault("out of memory for the copies of reductions");
    if (doing.tracing)
        own_add((struct own_memory){block, own_copies.end});
    return block;
}

/* Memory for the copies of all threads, or those of the first thread that came here. */
static void reserve_copies(uintptr_t *array, const uintptr_t *first) {
    size_t size = array[REDUCTION_SIZE] * scopes_team()->size;
    array[REDUCTION_MEMORY] = first ? first[REDUCTION_MEMORY] : own_block(array[REDUCTION_MEMORY], size);
    array[REDUCTION_END] = array[REDUCTION_MEMORY] + size;
}

static uintptr_t *reductions_around(const struct scope *at) {
    while (at > scopes.first && !at->reductions)
        at--;
    return at->reductions;
}

void reductions_register(struct scope *scope, uintptr_t *data, const uintptr_t *first) {
    uintptr_t *array = data;
    reserve_copies(array, first);
    while (array[REDUCTION_NEXT_ARRAY] != 0) {
        array = (uintptr_t *)array[REDUCTION_NEXT_ARRAY];
        first = first ? (const uintptr_t *)first[REDUCTION_NEXT_ARRAY] : NULL;
        reserve_copies(array, first);
    }
    array[REDUCTION_NEXT_ARRAY] = (uintptr_t)reductions_around(scope);
    scope->reductions = data;
}

/* Finds the variable of an array that has this address, or whose copy of any thread it is; or null. */
static uintptr_t *variable_of(uintptr_t *array, uintptr_t address) {
    bool is_copy = address >= array[REDUCTION_MEMORY] && address < array[REDUCTION_END];
    uintptr_t offset = is_copy ? (address - array[REDUCTION_MEMORY]) % array[REDUCTION_SIZE] : 0;
    for (uintptr_t number = 0; number < array[REDUCTION_VARIABLES]; number++) {
        uintptr_t *variable = array + REDUCTION_FIRST + number * REDUCTION_WORDS_EACH;
        if (is_copy ? variable[1] == offset : variable[0] == address)
            return variable;
    }
    return NULL;
}

uintptr_t *reductions_find(uintptr_t address, uintptr_t **array) {
    uintptr_t *variable = NULL;
    *array = reductions_around(scopes.newest);
    while (*array && !(variable = variable_of(*array, address)))
        *array = (uintptr_t *)(*array)[REDUCTION_NEXT_ARRAY];
    if (!variable)
        tell_fault("a task has in_reduction of a variable that no group around it reduces");
    return variable;
}

uintptr_t reductions_copy_of(const uintptr_t *array, const uintptr_t *variable) {
    return array[REDUCTION_MEMORY] + (uintptr_t)scopes_thread()->thread * array[REDUCTION_SIZE] + variable[1];
}

/* The group around a loop, or NULL. */
static struct scope *begin_workshare(const uintptr_t *reductions) {
    return reductions ? scopes_push(SCOPE_GROUP, false) : NULL;
}

/* The loop has begun. The copies and the memory of the first thread that came are for all. */
static void share_memory(struct scope *group, uintptr_t *reductions, void **memory) {
    struct loop *loop = scopes_thread()->loop;
    if (reductions) {
        reductions_register(group, reductions, loop->reductions);
        loop->reductions = loop->reductions ? loop->reductions : reductions;
    }
    if (memory)
        *memory = loop->memory = loop->memory ? loop->memory : (void *)own_block(1, (size_t)*memory);
}

#pragma GCC visibility push(hidden)

void GOMP_taskgroup_reduction_register(uintptr_t *data) { reductions_register(scopes.newest, data, NULL); }
void GOMP_taskgroup_reduction_unregister(uintptr_t *data) { (void)data; }

/* Puts a thread's copies in the place of the variables, and the first variables' own addresses behind all. */
void GOMP_task_reduction_remap(size_t count, size_t originals, void **addresses) {
    for (size_t number = 0; number < count; number++) {
        uintptr_t *array, *variable = reductions_find((uintptr_t)addresses[number], &array);
        addresses[number] = (void *)reductions_copy_of(array, variable);
        if (number < originals)
            addresses[count + number] = (void *)variable[0];
    }
}

unsigned GOMP_parallel_reductions(void (*run)(void *), void *data, unsigned threads, unsigned flags) {
    (void)flags;
    teams_begin(threads, data, STACK_POINTER, CODE);
    reductions_register(scopes.newest, *(uintptr_t **)data, NULL);
    teams_run((struct region){run, data, NULL, 1}, CODE);
    unsigned copies = (unsigned)scopes_team()->size;
    teams_end(STACK_POINTER, CODE);
    return copies;
}

/* ---- Loops, sections and scopes with such reductions: a group around them ---- */

void GOMP_workshare_task_reduction_unregister(bool cancelled) {
    (void)cancelled;
    children_end_waiting(CODE);
    barriers_join_team(CODE);
}

void GOMP_scope_start(uintptr_t *reductions) {
    struct scope *group = begin_workshare(reductions);
    loops_begin(loops_sections(0));
    share_memory(group, reductions, NULL);
}

unsigned GOMP_sections2_start(unsigned count, uintptr_t *reductions, void **memory) {
    struct scope *group = begin_workshare(reductions);
    loops_begin(loops_sections(count));
    share_memory(group, reductions, memory);
    return shares_next_section(STACK_POINTER, CODE);
}

#define LOOP_START(NAME, BEGIN) \
    bool NAME(long start, long end, long step, long schedule, long most, long *first, long *first_end, \
              uintptr_t *reductions, void **memory) { \
        (void)schedule; \
        struct scope *group = begin_workshare(reductions); \
        BEGIN(loops_signed(start, end, step, most)); \
        share_memory(group, reductions, memory); \
        return shares_next((uint64_t *)first, (uint64_t *)first_end, STACK_POINTER, CODE); \
    }
#define UNSIGNED_LOOP_START(NAME, BEGIN) \
    bool NAME(bool up, unsigned long long start, unsigned long long end, unsigned long long step, long schedule, \
              unsigned long long most, unsigned long long *first, unsigned long long *first_end, \
              uintptr_t *reductions, void **memory) { \
        (void)schedule; \
        struct scope *group = begin_workshare(reductions); \
        BEGIN(loops_unsigned(up, start, end, step, (long)most)); \
        share_memory(group, reductions, memory); \
        return shares_next((uint64_t *)first, (uint64_t *)first_end, STACK_POINTER, CODE); \
    }
LOOP_START(GOMP_loop_start, loops_begin)
LOOP_START(GOMP_loop_ordered_start, BEGIN_ORDERED)
UNSIGNED_LOOP_START(GOMP_loop_ull_start, loops_begin)
UNSIGNED_LOOP_START(GOMP_loop_ull_ordered_start, BEGIN_ORDERED)

#pragma GCC visibility pop
