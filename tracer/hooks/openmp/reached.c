#include "openmp/reached.h"

#include "base/caller.h"
#include "base/openmp.h"
#include "shadow/granules.h"
#include "shadow/stacks.h"

bool openmp_seeks;
/* The newest page that has turned out to be there. */
static uintptr_t page_known;

void reached_begin(void) { page_known = 0; }

static void note_in_team(struct team *team, uintptr_t pointer) {
    for (unsigned number = 0; number < team->size; number++) {
        struct member *member = &team->members[number];
        if (!reached_lies_in(member, pointer))
            continue;
        member->reached = pointer > member->reached ? pointer : member->reached;
    }
}

static void note_value(uintptr_t value) {
    for (const struct scope *at = scopes.newest; stacks_have(value) && at > scopes.first; at--)
        if (at->kind == SCOPE_MEMBER)
            note_in_team(at->team, value);
}

/* The linker's name for the end of the program's variables. */
extern char _end[];

/* The strand may have given back what it has read, if that was neither a variable of the program nor its heap's. There
   is no such way of changing which signals are blocked, so the system only reads them. */
static bool is_there(uintptr_t address) {
    const int error = errno;
    const uintptr_t page = address & ~(uintptr_t)4095, first = (uintptr_t)__executable_start;
    if (page == page_known || granules_span_at(address) < GRANULE_SPANS || address - first < (uintptr_t)_end - first)
        return true;
    __real_syscall(SYS_rt_sigprocmask, -1, address, NULL, sizeof(uint64_t));
    page_known = errno == EFAULT ? 0 : page;
    errno = error;
    return page_known != 0;
}

void openmp_seek_in_block(uintptr_t address, uint64_t granules) {
    const unsigned in_word = sizeof(uintptr_t) >> granules_shift;
    granules &= UINT64_MAX / (UINT64_MAX >> (64 - in_word));
    if (granules == 0 || !is_there(address))
        return;
    for (; granules != 0; granules &= granules - 1)
        note_value(*(const uintptr_t *)(address + ((uintptr_t)__builtin_ctzll(granules) << granules_shift)));
}

void openmp_seek_in_stack(uintptr_t address) {
    const uintptr_t first = stacks_running->first;
    if (address - first >= scopes_thread()->stack_end - first)
        note_value(*(const uintptr_t *)(address & -sizeof(uintptr_t)));
}
