#include "shadow/own.h"

#include "shadow/blocks.h"
#include "shadow/marks.h"

struct own_memory own_copies;
/* That of the thread that runs, as far as nothing is recorded there. */
static struct own_of_thread own_now;

static int find_variables(struct dl_phdr_info *about, size_t size, void *found) {
    (void)size;
    for (int at = 0; at < about->dlpi_phnum; at++)
        if (about->dlpi_phdr[at].p_type == PT_TLS)
            *(struct own_memory *)found = (struct own_memory){
                (uintptr_t)about->dlpi_tls_data, (uintptr_t)about->dlpi_tls_data + about->dlpi_phdr[at].p_memsz};
    return 1; /* The program comes first, and its libraries aren't asked. */
}

struct own_of_thread own_find(void) {
    struct own_of_thread found = {.part[OWN_ERRNO] = {(uintptr_t)&errno, (uintptr_t)(&errno + 1)}};
    dl_iterate_phdr(find_variables, &found.part[OWN_VARIABLES]);
    return found;
}

uintptr_t own_first_of_thread(void) { return own_find().part[OWN_VARIABLES].first; }

static bool is_in(struct own_memory memory, uintptr_t granule) {
    return granule >= (memory.first & ~granules_mask) && granule < memory.end;
}

bool own_is_of(const struct own_of_thread *of, uintptr_t granule) {
    return is_in(of->part[OWN_ERRNO], granule) || is_in(of->part[OWN_VARIABLES], granule);
}

bool own_has(uintptr_t granule) {
    if (stacks_have(granule))
        return *marks_at(granule) == marks_own;
    return own_is_of(&own_now, granule) || is_in(own_copies, granule);
}

bool own_has_variables(void) { return own_now.part[OWN_VARIABLES].end > own_now.part[OWN_VARIABLES].first; }

/* It counts as written in each strand, or as untouched. */
static void set_own(struct own_memory memory, bool is_own) {
    uintptr_t granule = memory.first & ~granules_mask;
    blocks_leave_quick_sites();
    for (; granule < memory.end && stacks_have(granule); granule += granules_mask + 1)
        *marks_at(granule) = is_own ? marks_own : MARK_UNTOUCHED;
    while (granule < memory.end) {
        struct block_part part = blocks_part_from(granule, memory.end);
        blocks_clear(part.in.done, part.granules, BLOCK_READ | BLOCK_WROTE);
        if (is_own)
            blocks_set(part.in.done, part.granules, BLOCK_WROTE);
        part.in.block->has_own = true;
        part.in.block->quick_place = 0;
        granule = part.end;
    }
}

void own_add(struct own_memory memory) { set_own(memory, true); }

void own_begin(void) {
    own_now.part[OWN_ERRNO] = own_find().part[OWN_ERRNO];
    own_add(own_now.part[OWN_ERRNO]);
}

void own_leave(const struct own_of_thread *of) {
    for (size_t at = 0; at < OWN_PARTS; at++)
        set_own(of->part[at], false);
}

void own_enter(const struct own_of_thread *of) {
    own_now = *of;
    for (size_t at = 0; at < OWN_PARTS; at++)
        set_own(of->part[at], true);
}

uint64_t own_granules(uintptr_t address) {
    uint64_t granules = 0;
    for (unsigned granule = 0; granule < BLOCK_GRANULES; granule++)
        granules |= (uint64_t)own_has(address + ((uintptr_t)granule << granules_shift)) << granule;
    return granules;
}
