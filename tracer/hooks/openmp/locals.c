#include "openmp/locals.h"

#include "base/memory.h"
#include "base/openmp.h"
#include "openmp/children.h"
#include "openmp/notes.h"
#include "openmp/others.h"
#include "openmp/parts.h"
#include "openmp/reached.h"
#include "program/locations.h"
#include "records/byte_granular.h"

/* A granule that a share has accessed: its usual number, or 0; which share; which of its bytes were read and written, a
   bit for each, by which code; in which strands last; whether by a task; and whether by several ordered iterations. */
struct local {
    uintptr_t address;
    uint64_t number, share;
    unsigned read, written;
    uintptr_t codes[GRANULE_MOST_BYTES];
    uint64_t read_in, written_in;
    bool by_task, by_several;
};

/* Bytes of a granule that were accessed in a phase of the team; where by shares, the construct of the newest. */
struct touched {
    uint64_t phase;
    unsigned read, written;
    uintptr_t construct;
};

/* Of each granule of the stacks, in its team's newest phase: what shares of its own thread did there, and whether a task
   that they left did so; and what else the thread did. Of a granule of the team's first member, what shares of all
   members did in their own granules of this place, what others did by pointers in one of these, and which that was.
   Then where it stands in the list; and after which event it was noted once more, with which number, and which of its
   bytes as read and as written. */
struct place {
    struct touched by_shares, by_thread, by_all, by_others;
    struct place *owner;
    bool has_task;
    unsigned read, written;
    size_t at;
    uint64_t event, number;
};

static struct {
    struct local *list;
    size_t count;
    struct place *places;
    /* A share goes out that has accessed nothing of the kind. */
    bool has_none;
} locals;

static struct place *place_of(const uint32_t *mark) { return &locals.places[mark - marks_at(stacks_first)]; }

static void reserve(void) {
    if (locals.list)
        return;
    size_t granules = stacks_size >> granules_shift;
    locals.list = memory_reserve(granules * sizeof *locals.list);
    locals.places = memory_reserve(granules * sizeof *locals.places);
}

void locals_begin_thread(struct scope *thread) {
    reserve();
    thread->quick_end = stacks_running->quick_end;
    thread->phase_mark = marks_read;
    scopes.events++;
}

void locals_end_thread(const struct scope *thread) { stacks_set_quick_end(thread->quick_end); }

void locals_begin_share(uintptr_t construct, uintptr_t stack_pointer) {
    if (!doing.tracing)
        return;
    reserve();
    struct scope *share = scopes.newest;
    share->quick_end = stacks_running->quick_end;
    share->own_first = stack_pointer;
    share->own_end = scopes_thread()->stack_end;
    if (share->quick_end == stacks_running->end)
        stacks_running->own_end = share->own_end;
    share->construct = construct;
    share->last_number = steps_last_number;
    share->locals = locals.count;
    while (share->locals > 0 && locals.list[share->locals - 1].share == share->number)
        share->locals--;
    stacks_set_quick_end(stack_pointer);
}

/* ---- Accesses ---- */

static bool has_place(const struct scope *scope, uintptr_t address) {
    return address >= scope->own_first && address < scope->own_end;
}

static unsigned all_bytes(void) { return (1u << (granules_mask + 1)) - 1; }

static void add_bytes(struct local *local, bool writes, unsigned bytes, uintptr_t code) {
    unsigned fresh = bytes & ~(local->written | (writes ? 0 : local->read));
    for (; fresh != 0; fresh &= fresh - 1)
        local->codes[__builtin_ctz(fresh)] = code;
    *(writes ? &local->written : &local->read) |= bytes;
}

/* Whether the strand has done so to the granule already. */
static bool is_again(struct local *local, bool writes) {
    const uint64_t strand = marks_strand_now();
    if (local->written_in == strand || (!writes && local->read_in == strand))
        return true;
    *(writes ? &local->written_in : &local->read_in) = strand;
    return false;
}

static struct touched touched_now(const struct team *team, bool writes, uintptr_t address) {
    const unsigned bytes = all_bytes() & ~granules_bytes_left_out(address);
    return (struct touched){.phase = team->phase, .read = writes ? 0 : bytes, .written = writes ? bytes : 0};
}

static void add_touched(struct touched *to, struct touched now) {
    const bool adds = to->phase == now.phase;
    now.read |= adds ? to->read : 0;
    now.written |= adds ? to->written : 0;
    *to = now;
}

/* The bytes that race if these are of two threads. */
static unsigned racing(const struct touched *one, const struct touched *other) {
    const bool is_now = one->phase == other->phase;
    return is_now ? (one->written & (other->read | other->written)) | (one->read & other->written) : 0;
}

/* In a run for others these parts were another thread's in the first run, unless a pointer leads to what its own are. */
static void note_others(const struct scope *thread, uintptr_t construct, uintptr_t code) {
    if (!others_are_named || reached_has(thread, STACK_POINTER))
        others_note(construct, code);
}

/* What its thread's shares, and maybe a task of these, accessed in this phase the thread accesses outside of them. */
static void note_touched(const struct scope *thread, bool writes, uintptr_t address, const struct place *place,
                         uintptr_t code) {
    const struct touched now = touched_now(thread->team, writes, address);
    if (racing(&now, &place->by_shares) != 0)
        note_others(thread, place->by_shares.construct, code);
    if (place->by_shares.phase == now.phase && place->has_task)
        notes_keep(&notes.beside_task, code);
}

/* That of the team's first member, from whose stack all others' variables are equally far. */
static struct place *common_place(const struct team *team, const struct member *of, uintptr_t address) {
    const uintptr_t first = address - of->body + team->members->body;
    return of->body != 0 && stacks_have(first) ? place_of(marks_at(first)) : NULL;
}

/* Shares of other threads than the one with the variable did what this one may do in another run, beside what others do
   there by a pointer. */
static void note_places(const struct place *place, uintptr_t code) {
    if (place->owner &&
        (racing(&place->by_all, &place->by_others) & ~racing(&place->owner->by_shares, &place->by_others)) != 0)
        notes_keep(&notes.beside_name, code);
}

static void note_other_of(const struct team *team, bool writes, uintptr_t address, uintptr_t code) {
    const struct member *of = team->members;
    while (of < team->members + team->size && !reached_lies_in(of, address))
        of++;
    struct place *place = of < team->members + team->size ? common_place(team, of, address) : NULL;
    if (!place)
        return;
    add_touched(&place->by_others, touched_now(team, writes, address));
    place->owner = place_of(marks_at(address));
    note_places(place, code);
}

/* Maybe a variable of a member that doesn't run. */
static void note_other(bool writes, uintptr_t address, uintptr_t code) {
    for (const struct scope *at = scopes.newest; at > scopes.first; at--)
        if (at->kind == SCOPE_MEMBER)
            note_other_of(at->team, writes, address, code);
}

static bool is_in_list(const struct scope *share, uintptr_t address, size_t at) {
    return at < locals.count && locals.list[at].address == address && locals.list[at].share == share->number;
}

/* Before a share its thread has had the granule. Only in a phase's first strand it is known that it hasn't written. */
static void note_before(const struct scope *thread, uint32_t mark, struct place *place, uintptr_t code) {
    const unsigned all = all_bytes();
    const uint64_t phase = thread->team->phase;
    if (mark >= thread->phase_mark)
        add_touched(&place->by_thread, (struct touched){phase, all, mark == thread->phase_mark ? 0 : all, 0});
    if (place->by_shares.phase == phase && place->has_task)
        notes_keep(&notes.beside_task, code);
}

/* The share accesses a granule for the first time, which has another number there. */
static void begin_local(const struct scope *share, const struct scope *thread, uintptr_t address, uint32_t *mark,
                        uintptr_t code) {
    struct place *place = place_of(mark);
    if (*mark != MARK_UNTOUCHED && thread->kind == SCOPE_MEMBER)
        note_before(thread, *mark, place, code);
    if (is_in_list(share, address, place->at)) {
        struct local *local = &locals.list[place->at];
        local->read_in = local->written_in = 0;
        local->by_several = true;
    } else {
        place->at = locals.count;
        locals.list[locals.count++] = (struct local){
            .address = address, .number = *mark == MARK_UNTOUCHED ? 0 : *marks_number(mark), .share = share->number};
    }
    *mark = MARK_UNTOUCHED;
}

static bool note_in_share(const struct scope *share, const struct scope *thread, bool by_task, bool writes,
                          uintptr_t address, uint32_t *mark, uintptr_t code) {
    recent_begin();
    if (*mark == MARK_UNTOUCHED || *marks_number(mark) <= share->last_number)
        begin_local(share, thread, address, mark, code);
    struct local *local = &locals.list[place_of(mark)->at];
    local->by_task |= by_task;
    add_bytes(local, writes, all_bytes() & ~granules_bytes_left_out(address), code);
    bool repeats = is_again(local, writes);
    recent_finish();
    return repeats;
}

static const struct scope *thread_of(const struct scope *at) {
    while (!scopes_is_thread(at))
        at--;
    return at;
}

/* What the address has its place in, of the scopes that run. */
static const struct scope *scope_of(uintptr_t address, bool *by_task) {
    const struct scope *at = scopes.newest;
    while (at > scopes.first && !has_place(at, address)) {
        *by_task |= at->kind == SCOPE_TASK;
        at--;
    }
    return at;
}

bool openmp_note_stack(bool writes, uintptr_t address, uint32_t *mark, uintptr_t code) {
    bool by_task = false;
    if (stacks_find(address) != stacks_running) {
        openmp_note_other(address, code);
        note_other(writes, address, code);
    }
    const struct scope *at = scope_of(address, &by_task), *thread = thread_of(at);
    if (at->kind == SCOPE_SHARE)
        return note_in_share(at, thread, by_task, writes, address, mark, code);
    if (at > scopes.first && *mark != MARK_UNTOUCHED)
        note_touched(at, writes, address, place_of(mark), code);
    return false;
}

/* Other bytes of the granule may be accessed yet, so no access of it is a repeat. */
void openmp_note_part(uintptr_t granule) {
    bool by_task = false;
    if (scope_of(granule, &by_task)->kind == SCOPE_SHARE)
        *marks_at(granule) = MARK_TOUCHED;
}

/* Nothing that the share did in this part of a granule matters any more. */
static void forget_local(const struct scope *share, uintptr_t granule, uintptr_t first, uintptr_t end) {
    const size_t at = place_of(marks_at(granule))->at;
    if (!has_place(share, granule) || !is_in_list(share, granule, at))
        return;
    struct local *local = &locals.list[at];
    for (uintptr_t byte = granule; byte <= (granule | granules_mask); byte++)
        if (byte >= first && byte < end) {
            local->read &= ~(1u << (byte - granule));
            local->written &= ~(1u << (byte - granule));
        }
}

bool openmp_seeks_in_blocks(void) {
    const struct scope *at = scopes.newest;
    while (at->kind != SCOPE_SHARE && !scopes_is_thread(at))
        at--;
    reached_begin();
    return at->kind == SCOPE_SHARE ? locals.count > at->locals : !locals.has_none;
}

/* ---- The end of a share ---- */

/* What is known of the granule is what was known before the share. */
static void take_back(const struct local *local) {
    uint32_t *mark = marks_at(local->address);
    if (locations_count_ends())
        locations_end_at_hand(mark, 1);
    *mark = local->number == 0 ? MARK_UNTOUCHED : MARK_TOUCHED;
    if (local->number != 0)
        *marks_number(mark) = local->number;
}

static void take_back_all(const struct scope *share) {
    for (size_t at = share->locals; at < locals.count; at++)
        if (locals.list[at].share == share->number)
            take_back(&locals.list[at]);
    if (steps_any_dies())
        recent_leave_out_dying(0);
}

static bool is_of_place(const struct local *local, const struct place *place) {
    return local->number != 0 && place->number == local->number && place->event == scopes.events;
}

/* The same has been noted, and so it stands to all tasks and other threads. */
static bool is_noted(const struct local *local, const struct place *place) {
    return is_of_place(local, place) && (local->written & ~place->written) == 0 &&
           (local->read & ~(place->read | place->written)) == 0;
}

static void note_byte(const struct local *local, uint32_t *mark, unsigned byte) {
    bool writes = (local->written >> byte & 1) != 0;
    locations_note_stack(writes, local->address, mark, granules_shift, local->codes[byte]);
}

/* Those with this bit set. */
static void note_bytes(const struct local *local, uint32_t *mark, unsigned bytes) {
    for (; bytes != 0; bytes &= bytes - 1) {
        const unsigned byte = (unsigned)__builtin_ctz(bytes);
        granules_partial = (struct granules_range){local->address + byte, local->address + byte + 1};
        note_byte(local, mark, byte);
    }
}

static unsigned noted_bytes(const struct local *local) { return local->written != 0 ? local->written : local->read; }

/* As one access, or where its bytes are told apart as one of each, what was written first. */
static void note_granule(const struct local *local, uint32_t *mark) {
    const unsigned noted = noted_bytes(local);
    const uint64_t location = locations_of_stack(local->address, mark);
    *mark = MARK_TOUCHED;
    if (byte_granular_has(location)) {
        note_bytes(local, mark, local->written);
        note_bytes(local, mark, local->read & ~local->written);
    } else {
        if (noted != all_bytes())
            granules_partial = (struct granules_range){local->address, local->address + 1};
        note_byte(local, mark, (unsigned)__builtin_ctz(noted));
    }
    if (doing.looking && noted != all_bytes())
        look_note_part(location, noted);
    granules_partial.end = 0;
}

static void note_again(const struct local *local) {
    uint32_t *mark = marks_at(local->address);
    struct place *place = place_of(mark);
    if (is_noted(local, place))
        return;
    const bool adds = is_of_place(local, place);
    note_granule(local, mark);
    place->read = local->read | (adds ? place->read : 0);
    place->written = local->written | (adds ? place->written : 0);
    place->event = scopes.events;
    place->number = *marks_number(mark);
}

/* What a share did goes to what earlier ones of this phase did. Another run may race where both may, or where a third
   one may with each. */
static void add_share(const struct scope *thread, struct touched *earlier, const struct touched *now, uintptr_t code) {
    if (earlier->phase == now->phase && (earlier->construct != now->construct || racing(earlier, now) != 0)) {
        note_others(thread, earlier->construct, code);
        note_others(thread, now->construct, code);
    }
    add_touched(earlier, *now);
}

static void note_beside(const struct scope *thread, const struct local *local, const struct touched *now,
                        struct place *place, struct place *common) {
    const uintptr_t code = local->codes[__builtin_ctz(noted_bytes(local))];
    if (racing(now, &place->by_thread) != 0 || (local->by_several && now->written != 0))
        note_others(thread, now->construct, code);
    add_share(thread, &place->by_shares, now, code);
    add_share(thread, &common->by_all, now, code);
    note_places(common, code);
}

/* Whether what it accessed there matters for what its thread does later: then that is no repeat. */
static bool matters(const struct scope *share, const struct scope *thread, const struct local *local) {
    if (thread->kind != SCOPE_MEMBER)
        return false;
    uint32_t *mark = marks_at(local->address);
    struct place *place = place_of(mark), *common = common_place(thread->team, thread->member, local->address);
    const struct touched now = {thread->team->phase, local->read, local->written, share->construct};
    const bool has_task = local->by_task && scopes_unsynced(share) > 0;
    if (!has_task && (now.construct == 0 || !common))
        return false;
    place->has_task = has_task || (place->has_task && place->by_shares.phase == now.phase);
    if (common)
        note_beside(thread, local, &now, place, common);
    else
        add_touched(&place->by_shares, now);
    *mark = MARK_TOUCHED;
    return true;
}

/* An ordered iteration stands in the next one, which has its accesses then. */
static void hand_over(const struct scope *share, const struct scope *next) {
    for (size_t at = share->locals; at < locals.count; at++)
        if (locals.list[at].share == share->number)
            locals.list[at].share = next->number;
}

/* Others of the list are of shares around. */
static bool note_all_again(const struct scope *share, const struct scope *thread) {
    size_t kept = share->locals;
    bool any_matters = false;
    for (size_t at = share->locals; at < locals.count; at++) {
        const struct local *local = &locals.list[at];
        if (local->share == share->number) {
            if ((local->read | local->written) == 0)
                continue;
            note_again(local);
            any_matters |= matters(share, thread, local);
        } else {
            place_of(marks_at(local->address))->at = kept;
            locals.list[kept++] = *local;
        }
    }
    locals.count = kept;
    return any_matters;
}

uintptr_t locals_end_share(uintptr_t code) {
    const struct scope share = *scopes.newest;
    if (doing.tracing)
        take_back_all(&share);
    locals.has_none = locals.count == share.locals;
    children_close(code);
    locals.has_none = false;
    if (!doing.tracing)
        return share.own_first;
    if (scopes.newest->kind == SCOPE_SHARE)
        hand_over(&share, scopes.newest);
    stacks_set_quick_end(stacks_running->end);
    bool any_matters = note_all_again(&share, scopes_thread());
    stacks_set_quick_end(any_matters ? share.own_first : share.quick_end);
    return share.own_first;
}

#pragma GCC visibility push(hidden)

/* A variable that an iteration, a section or a single region has of its own has no life any more. */
void __spbags_dies(uintptr_t first, size_t size) {
    const struct scope *share = scopes.newest;
    if (!doing.tracing || share->kind != SCOPE_SHARE || !stacks_have(first))
        return;
    recent_begin();
    for (uintptr_t granule = first & ~granules_mask; granule < first + size; granule += granules_mask + 1)
        forget_local(share, granule, first, first + size);
    recent_finish();
}

#pragma GCC visibility pop
