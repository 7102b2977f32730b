/* Parts of the hooks, each alone: the word names one, whose demands hold by the definitions. The compiler gets small
   limits of a strand and of their number. What stands here as a whole has variables that are looked at. */
#include "program/heap.c"
#include "program/locations.c"

#include "base/callbacks.h"
#include "base/openmp.h"
#include "library/formats.h"
#include "records/byte_granular.h"
#include "records/lines.h"
#include "records/packing.h"
#include "../spbags_cilk.h"

#define DEMAND(HOLDS) \
    do { \
        if (!(HOLDS)) { \
            printf("%s:%d: %s\n", __FILE__, __LINE__, #HOLDS); \
            exit(1); \
        } \
    } while (false)

/* ---- What the parts stand on ---- */

void __real__exit(int status) { _exit(status); }
int __real_munmap(void *at, size_t size) { return munmap(at, size); }
char __start_spbags_hooks[1], __stop_spbags_hooks[1];
struct doing doing = {.detecting = true};
static struct frame root;
struct frame *frames_top = &root, *frames_silent;
unsigned frames_hidden, frames_statics;
uint32_t frames_procedures;
uintptr_t frames_short_way_bits, frames_short_way_end, frames_short_way_first;
void frames_find_short_way(void) {}
void procedures_leave_left(uintptr_t address, uintptr_t code) { (void)address, (void)code; }

static void forget_strands(void) {}
const struct callbacks callbacks = {.forget_strands = forget_strands, .use_dead = heap_use_dead};

bool byte_granular_any, views_any;
void byte_granular_clear(uintptr_t address, uintptr_t end) { (void)address, (void)end; }
enum view_update views_update_of(uintptr_t granule, unsigned shift, bool repeats) {
    (void)granule, (void)shift, (void)repeats;
    return VIEW_NO_UPDATE;
}

struct recent_records recent_records;
void recent_pass_on(void) {}
void look_heap_note(uintptr_t block, size_t size, uint64_t dead, uintptr_t stack_pointer, uintptr_t code) {
    (void)block, (void)size, (void)dead, (void)stack_pointer, (void)code;
}
void look_at_structure(void) {}
void look_at_access(bool writes, uint64_t location) { (void)writes, (void)location; }
void look_forget_pending(void) {}
void look_note_part(uint64_t location, unsigned bytes) { (void)location, (void)bytes; }
uint64_t look_blocks[(1 << LOOK_BLOCK_BITS) / 64], look_place_now, look_next_place, *places_site_keys;
uint16_t *places_site_numbers;
struct places_newest places_newest;
void places_put_other(uint16_t site) { (void)site; }
uint16_t places_find_site(uint64_t word) { return (uint16_t)word; }
void look_note_pending(bool writes, uint64_t location, uintptr_t address, uintptr_t code) {
    (void)writes, (void)location, (void)address, (void)code;
}
void accesses_note_write(uintptr_t at, size_t size, __spbags_function self, uintptr_t stack_pointer, uintptr_t code) {
    (void)at, (void)size, (void)self, (void)stack_pointer, (void)code;
}

bool statics_find(uintptr_t at, size_t size) { return (void)at, (void)size, false; }
uint32_t statics_find_newest(void) { return 0; }

/* Numbers that look random, and are those of each run. */
static unsigned drawn(unsigned below) {
    static uint64_t state = 1;
    state = state * 6364136223846793005u + 1442695040888963407u;
    return (unsigned)(state >> 33) % below;
}

/* ---- The blocks of a strand ---- */

enum { GRANULES = 200, STACK_BYTES = 1 << 20 };
static char *stack_memory;
static _Alignas(256) uint32_t memory[10 * BLOCK_GRANULES];
static uintptr_t memory_granule(unsigned number) { return (uintptr_t)&memory[number]; }

/* Above what the hooks reserve. */
static void make_stack(void) {
    stack_memory = mmap(NULL, STACK_BYTES, PROT_READ | PROT_WRITE, MAP_PRIVATE | MAP_ANONYMOUS, -1, 0);
    DEMAND(stack_memory != MAP_FAILED);
    stacks_running_first = stacks_first = stacks[0].first = (uintptr_t)stack_memory;
    stacks_running_size = stacks_size = STACK_BYTES;
    stacks[0].end = stacks_first + STACK_BYTES;
    marks_begin(stacks_first, stacks[0].end);
}

/* What has gone out: the blocks in their order with what was read there, and written. */
static struct {
    size_t count;
    uint64_t locations[2 * STRAND_MOST_BLOCKS], masks[2 * STRAND_MOST_BLOCKS][2];
} out;
static uint64_t gone_out[STEPS_AT_HAND];

static uint64_t *hand_over(const uint64_t *end) {
    DEMAND(end == gone_out);
    return gone_out;
}

static void begin_reading(void) { steps_begin(gone_out, hand_over); }

/* All from the last call of this or of begin_reading. */
static void read_out(void) {
    out.count = 0;
    for (const uint64_t *at = gone_out; at < steps_next; at += 3, out.count++) {
        DEMAND((*at & 7) == steps_block_follows && out.count < 2 * STRAND_MOST_BLOCKS);
        out.locations[out.count] = *at >> 3;
        memcpy(out.masks[out.count], at + 1, sizeof *out.masks);
    }
    begin_reading();
}

static uint64_t location_of_block(unsigned block) {
    return 2 * (memory_granule(block * BLOCK_GRANULES) >> granules_shift);
}

/* They go out in the order of their first touch, with what was read before it was written and what was written, whether
   that is noted quickly or not; and those beyond the limit are in another part. */
static void strand_blocks(void) {
    make_stack();
    for (int round = 0; round < 2000; round++) {
        uint64_t wanted[10][2] = {{0}}, touched[10] = {0};
        unsigned order[STRAND_MOST_BLOCKS + 1], used = 0;
        uint64_t parts = course.parts;
        strands_noted_quickly = drawn(2) != 0;
        begin_reading();
        for (int access = 0; access < 40; access++) {
            unsigned block = drawn(8), first = drawn(BLOCK_GRANULES), count = 1 + drawn(BLOCK_GRANULES - first),
                     writes = drawn(2);
            if (touched[block] == 0 && used == STRAND_MOST_BLOCKS)
                continue;
            order[used] = block;
            used += touched[block] == 0;
            locations_touch(writes, memory_granule(block * BLOCK_GRANULES + first), 4 * (size_t)count, 0);
            wanted[block][writes] |= blocks_granules_from(first, count) & ~(writes ? 0 : wanted[block][true]);
            touched[block] |= blocks_granules_from(first, count);
        }
        strands_put();
        read_out();
        DEMAND(course.parts == parts + 1 && out.count == used);
        for (unsigned at = 0; at < used; at++) {
            DEMAND(out.locations[at] == location_of_block(order[at]));
            DEMAND(memcmp(out.masks[at], wanted[order[at]], sizeof out.masks[at]) == 0);
        }
    }
    for (unsigned block = 0; block < STRAND_MOST_BLOCKS; block++)
        locations_touch(true, memory_granule(block * BLOCK_GRANULES), 4, 0);
    uint64_t parts = course.parts;
    locations_touch(true, memory_granule(0), 4, 0);
    DEMAND(course.parts == parts);
    locations_touch(true, memory_granule(STRAND_MOST_BLOCKS * BLOCK_GRANULES), 4, 0);
    read_out();
    DEMAND(course.parts == parts + 1 && out.count == STRAND_MOST_BLOCKS && strands_part.used == 1);
}

static void strand_locations(void) {
    for (unsigned granule = 0; granule < BLOCK_GRANULES; granule++) {
        DEMAND(blocks_at(memory_granule(granule)).location == location_of_block(0));
        DEMAND(blocks_location(memory_granule(granule)) == location_of_block(0) + 2 * granule);
        DEMAND(strands_gather(2 * granule) && !strands_gather(2 * granule + 1));
    }
}

/* They are no heap's, and don't stay dead. */
static void die_alone(unsigned first, unsigned end) {
    strands_set_dead(memory_granule(first), memory_granule(end));
    for (unsigned granule = first; granule < end; granule++) {
        struct block *block = blocks_at(memory_granule(granule)).block;
        DEMAND((block->dead & blocks_granules_from(granule % BLOCK_GRANULES, 1)) != 0);
        block->dead = granule % BLOCK_GRANULES == BLOCK_GRANULES - 1 || granule + 1 == end ? 0 : block->dead;
    }
}

/* What is left out has no access any more, and a block of which nothing is left makes room. */
static void strand_left_out(void) {
    enum { MOST = 3 * BLOCK_GRANULES };
    uint64_t left[3] = {0};
    make_stack();
    for (int round = 0; round < 20000; round++) {
        unsigned granule = drawn(MOST), first = drawn(MOST), end = first + drawn(MOST - first) + 1;
        strands_noted_quickly = drawn(2) != 0;
        locations_touch(true, memory_granule(granule), 4, 0);
        left[granule / BLOCK_GRANULES] |= blocks_granules_from(granule % BLOCK_GRANULES, 1);
        if (drawn(20) == 0) {
            die_alone(first, end);
            for (unsigned gone = first; gone < end; gone++)
                left[gone / BLOCK_GRANULES] &= ~blocks_granules_from(gone % BLOCK_GRANULES, 1);
        }
        for (unsigned block = 0; block < 3; block++)
            DEMAND(blocks_granules_with(blocks_at(memory_granule(block * BLOCK_GRANULES)).done, BLOCK_WROTE) ==
                   left[block]);
    }
    uint64_t parts = course.parts;
    for (unsigned block = 0; block < 100; block++) {
        locations_touch(true, memory_granule(block % 10 * BLOCK_GRANULES), 4, 0);
        die_alone(0, 10 * BLOCK_GRANULES);
    }
    DEMAND(course.parts == parts);
}

/* ---- Marks, and the numbers of the stack ---- */

static uintptr_t stack_granule(unsigned number) { return stacks_first + STACK_BYTES - 4 * (uintptr_t)(number + 1); }

static unsigned records;
static uint64_t recorded;
void records_access(bool writes, const struct block_touched *in, uint64_t location, uintptr_t address, uintptr_t code) {
    (void)address, (void)code;
    records++;
    recorded = location;
    if (in)
        records_note_in_block(writes, in, blocks_granules_from((unsigned)(location - in->location) / 2, 1), code);
}

static void next_strand(void) {
    begin_reading();
    strands_put();
    marks_begin_strand();
}

/* In a strand an access is a repeat behind a write, and a read behind any. */
static void marks_repeats(void) {
    unsigned done[2 * GRANULES] = {0};
    make_stack();
    for (int access = 0; access < 100000; access++) {
        unsigned granule = drawn(2 * GRANULES), writes = drawn(2);
        bool repeats = (done[granule] & BLOCK_WROTE) != 0 || (!writes && done[granule] != 0);
        records = 0;
        locations_touch(writes, granule < GRANULES ? memory_granule(granule) : stack_granule(granule - GRANULES), 4, 0);
        DEMAND(records == !repeats);
        done[granule] |= writes ? BLOCK_WROTE : BLOCK_READ;
        if (drawn(500) == 0) {
            next_strand();
            memset(done, 0, sizeof done);
        }
    }
}

/* What is a thread's own has no records, also when the numbers of strands begin again. */
static void marks_own_memory(void) {
    make_stack();
    own_copies = (struct own_memory){memory_granule(3), memory_granule(5)};
    own_add(own_copies);
    for (int strand = 0; strand < 3 * (int)MARK_MOST_STRANDS; strand++) {
        records = 0;
        locations_touch(true, memory_granule(2), 16, 0);
        DEMAND(records == 2);
        next_strand();
    }
}

/* A record for each granule that an access touches a part of. */
static void marks_granules(void) {
    make_stack();
    for (unsigned first = 0; first < 8; first++)
        for (unsigned size = 0; size < 20; size++) {
            records = 0;
            locations_touch(true, memory_granule(10) + first, size, 0);
            DEMAND(records == (size == 0 ? 0 : (first + size - 1) / 4 - first / 4 + 1));
            next_strand();
        }
}

/* The numbers that have ended, but for those of the newest group. */
static bool is_ended[100000];
void recent_end_numbers(uint64_t location) {
    DEMAND(location % 2 == 1);
    uint64_t group = location / 2 >> STEPS_GROUP_NUMBERS, members = location / 2 % (1 << STEPS_GROUP_NUMBERS);
    for (unsigned member = 0; member < STEPS_GROUP_NUMBERS; member++)
        if ((members >> member & 1) != 0) {
            DEMAND(!is_ended[group * STEPS_GROUP_NUMBERS + member]);
            is_ended[group * STEPS_GROUP_NUMBERS + member] = true;
        }
}

void recent_end_window(void) { steps_window_number = steps_last_number; }
void recent_leave_out_dying(uintptr_t before) {
    (void)before;
    steps_end_dying();
}

static bool has_ended(uint64_t number) {
    const struct location_ended *ended = locations_place_of_ended(number);
    bool is_at_hand =
        number / STEPS_GROUP_NUMBERS == ended->group && (ended->members >> number % STEPS_GROUP_NUMBERS & 1) != 0;
    return is_ended[number] || is_at_hand;
}

/* A granule of the stack has a fresh odd location at each first touch, keeps it until its memory ends, and then it has
   ended. Others have twice their address in granules. */
static void stack_numbers(void) {
    static bool ends[100000];
    uint64_t number[GRANULES] = {0}, newest = 0;
    unsigned granule = 0;
    make_stack();
    for (int round = 0; round < 2000; round++) {
        granule = drawn(2) ? drawn(GRANULES) : (granule + 1) % GRANULES;
        locations_touch(true, stack_granule(granule), 4, 0);
        newest += number[granule] == 0;
        number[granule] = number[granule] == 0 ? newest : number[granule];
        DEMAND(recorded == 2 * number[granule] + 1);
        marks_begin_strand();
        unsigned kept = drawn(GRANULES);
        if (drawn(5) != 0)
            continue;
        locations_clear_marks(marks_at(stacks_lowest), marks_at(stack_granule(kept)));
        for (unsigned gone = kept + 1; gone < GRANULES; gone++) {
            ends[number[gone]] = number[gone] != 0;
            number[gone] = 0;
        }
    }
    locations_touch(true, memory_granule(7), 4, 0);
    DEMAND(recorded == 2 * (memory_granule(7) / 4));
    for (uint64_t at = 1; at <= newest; at++)
        DEMAND(ends[at] == has_ended(at));
}

/* A number that ends in the window in which it began dies there, and isn't told. */
static void stack_window(void) {
    make_stack();
    steps_may_leave_out = true;
    locations_touch(true, stack_granule(0), 4, 0);
    recent_end_window();
    locations_touch(true, stack_granule(1), 4, 0);
    locations_touch(true, stack_granule(2), 4, 0);
    locations_clear(stack_granule(1), 4);
    DEMAND(!steps_any_dies());
    locations_clear_marks(marks_at(stack_granule(2)), marks_at(stack_granule(0)) + 1);
    DEMAND(steps_any_dies() && !steps_is_dying(1) && !steps_is_dying(2) && steps_is_dying(3) && !steps_is_dying(4));
    steps_end_dying();
    DEMAND(!steps_any_dies() && !steps_is_dying(3) && has_ended(1) && !has_ended(2) && !has_ended(3));
}

/* ---- The heap ---- */

static void check_block(char *block, size_t size, char filled) {
    DEMAND(malloc_usable_size(block) == size);
    for (size_t at = 0; at < size; at++)
        DEMAND(block[at] == filled);
}

/* Blocks are aligned and apart, keep what is in them as long as they live, and their memory comes again. */
static void heap_blocks(void) {
    enum { LIVE = 50 };
    struct {
        char *at, filled;
        size_t size;
    } live[LIVE] = {{NULL, 0, 0}};
    stacks_running_thread = __builtin_thread_pointer();
    for (int number = 0; number < 30000; number++) {
        unsigned at = drawn(LIVE);
        size_t alignment = (size_t)1 << drawn(13), size = drawn(20) == 0 ? drawn(100000) : drawn(3000);
        if (live[at].at)
            check_block(live[at].at, live[at].size, live[at].filled);
        free(live[at].at);
        char *block = drawn(2) ? calloc(size, 1) : aligned_alloc(alignment, size);
        DEMAND(block && (uintptr_t)block % 16 == 0);
        live[at].at = memset(block, live[at].filled = (char)number, live[at].size = size);
    }
    for (unsigned at = 0; at < LIVE; at++)
        check_block(live[at].at, live[at].size, live[at].filled);
    DEMAND(granules_lifetimes.newest > 0);
}

static void heap_zero(void) {
    stacks_running_thread = __builtin_thread_pointer();
    for (int number = 0; number < 20000; number++) {
        char *block = calloc(100, 10);
        check_block(block, 1000, 0);
        free(memset(block, 1, 1000));
    }
    for (size_t alignment = 1; alignment <= 1 << 20; alignment *= 2)
        DEMAND((uintptr_t)aligned_alloc(alignment, 1) % alignment == 0);
    DEMAND(granules_lifetimes.newest > 0 && spans_taken < 100);
}

/* One larger than what the system gives at once, and what no system has. */
static void heap_sizes(void) {
    char *large = malloc((size_t)3 * CHUNK);
    DEMAND(large && large[3 * CHUNK - 1] == 0);
    volatile size_t most = SIZE_MAX;
    errno = 0;
    DEMAND(!malloc(most) && errno == ENOMEM);
    DEMAND(!malloc(most - 100) && !calloc(most / 2, 3) && !aligned_alloc(4096, most - 4096));
    errno = 0;
    DEMAND(!aligned_alloc(48, 1) && errno == EINVAL);
    DEMAND(malloc(0) && malloc_usable_size(NULL) == 0);
}

static void heap_moves(void) {
    char *block = malloc(3);
    memcpy(block, "abc", 3);
    char *larger = realloc(block, 64);
    static const char wanted[64] = "abc";
    DEMAND(larger != block && memcmp(larger, wanted, 64) == 0);
    char *smaller = realloc(larger, 2);
    DEMAND(malloc_usable_size(smaller) == 2 && memcmp(smaller, "ab", 2) == 0 && realloc(NULL, 1));
}

/* ---- Formats ---- */

/* What a format touches: for each the letter of what it is, the size, and `!` where it is written or `?` where it is
   read. What is touched is one of these. */
static char touched_text[200];
static char word[] = "abc", other[] = "xy";
static wchar_t wide_word[] = L"abcd";
static int number;

static void note_touch(bool writes, uintptr_t at, size_t size, const void *with) {
    const void *places[] = {word, other, wide_word, &number};
    size_t place = 0, length = strlen(touched_text);
    while (place < 4 && (uintptr_t)places[place] != at)
        place++;
    DEMAND(with == touched_text && place < 4);
    snprintf(touched_text + length, sizeof touched_text - length, "%s%c%zu%c", length > 0 ? " " : "", "wovn"[place],
             size, writes ? '!' : '?');
}

static bool prints(const char *wanted, const char *format, ...) {
    va_list list;
    va_start(list, format);
    touched_text[0] = '\0';
    formats_printed(format, &list, note_touch, touched_text);
    va_end(list);
    return strcmp(wanted, touched_text) == 0;
}

static bool scans(const char *wanted, int stored, const char *format, ...) {
    va_list list;
    va_start(list, format);
    touched_text[0] = '\0';
    formats_scanned(format, &list, stored, note_touch, touched_text);
    va_end(list);
    return strcmp(wanted, touched_text) == 0;
}

static void formats_print(void) {
    DEMAND(prints("w4? o3?", "%d %s %% %s", 1, word, other));
    DEMAND(prints("w2? w4?", "%.2s %.9s", word, word) && prints("w0?", "%.s", word));
    DEMAND(prints("w1? o3?", "%*.*s|%-8s", 5, 1, word, other) && prints("w4?", "%.*s", -1, word));
    DEMAND(prints("n4! n8! n2! n1!", "%n%ln%hn%hhn", &number, &number, &number, &number));
    DEMAND(prints("o3?", "%f %e %g %a %Lf %s", 1., 1., 1., 1., 1.L, other));
    DEMAND(prints("o3?", "%c %hhd %ld %llu %zu %jd %td %p %x %m %s", 'a', 1, 1L, 1ULL, (size_t)1, (intmax_t)1,
                  (ptrdiff_t)1, (void *)word, 1u, other));
    DEMAND(prints("o3?", "%d %d %d %d %d %Lf %#x %s", 1, 1, 1, 1, 1, 1.L, 1u, other));
    DEMAND(prints("v20? v20?", "%ls %S", wide_word, wide_word));
    DEMAND(prints("", "%s %ls", NULL, NULL) && prints("", "no conversion") && prints("", "%") && prints("", NULL));
    DEMAND(prints("o3? w4?", "%3$s %1$s %2$f", word, 1., other) && prints("w2?", "%1$.*2$s", word, 2));
}

static void formats_scan(void) {
    DEMAND(scans("n4! w4! o3!", 3, "%d %s %s", &number, word, other) && scans("n4!", 1, "%d %s", &number, word));
    DEMAND(scans("", 0, "%d", &number) && scans("", -1, "%n", &number));
    DEMAND(scans("n8! n2! n1! n8! n4! n16!", 6, "%ld %hd %hhd %lf %f %Lf", &number, &number, &number, &number, &number,
                 &number));
    DEMAND(scans("w3! o1!", 2, "%3c%c", word, other) && scans("n4!", 1, "%*s %*d %d", &number));
    DEMAND(scans("w4! n4!", 2, "%[]%s]%d", word, &number));
    DEMAND(scans("w4! n4!", 2, "%[^]%s]%d", word, &number) && scans("n8! n8!", 2, "%ms %m[a]", &number, &number));
    DEMAND(scans("n4! n4!", 1, "%d%n", &number, &number) && scans("v20! n8!", 2, "%ls%p", wide_word, &number));
    DEMAND(scans("o3! w4!", 2, "%2$s %1$s", word, other));
}

static void formats_partial(void) {
    char room[6];
    DEMAND(strcmp(formats_narrowed(L"%l\u00e9s", room, sizeof room), "%l?s") == 0);
    DEMAND(strcmp(formats_narrowed(L"1234567", room, sizeof room), "12345") == 0);
    DEMAND(strcmp(formats_narrowed(NULL, room, sizeof room), "") == 0);
}

/* ---- Numbers that are packed ---- */

static size_t unpack(const uint16_t *at, const uint16_t *end, uint16_t *numbers) {
    size_t count = 0;
    while (at < end) {
        for (unsigned left = *at++; left > 0; left--)
            numbers[count++] = *at++;
        if (at == end)
            break;
        size_t back = *at++;
        for (unsigned left = *at++; left > 0; left--, count++)
            numbers[count] = numbers[count - back];
    }
    return count;
}

/* They come back, however many and of whatever kind they are; and what is the same again and again takes no room. */
static void packing(void) {
    static uint16_t numbers[PACKING_MOST], packed[PACKING_MOST + 1], unpacked[PACKING_MOST];
    for (unsigned round = 0; round < 400; round++) {
        const unsigned kinds = 1u << round % 17;
        const size_t count = round < 17 ? PACKING_MOST : drawn(PACKING_MOST);
        for (size_t at = 0; at < count; at++)
            numbers[at] = (uint16_t)drawn(kinds);
        const size_t size = packing_pack(numbers, count, packed);
        DEMAND(size <= count + 1 && (kinds > 1 || size <= 8));
        DEMAND(unpack(packed, packed + size, unpacked) == count);
        DEMAND(memcmp(unpacked, numbers, count * sizeof *numbers) == 0);
    }
    DEMAND(packing_pack(numbers, 0, packed) == 1 && unpack(packed, packed + 1, unpacked) == 0);
}

int main(int count, char **words) {
    static const struct {
        const char *name;
        void (*run)(void);
    } parts[] = {{"strand_blocks", strand_blocks},     {"strand_locations", strand_locations},
                 {"marks_repeats", marks_repeats},     {"marks_own", marks_own_memory},
                 {"marks_units", marks_granules},      {"stack_numbers", stack_numbers},
                 {"heap_blocks", heap_blocks},         {"heap_zero", heap_zero},
                 {"strand_left_out", strand_left_out}, {"stack_window", stack_window},
                 {"heap_sizes", heap_sizes},           {"heap_moves", heap_moves},
                 {"formats_print", formats_print},     {"formats_scan", formats_scan},
                 {"formats_narrow", formats_partial},  {"packing", packing}};
    granules_shift = GRANULE_USUAL_SHIFT;
    granules_mask = 3;
    for (size_t at = 0; at < sizeof parts / sizeof *parts; at++)
        if (count == 1)
            puts(parts[at].name);
        else if (strcmp(words[1], parts[at].name) == 0)
            parts[at].run();
    return 0;
}
