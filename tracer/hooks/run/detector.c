#include "run/detector.h"

#include "run/detector_heap.h"
#include "program/heap.h"
#include "base/memory.h"
#include "base/output.h"
#include "records/places.h"
#include "base/settings.h"
#include "records/steps.h"
#include "shadow/blocks.h"
#include "base/tell.h"

#ifdef SPBAGS_INSIDE
/* By this spbags-run knows that a program has it. */
__attribute__((used)) static const char inside_mark[] = "SPBAGS_INSIDE";
/* The kinds of so many records are looked at together. */
enum { TOGETHER = 16 };
static struct bundle {
    size_t used;
    bool is_last;
    /* With as many as are looked at together behind the last one. */
    uint64_t records[STEPS_AT_HAND + TOGETHER];
} bundles[DETECTOR_BUNDLES];
/* That which is filled. */
static struct bundle *filling;
static sem_t full_bundles, free_bundles;
static pthread_t detector;
static void *session_room;
/* What the detector's thread has at hand: its session; how many spawns and accesses it has taken; and blocks of the
   stack's numbers, each at the remainder of its own, of which these granules have ended. To forget a few of a block
   takes nearly as long as to forget all. So they wait until another block has the place, which is never wrong: they
   don't come again. The program's thread writes to no line of the cache that has these. */
enum { TWO_LINES = 128, ENDED_BLOCKS = 8 };
static struct {
    struct spbags_handle session;
    uint64_t spawns, accesses;
    struct ended_block {
        uint64_t block, granules;
    } ended[ENDED_BLOCKS];
} __attribute__((aligned(TWO_LINES))) at_hand;

bool detector_has_races;
uint64_t detector_spawns, detector_accesses;

static void give_bundle(const uint64_t *end) {
    filling->used = (size_t)(end - filling->records);
    sem_post(&full_bundles);
}

/* The bundle is full up to here; the memory of the next one. */
static uint64_t *hand_over(const uint64_t *end) {
    give_bundle(end);
    wait_for(&free_bundles);
    filling = &bundles[(filling - bundles + 1) % DETECTOR_BUNDLES];
    return filling->records;
}

/* ---- What the detector's thread does ---- */
__attribute__((noinline, cold, noreturn)) static void refuse_step(unsigned status) {
    if (status == SPBAGS_NO_MEMORY)
        tell_fault(
            "out of memory: the detector needs more than the system gives, so the run ends here without a report");
    tell_fault("the detector rejected a record with status %u, so the run ends here without a report", status);
}

/* What the library is compiled for has an instruction for it. */
#define COUNTS_BITS __attribute__((target("popcnt")))

/* Records of the run one behind another: so many, with those that the last line counts. */
struct plain_records {
    size_t all, spawns, accesses;
};

static inline __m128i kinds_of_four(const uint64_t *records) {
    const __m128 first = _mm_loadu_ps((const float *)records), last = _mm_loadu_ps((const float *)(records + 2));
    return _mm_and_si128(_mm_castps_si128(_mm_shuffle_ps(first, last, _MM_SHUFFLE(2, 0, 2, 0))), _mm_set1_epi32(7));
}

/* A byte for each. */
static inline __m128i kinds_of(const uint64_t *records) {
    return _mm_packs_epi16(_mm_packs_epi32(kinds_of_four(records), kinds_of_four(records + 4)),
                           _mm_packs_epi32(kinds_of_four(records + 8), kinds_of_four(records + 12)));
}

static inline unsigned bits_of(__m128i bytes) { return (unsigned)_mm_movemask_epi8(bytes); }

COUNTS_BITS static struct plain_records find_plain(const uint64_t *first, const uint64_t *last) {
    _Static_assert(SPBAGS_SYNC + 1 == SPBAGS_READ && SPBAGS_READ + 1 == SPBAGS_WRITE, "this counts other records");
    struct plain_records found = {0};
    for (size_t count = TOGETHER; count == TOGETHER; found.all += count) {
        const __m128i kinds = kinds_of(first + found.all);
        const unsigned others = bits_of(_mm_cmpgt_epi8(kinds, _mm_set1_epi8(SPBAGS_WRITE)));
        const unsigned spawns = bits_of(_mm_cmpeq_epi8(kinds, _mm_set1_epi8(SPBAGS_SPAWN)));
        const unsigned accesses = bits_of(_mm_cmpgt_epi8(kinds, _mm_set1_epi8(SPBAGS_SYNC)));
        const size_t left = (size_t)(last - first) - found.all;
        count = (size_t)__builtin_ctz(others | 1u << TOGETHER);
        count = count < left ? count : left;
        const unsigned members = (1u << count) - 1;
        found.spawns += (size_t)__builtin_popcount(spawns & members);
        found.accesses += (size_t)__builtin_popcount(accesses & members);
    }
    return found;
}

static uint64_t block_of_ending(uint64_t ending) {
    return (ending >> 4) / ((uint64_t)BLOCK_GRANULES / STEPS_GROUP_NUMBERS << STEPS_GROUP_NUMBERS);
}

static uint64_t granules_of_ending(uint64_t ending) {
    uint64_t group = ending >> 4 >> STEPS_GROUP_NUMBERS, members = (ending >> 4) % (1u << STEPS_GROUP_NUMBERS);
    return members << group * STEPS_GROUP_NUMBERS % BLOCK_GRANULES;
}

static void forget(uint64_t location, uint64_t granules) {
    uint8_t status = spbags_forget(&at_hand.session, location, granules);
    if (status != SPBAGS_TAKEN)
        refuse_step(status);
}

static void end_numbers(uint64_t ending) {
    const uint64_t block = block_of_ending(ending);
    struct ended_block *ended = &at_hand.ended[block % ENDED_BLOCKS];
    if (ended->block != block) {
        forget(2 * BLOCK_GRANULES * ended->block + 1, ended->granules);
        *ended = (struct ended_block){.block = block};
    }
    ended->granules |= granules_of_ending(ending);
}

/* Those of a block's records; the next one of the run. */
static uint64_t *take_sites(uint64_t *sites) {
    uint64_t *end = sites + 1 + *sites;
    for (const uint64_t *at = sites + 1; at < end; at++)
        if ((*at & PLACES_TURNS) == 0) {
            places_put((uint16_t)*at, *at >> 16);
        } else {
            places_put_turns(at[0], at[1]);
            at++;
        }
    return end;
}

/* A block's accesses; the next record. */
COUNTS_BITS static uint64_t *take_block(uint64_t *record) {
    uint8_t status = spbags_block(&at_hand.session, *record >> 3, record[1], record[2]);
    at_hand.accesses += (uint64_t)(__builtin_popcountll(record[1]) + __builtin_popcountll(record[2]));
    if (status != SPBAGS_TAKEN)
        refuse_step(status);
    return doing.plain && doing.keeping_places ? take_sites(record + 3) : record + 3;
}

/* Blocks that have ended; the next record. */
static uint64_t *take_ended(uint64_t *record) {
    for (uint64_t bits = record[1]; bits != 0; bits &= bits - 1)
        forget((*record >> 3) + 2 * BLOCK_GRANULES * (uint64_t)__builtin_ctzll(bits), UINT64_MAX);
    return record + 2;
}

/* The records of the run up to one that is none; the next record. */
static uint64_t *take_records(uint64_t *first, const uint64_t *last) {
    const struct plain_records records = find_plain(first, last);
    at_hand.spawns += records.spawns;
    at_hand.accesses += records.accesses;
    if (doing.plain && doing.keeping_places)
        places_take(first, records.all);
    uint8_t status = spbags_steps(&at_hand.session, first, records.all);
    if (status != SPBAGS_TAKEN)
        refuse_step(status);
    return first + records.all;
}

static void take_bundle(struct bundle *bundle) {
    uint64_t *at = bundle->records, *last = at + bundle->used;
    while (at < last) {
        const unsigned kind = *at & 7;
        if (kind <= SPBAGS_WRITE)
            at = take_records(at, last);
        else if (kind == steps_block_follows)
            at = take_block(at);
        else if ((*at >> 3) % 2 == 0)
            at = take_ended(at);
        else
            end_numbers(*at++);
    }
}

/* Whether a setting names a place for the report, and whether it is made. If none does, and nothing ran beside
   anything, it isn't: a build runs such programs, and reads what they print. */
static bool report_is_asked, report_is_made;

/* Nobody reads more of them: without SPBAGS_REPORT so many races are shown, and how many there are is kept. */
enum { MOST_SHOWN = 20 };
static size_t races_count;

/* The program's thread waits meanwhile. */
static void put_report(void) {
    races_count = spbags_race_count(&at_hand.session);
    detector_has_races = races_count > 0;
    uint8_t status = spbags_report(&at_hand.session);
    if (status != SPBAGS_TAKEN)
        refuse_step(status);
    size_t lines = 0;
    for (unsigned byte; (byte = spbags_next(&at_hand.session)) < SPBAGS_AT_END; lines += byte == '\n')
        if (report_is_asked || lines <= MOST_SHOWN) {
            *output_room(&output_of_run) = (char)byte;
            output_of_run.used++;
        }
}

void detector_tell_next(void) {
    char words[1000];
    if (report_is_asked || !detector_has_races)
        return;
    if (races_count > MOST_SHOWN)
        tell("%zu more races: SPBAGS_REPORT=FILE writes all into a file", races_count - MOST_SHOWN);
    int file = open("/proc/self/cmdline", O_RDONLY | O_CLOEXEC);
    ssize_t size = file < 0 ? -1 : read(file, words, sizeof words - 1);
    if (file >= 0)
        close(file);
    words[size > 0 ? size : 0] = '\0';
    tell("for the source lines: spbags-run -- %s%s", words, (ssize_t)strlen(words) + 1 < size ? " .." : "");
}

/* How much was taken, as spbags-run shows it of a long run: a page of its file. */
static struct shown_progress { uint64_t spawns, accesses, races; } own_progress, *progress = &own_progress;

void detector_share_progress(int file) {
    struct shown_progress *page = memory_reserve(sizeof *page);
    mmap(page, sizeof *page, PROT_READ | PROT_WRITE, MAP_SHARED | MAP_FIXED, file, 0);
    close(file);
    __atomic_store_n(&progress, page, __ATOMIC_RELEASE);
}

static void show_progress(void) {
    struct shown_progress *page = __atomic_load_n(&progress, __ATOMIC_ACQUIRE);
    page->spawns = at_hand.spawns;
    page->accesses = at_hand.accesses;
    page->races = spbags_race_count(&at_hand.session);
}

static void *detect(void *nothing) {
    bool is_last = false;
    spbags_new(session_room, &at_hand.session);
    for (size_t number = 0; !is_last; number = (number + 1) % DETECTOR_BUNDLES) {
        wait_for(&full_bundles);
        take_bundle(&bundles[number]);
        show_progress();
        is_last = bundles[number].is_last;
        sem_post(&free_bundles);
    }
    if (report_is_made)
        put_report();
    spbags_free(at_hand.session);
    return nothing;
}

/* ---- The beginning and the end ---- */

/* No signal comes to the detector's thread. What the library allocates for it isn't the program's, whose blocks have
   the same addresses as in a run without the detector. */
static void start_thread(void) {
    enum { BLOCKS = 1 << 20, STACK = 1 << 20, GUARD = 1 << 12 };
    char *stack = memory_reserve(GUARD + STACK);
    sigset_t all, before;
    pthread_attr_t small;
    heap_begin_aside(BLOCKS);
    sem_init(&full_bundles, 0, 0);
    sem_init(&free_bundles, 0, DETECTOR_BUNDLES - 1);
    filling = bundles;
    steps_begin(filling->records, hand_over);
    sigfillset(&all);
    sigprocmask(SIG_BLOCK, &all, &before);
    mprotect(stack, GUARD, PROT_NONE);
    pthread_attr_init(&small);
    pthread_attr_setstack(&small, stack + GUARD, STACK);
    int error = __real_pthread_create(&detector, &small, detect, NULL);
    pthread_attr_destroy(&small);
    sigprocmask(SIG_SETMASK, &before, NULL);
    if (error != 0)
        tell_fault("the thread of the detector can't be started: %s", strerror(error));
    heap_end_aside();
}

/* The report goes where SPBAGS_REPORT says, named as a trace is, or else to standard error. */
void detector_begin(void) {
    const char *name = settings_text(SETTING_REPORT), *places_name = settings_text(SETTING_PLACES);
    output_of_run.name = name ? name : "standard error";
    report_is_asked = name;
    output_of_run.file = name ? output_open(name, "SPBAGS_REPORT") : output_move_away("SPBAGS_REPORT", STDERR_FILENO);
    if (places_name)
        places_open(places_name);
    detector_heap_begin();
    session_room = memory_reserve(spbags_room());
    start_thread();
    doing.detecting = true;
}
void detector_end(bool has_more_to_say) {
    report_is_made = report_is_asked || has_more_to_say;
    filling->is_last = true;
    give_bundle(steps_next);
    pthread_join(detector, NULL);
    detector_spawns = at_hand.spawns;
    detector_accesses = at_hand.accesses;
}
#endif
