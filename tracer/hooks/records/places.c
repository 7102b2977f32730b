#include "records/places.h"

#include "base/doing.h"
#include "base/memory.h"
#include "base/output.h"
#include "records/packing.h"
#include "base/tell.h"

static const uint64_t no_list = (uint64_t)PLACES_MOST_SITE_LISTS << PLACES_LIST_SHIFT;
static uint64_t *sites;
static uint32_t sites_count;
uint64_t *places_site_keys;
uint16_t *places_site_numbers;

uint16_t places_find_site(uint64_t word) {
    size_t slot = places_site_slot(word);
    while (places_site_keys[slot] != word + 1 && places_site_keys[slot] != 0)
        slot = (slot + 1) % PLACES_SITE_SLOTS;
    if (places_site_keys[slot] == 0) {
        if (sites_count >= PLACES_MOST_SITES - PLACES_FREE_SITES && (word & no_list) != 0 &&
            (word & no_list) != no_list)
            return places_find_site(word | no_list);
        if (sites_count == PLACES_MOST_SITES)
            return PLACES_NO_SITE;
        places_site_keys[slot] = word + 1;
        places_site_numbers[slot] = (uint16_t)sites_count;
        sites[sites_count++] = word;
    }
    return places_site_numbers[slot];
}

/* ---- Numbers ---- */

/* No record has it. */
enum { NONE_NEWEST = PLACES_REPEAT };
struct places_newest places_newest = {.site = NONE_NEWEST};

/* Those that wait, and what has gone out. At the limit, or where it can't be written, a descriptor's are given up. */
static struct {
    const char *name;
    int file;
    bool is_spare;
    uint64_t written, most;
    size_t used;
} out = {.file = -1};
static uint16_t numbers_waiting[PACKING_MOST], packed[PACKING_MOST + 1];

/* Where each block ends: how many records and how many packed numbers stand before that. */
enum { MOST_MARKS = 1 << 24 };
static struct mark { uint64_t records, numbers; } * marks;
static size_t marks_count;

static void give_up(void);

/* A file that is full kills by a signal, unless that is blocked: then the write fails. */
static bool write_whole(const void *bytes, size_t size) {
    const char *at = bytes, *end = at + size;
    while (at < end) {
        ssize_t wrote = write(out.file, at, (size_t)(end - at));
        if (wrote == 0 || (wrote < 0 && errno != EINTR))
            return false;
        if (wrote > 0) {
            at += wrote;
            out.written += (uint64_t)wrote;
        }
    }
    return true;
}

static void refuse(void) {
    if (out.is_spare)
        give_up();
    else
        tell_fault("cannot write %s: %s", out.name, strerror(errno));
}

static bool write_packed(void) {
    const size_t size = packing_pack(numbers_waiting, out.used, packed) * sizeof *packed;
    errno = EFBIG;
    if (marks_count == MOST_MARKS || out.written + size > out.most || !write_whole(packed, size))
        return false;
    marks[marks_count++] = (struct mark){places_newest.records, out.written / sizeof *packed};
    return true;
}

static void write_block(void) {
    int error = errno;
    sigset_t deadly, before;
    sigemptyset(&deadly);
    sigaddset(&deadly, SIGPIPE);
    sigaddset(&deadly, SIGXFSZ);
    pthread_sigmask(SIG_BLOCK, &deadly, &before);
    if (out.used > 0 && out.file >= 0 && !write_packed())
        refuse();
    out.used = 0;
    while (sigtimedwait(&deadly, NULL, &(struct timespec){0}) > 0)
        continue;
    pthread_sigmask(SIG_SETMASK, &before, NULL);
    errno = error;
}

/* For so many numbers. A block begins with a site, or with two that take turns. */
static inline void make_room(size_t count) {
    if (out.used + count > PACKING_MOST)
        write_block();
}

static inline void put_number(uint16_t site) {
    numbers_waiting[out.used++] = places_newest.site = site;
    places_newest.records++;
}

static void put_repeats(void) {
    enum { MARK_AND_COUNT = 2 };
    while (places_newest.more > 0) {
        make_room(MARK_AND_COUNT);
        if (out.used == 0) {
            put_number(places_newest.site);
            places_newest.more--;
            continue;
        }
        const uint16_t count = places_newest.more < UINT16_MAX ? (uint16_t)places_newest.more : UINT16_MAX;
        numbers_waiting[out.used++] = PLACES_REPEAT;
        numbers_waiting[out.used++] = count;
        places_newest.records += count;
        places_newest.more -= count;
    }
}

void places_put_other(uint16_t site) {
    put_repeats();
    make_room(1);
    put_number(site);
}

void places_put_turns(uint64_t turns, uint64_t bits) {
    enum { TOGETHER = 8 };
    const uint16_t count = turns >> 32 & 0xff;
    put_repeats();
    make_room(TOGETHER);
    const uint16_t numbers[TOGETHER] = {
        PLACES_TWO,     (uint16_t)turns,        (uint16_t)(turns >> 16), count,
        (uint16_t)bits, (uint16_t)(bits >> 16), (uint16_t)(bits >> 32),  (uint16_t)(bits >> 48)};
    __builtin_memcpy(numbers_waiting + out.used, numbers, sizeof numbers);
    out.used += TOGETHER;
    places_newest.records += count;
    places_newest.site = NONE_NEWEST;
}

/* Of so few that there is room for the numbers of all. */
static void take_few(uint64_t *records, const uint64_t *end) {
    uint16_t *to = numbers_waiting + out.used, newest = out.used > 0 ? places_newest.site : NONE_NEWEST, more = 0;
    const size_t count = (size_t)(end - records);
    for (; records < end; records++) {
        const uint16_t site = (uint16_t)(*records >> STEPS_SITE_SHIFT);
        *records &= steps_without_site;
        if (site == newest) {
            more++;
            continue;
        }
        if (more > 0) {
            *to++ = PLACES_REPEAT;
            *to++ = more;
            more = 0;
        }
        *to++ = newest = site;
    }
    out.used = (size_t)(to - numbers_waiting);
    places_newest = (struct places_newest){newest, more, places_newest.records + count - more};
}

void places_take(uint64_t *records, size_t count) {
    enum { FEW = 1024, MOST_OF_EACH = 3 };
    for (size_t few; count > 0; records += few, count -= few) {
        few = count < FEW ? count : FEW;
        put_repeats();
        make_room(MOST_OF_EACH * few);
        take_few(records, records + few);
    }
}

/* ---- The end of the file ---- */

/* A line for each list that a site names, from the first on; how many bytes. */
static uint64_t put_lists(void) {
    uint64_t bytes = 0;
    for (uint32_t list = 1; list < guards_lists_count && list < PLACES_MOST_SITE_LISTS; list++) {
        const struct guard *guard = guards_listed + guards_lists[list].first, *end = guard + guards_lists[list].length;
        for (; guard < end; guard++) {
            char text[1000];
            int length = snprintf(text, sizeof text, "%lx %s%c", guard->id, guard->name, guard + 1 < end ? '\t' : '\n');
            bytes += (uint64_t)length;
            write_whole(text, (size_t)length);
        }
    }
    return bytes;
}

/* spbags-run has the lines of the report by their records. For who reads a trace that is kept they stand here. */
static bool put_end(void) {
    static const char mark[8] = "spbplace";
    uint64_t lines = tell_by_records() && out.is_spare ? 0 : tell_kept_length, numbers = out.written / sizeof *packed;
    bool is_written =
        write_whole(marks, marks_count * sizeof *marks) && write_whole(sites, sites_count * sizeof *sites);
    uint64_t bytes = put_lists(), counts[] = {places_newest.records, numbers, marks_count, sites_count, bytes, lines};
    return is_written && write_whole(tell_kept, lines) && write_whole(counts, sizeof counts) &&
           write_whole(mark, sizeof mark);
}

static void close_file(void) {
    close(out.file);
    out.file = -1;
}

void places_end(void) {
    if (out.file < 0)
        return;
    put_repeats();
    write_block();
    if (out.file >= 0 && !put_end())
        refuse();
    if (out.file >= 0)
        close_file();
}

/* There is no room for more places. The last of those that are there make room for the end, and the run goes on. */
static void give_up(void) {
    static bool is_given_up;
    uint64_t needed = sites_count * sizeof *sites + marks_count * sizeof *marks + 100 * (uint64_t)guards_listed_count +
                      tell_kept_length + OUTPUT_PIECE;
    uint64_t kept = out.written > needed ? (out.written - needed) / sizeof *packed : 0;
    while (marks_count > 0 && marks[marks_count - 1].numbers > kept)
        marks_count--;
    struct mark last = marks_count > 0 ? marks[marks_count - 1] : (struct mark){0};
    off_t size = (off_t)(last.numbers * sizeof *packed);
    if (!is_given_up && ftruncate(out.file, size) == 0 && lseek(out.file, size, SEEK_SET) >= 0) {
        is_given_up = true;
        out.written = (uint64_t)size;
        places_newest.records = last.records;
        put_end();
        tell("there is no room for places after the first %llu", (unsigned long long)last.records);
    }
    close_file();
}

void places_open(const char *name) {
    struct statvfs space;
    out.name = name;
    out.file = output_open(name, "SPBAGS_PLACES");
    out.most = UINT64_MAX;
    sites = memory_reserve(PLACES_MOST_SITES * sizeof *sites);
    marks = memory_reserve(MOST_MARKS * sizeof *marks);
    places_site_keys = memory_reserve(PLACES_SITE_SLOTS * sizeof *places_site_keys);
    places_site_numbers = memory_reserve(PLACES_SITE_SLOTS * sizeof *places_site_numbers);
    guards_begin();
    doing.keeping_places = true;
    out.is_spare = strncmp(name, "fd:", 3) == 0;
    if (out.is_spare && fstatvfs(out.file, &space) == 0)
        out.most = space.f_bavail * space.f_frsize / 4;
}
