#include "records/look_races.h"

#include "base/memory.h"
#include "base/tell.h"

struct look_race *look_races;
struct look_stop *look_races_stops;
size_t look_races_count, look_races_stops_count;

/* Most locations without a race have no bit here, and need no search. */
enum { FILTER_BITS = 20 };
static uint64_t filter[(1 << FILTER_BITS) / 64];

static inline uint64_t filter_at(uint64_t location) { return location * 0x9e3779b97f4a7c15u >> (64 - FILTER_BITS); }

static inline bool may_race(uint64_t location) {
    return (filter[filter_at(location) / 64] >> filter_at(location) % 64 & 1) != 0;
}

/* The first of these races, which are in order, with no lesser location. */
static size_t race_from(uint64_t location) {
    size_t first = 0, end = look_races_count;
    while (first < end) {
        size_t middle = first + (end - first) / 2;
        if (look_races[middle].location < location)
            first = middle + 1;
        else
            end = middle;
    }
    return first;
}

struct look_race *look_races_of(uint64_t location) {
    struct look_race *race = may_race(location) ? &look_races[race_from(location)] : NULL;
    return race && race < look_races + look_races_count && race->location == location ? race : NULL;
}

/* Whether a location from this one up to that one has a race, and isn't of the stack. */
static bool is_racy(uint64_t first, uint64_t last) {
    size_t at = race_from(first);
    while (at < look_races_count && granules_of(look_races[at].location) % 2 == 1)
        at++;
    return at < look_races_count && look_races[at].location <= last;
}

bool look_races_are_in(uint64_t first, uint64_t last) {
    return is_racy(first, last) || is_racy(granules_first_byte + GRANULE_MOST_BYTES * first,
                                           granules_first_byte + GRANULE_MOST_BYTES * last + GRANULE_MOST_BYTES - 1);
}

static struct look_access access_of(uint64_t access) {
    return (struct look_access){.place = access / 2, .writes = access % 2 == 1};
}

/* The file begins with their number. Of each race it has, by the locations, the location and both accesses; and then of
   each access, by the places, its place and the number of its race. */
void look_races_read(int file) {
    enum { OF_RACE = 3, OF_STOP = 2 };
    size_t total;
    const uint64_t *at = memory_read_numbers(SETTING_LOOK, file, &total);
    look_races_count = total > 0 ? *at++ : 0;
    look_races_stops_count = 2 * look_races_count;
    if (look_races_count == 0 || total != 1 + OF_RACE * look_races_count + OF_STOP * look_races_stops_count)
        tell_fault("SPBAGS_LOOK: these are no races");
    look_races = memory_reserve((look_races_count + 1) * sizeof *look_races);
    look_races_stops = memory_reserve(look_races_stops_count * sizeof *look_races_stops);
    for (struct look_race *race = look_races; race < look_races + look_races_count; race++, at += OF_RACE) {
        *race = (struct look_race){.location = at[0], .first = access_of(at[1]), .second = access_of(at[2])};
        filter[filter_at(at[0]) / 64] |= (uint64_t)1 << filter_at(at[0]) % 64;
    }
    struct look_stop *stop = look_races_stops;
    for (; stop < look_races_stops + look_races_stops_count; stop++, at += OF_STOP)
        *stop = (struct look_stop){at[0], &look_races[at[1]]};
}
