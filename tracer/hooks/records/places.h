#ifndef SPBAGS_RECORDS_PLACES_H
#define SPBAGS_RECORDS_PLACES_H

#include "base/common.h"
#include "records/guards.h"
#include "records/steps.h"

/* The file of places says of each record where it comes from. A site is a code address, with what is held there and
   whether the access there doesn't fill its unit; a run has few. Most records of a block have one. So there are numbers
   of 2 bytes: that of the next record's site; PLACES_REPEAT and how many more records have the same site; or
   PLACES_TWO, two sites, how many records have them, and in four numbers a bit for each that has the second. They come
   in packed blocks, of which each can be read alone. Behind these stand, for each, how many records and how many packed
   numbers stand before its end; then the sites, the lists of guards, the lines of the report if nobody else has them,
   and how many those are.

   The thread of the detector writes them where it goes through the records, and else the program's. */
enum { PLACES_TWO = 65533, PLACES_REPEAT, PLACES_NO_SITE, PLACES_MOST_SITES = PLACES_TWO, PLACES_SITE_SLOTS = 1 << 17 };
/* So many are for code that holds nothing. */
enum { PLACES_FREE_SITES = 1 << 14 };
/* The parts of a site's word: the code address, then the list of guards, then the mark of a narrow access. Of the lists
   that have no room there it says that it can't be told. */
enum { PLACES_LIST_SHIFT = 48, PLACES_PARTIAL_SHIFT = 63, PLACES_MOST_SITE_LISTS = 0x7fff };
/* By a hash: a site's word and one, and its number. */
extern uint64_t *places_site_keys;
extern uint16_t *places_site_numbers;

static inline uint64_t places_site_word(bool is_narrow, uintptr_t code) {
    uint64_t list = guards_now();
    if (__builtin_expect(list > PLACES_MOST_SITE_LISTS, 0))
        list = PLACES_MOST_SITE_LISTS;
    return code | list << PLACES_LIST_SHIFT | (uint64_t)is_narrow << PLACES_PARTIAL_SHIFT;
}

uint16_t places_find_site(uint64_t word);

static inline size_t places_site_slot(uint64_t word) { return word * 0x9e3779b97f4a7c15u >> 47; }

static inline uint16_t places_site_number(uint64_t word) {
    size_t slot = places_site_slot(word);
    return __builtin_expect(places_site_keys[slot] == word + 1, 1) ? places_site_numbers[slot] : places_find_site(word);
}

/* The first bits of a record, in a run that keeps places. */
static inline uint64_t places_site_bits(uint64_t word) {
    return (uint64_t)places_site_number(word) << STEPS_SITE_SHIFT;
}

/* The same without a call, in any run: whether they are found at once, of code that holds nothing. */
ALWAYS_INLINE bool places_find_site_bits(uintptr_t code, uint64_t *bits) {
    *bits = 0;
    if (__builtin_expect(!doing.keeping_places, 1))
        return true;
    const size_t slot = places_site_slot(code);
    *bits = (uint64_t)places_site_numbers[slot] << STEPS_SITE_SHIFT;
    return places_site_keys[slot] == code + 1;
}

/* A site with fewer bits: its word, where that is a code address alone, as programs are linked to addresses of 32 bits;
   else its number and one. So 0 is no site. */
enum { SHORT_NUMBER_BITS = 17 };

static inline uint32_t places_short_site(uint64_t word) {
    return word >> 32 == 0 && word >> SHORT_NUMBER_BITS != 0 ? (uint32_t)word : (uint32_t)places_site_number(word) + 1;
}

static inline uint16_t places_number_of_short(uint32_t site) {
    return site >> SHORT_NUMBER_BITS != 0 ? places_site_number(site) : (uint16_t)(site - 1);
}

/* The newest site, whose number is there; how many more records have it, for which there is none yet; and how many
   records there were before these. */
extern struct places_newest {
    uint16_t site;
    uint64_t more, records;
} places_newest;

/* A record has this site, which isn't the newest. */
void places_put_other(uint16_t site);

/* So many more records, at least one, have this site. */
static inline void places_put(uint16_t site, uint64_t count) {
    if (site != places_newest.site) {
        places_put_other(site);
        count--;
    }
    places_newest.more += count;
}

/* These records have sites in their first bits, and are without them then. */
void places_take(uint64_t *records, size_t count);

/* At most 64 records have two sites that take turns: this mark with how many they are, the second site and the first,
   of 16 bits each; and a bit for each that has the second. */
static const uint64_t PLACES_TURNS = (uint64_t)1 << 63;
void places_put_turns(uint64_t turns, uint64_t bits);

/* Places go to the output of this name. Those of a descriptor have a limit. */
void places_open(const char *name);
/* What stands behind them. */
void places_end(void);

#endif
