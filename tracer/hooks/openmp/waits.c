/* SPBAGS_WAITED names a file. The first run puts there how many scopes have begun, and then a bit for the number of
   each period that a taskwait ended; the second one goes by them. */
#include "openmp/waits.h"

#include "base/memory.h"
#include "base/openmp.h"

enum { BITS = 64 };
static const uint64_t most_periods = (uint64_t)1 << 33;

bool waits_is_second;
static struct {
    int file;
    uint64_t *words, count;
} waited = {.file = -1};

void openmp_open_waited(int file) {
    size_t count;
    const uint64_t *words = memory_read_numbers(SETTING_WAITED, file, &count);
    waits_is_second = count > 0;
    waited.file = file;
    waited.count = waits_is_second ? count : most_periods / BITS;
    waited.words = memory_reserve(waited.count * sizeof *waited.words);
    memcpy(waited.words, words, count * sizeof *words);
}

static uint64_t word_of(uint64_t period) { return 1 + period / BITS; }

void waits_note(uint64_t period) {
    if (!waits_is_second && word_of(period) < waited.count)
        waited.words[word_of(period)] |= (uint64_t)1 << period % BITS;
}

bool waits_is_part(uint64_t period) {
    return waits_is_second && word_of(period) < waited.count &&
           (waited.words[word_of(period)] >> period % BITS & 1) != 0;
}

bool waits_is_astray(uint64_t scopes) { return waits_is_second && waited.words[0] != scopes; }

bool waits_write(uint64_t scopes) {
    if (waited.file < 0)
        return false;
    size_t left = least(word_of(scopes) + 1, waited.count) * sizeof *waited.words;
    const char *at = (const char *)waited.words;
    waited.words[0] = scopes;
    while (left > 0) {
        ssize_t wrote = write(waited.file, at, left);
        if (wrote <= 0)
            return false;
        at += wrote;
        left -= (size_t)wrote;
    }
    return true;
}
