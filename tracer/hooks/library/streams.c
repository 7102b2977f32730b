/* Each use is a write of the stream under its own lock, in a run that judges the order. Beside it the stream is read,
   so that what takes no lock, or ends the stream, races in truth. */
#include "library/streams.h"

#include "records/guards.h"
#include "program/accesses.h"

bool streams_judged, streams_shared = true;

static void note_order(uintptr_t at, const char *lock, struct caller by) {
    guards_enter_first(at, lock);
    accesses_note_by(true, at, sizeof(int), by);
    accesses_note_by(false, at + sizeof(int), sizeof(int), by);
    guards_leave(at);
}

const char *streams_lock_of(FILE *stream) {
    return stream == stdout   ? "the lock of stdout"
           : stream == stderr ? "the lock of stderr"
           : stream == stdin  ? "the lock of stdin"
                              : "the lock of the stream";
}

void streams_use(FILE *stream, struct caller by) {
    if (streams_judged && stream)
        note_order((uintptr_t)stream, streams_lock_of(stream), by);
}

/* A descriptor is another one when it was closed and comes again. So from its first use to its end it has a number of
   its own, and 8 bytes that stand for it, at one place in all runs. */
enum { MOST_FILES = 1 << 16 };
static uint32_t file_numbers[MOST_FILES], last_file_number;
static uint64_t files[MOST_FILES];

void streams_use_file(int file, struct caller by) {
    if (!streams_judged || file < 0)
        return;
    uint32_t *number = &file_numbers[file % MOST_FILES];
    if (*number == 0)
        *number = ++last_file_number;
    note_order((uintptr_t)&files[*number % MOST_FILES], "the lock of the descriptor", by);
}

void streams_end_file(int file) {
    if (file >= 0)
        file_numbers[file % MOST_FILES] = 0;
}

/* ---- The streams of C++ ---- */

#define STANDARD(NAME) extern char standard_##NAME[] __asm__("_ZSt4" #NAME) __attribute__((weak))
STANDARD(cout);
STANDARD(cerr);
STANDARD(clog);

/* Those that aren't standard ones are objects without a lock. */
void streams_use_ostream(const struct ostream *stream, struct caller by) {
    const char *at = (const char *)stream;
    if (streams_shared && at == standard_cout)
        streams_use(stdout, by);
    else if (streams_shared && (at == standard_cerr || at == standard_clog))
        streams_use(stderr, by);
    else
        accesses_note_by(true, (uintptr_t)at, sizeof(int), by);
}
