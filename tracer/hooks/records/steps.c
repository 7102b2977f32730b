#include "records/steps.h"

#include "shadow/marks.h"

uint64_t *steps_next, *steps_window, *steps_end, *steps_pause;
uintptr_t steps_origin;
uint64_t steps_last_number, steps_window_number;
bool steps_may_leave_out;
struct steps_dying steps_dying = {.first = STEPS_WINDOW_NUMBERS};

/* Up to where the memory at hand has been looked through, and whether something new was there that steps_have_new
   hasn't told. */
static const uint64_t *seen;
static bool is_new;
static steps_hand_over *hand_over;

/* A record begins one strand at most. */
static void find_pause(void) {
    const uint32_t strands = MARK_MOST_STRANDS - marks_read / 2;
    steps_pause = steps_end - steps_window < STEPS_WINDOW ? steps_end : steps_window + STEPS_WINDOW;
    if (steps_pause - steps_next > (ptrdiff_t)strands)
        steps_pause = steps_next + strands;
}

void steps_begin(uint64_t *memory, steps_hand_over *given) {
    hand_over = given;
    seen = steps_next = memory;
    steps_end = memory + STEPS_AT_HAND;
    steps_pass();
    find_pause();
}

void steps_look_on(void) {
    if (!doing.plain)
        steps_pass();
    else if (steps_next - steps_window == STEPS_WINDOW)
        steps_begin_window();
    if (steps_next == steps_end)
        steps_pass_on();
    find_pause();
}

/* A handler of the program's timer may look meanwhile. */
static void look_for_new(void) {
    const uint64_t *at = seen;
    seen = steps_next;
    while (at < seen && ((*at & 7) == steps_numbers_end || ((*at & 7) >= SPBAGS_READ && (*at >> 3) % 2 == 1)))
        at++;
    if (at < seen)
        is_new = true;
}

/* The program's errno is none of ours. */
void steps_pass_on(void) {
    int error = errno;
    look_for_new();
    const uint64_t *kept = steps_window, *end = steps_next;
    uint64_t *memory = hand_over(kept);
    steps_origin += (uintptr_t)memory - (uintptr_t)kept;
    steps_begin(memory, hand_over);
    while (kept < end)
        *steps_next++ = *kept++;
    errno = error;
}

void steps_put_rest(void) {
    if (doing.plain && !doing_detects() && steps_window > steps_end - STEPS_AT_HAND)
        steps_pass_on();
}

void steps_put_words(uint64_t record, const uint64_t *words, size_t count) {
    steps_pass();
    if ((size_t)(steps_end - steps_next) <= 1 + count)
        steps_pass_on();
    *steps_next++ = record;
    for (size_t at = 0; at < count; at++)
        *steps_next++ = words[at];
    steps_pass();
}

void steps_leave_out(uintptr_t before) {
    uint64_t *to = (uint64_t *)(before + steps_origin);
    if (to < steps_window || to > steps_next)
        to = steps_window;
    for (const uint64_t *from = to; from < steps_next; from++) {
        uint64_t record = *from, kind = record & 7, number = (record & steps_without_site) >> 4;
        bool is_of_stack = (kind == SPBAGS_READ || kind == SPBAGS_WRITE) && (record >> 3) % 2 == 1;
        *to = record;
        to += !(is_of_stack && steps_is_dying(number));
    }
    steps_next = to;
    if (seen > to)
        seen = to;
    find_pause();
}

bool steps_have_new(void) {
    look_for_new();
    const bool was_new = is_new;
    is_new = false;
    return was_new;
}
