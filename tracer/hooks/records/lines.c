#include "records/lines.h"

#include "shadow/frames.h"

const struct line lines_of_structure[8] = {
#define LINE(TEXT) \
    { TEXT "\n", sizeof TEXT }
    [SPBAGS_SPAWN] = LINE("spawn"),
    [SPBAGS_CALL] = LINE("call"),
    [SPBAGS_RETURN] = LINE("return"),
    [SPBAGS_SYNC] = LINE("sync"),
};
#define NO_HUNDRED ((uint64_t)1 << 63)
struct line_hundred lines_hundreds[2] = {{.first = NO_HUNDRED}, {.first = NO_HUNDRED}};
char lines_two_digits[100][2];

/* A line is made from its end. Where the run ends meanwhile, as without room on the stack, it is of no location. */
void lines_make_hundred(struct line_hundred *made, bool writes, uint64_t number) {
    char *end = made->line + sizeof made->line, *at = end;
    made->first = NO_HUNDRED;
    changes_in_order();
    *--at = '\n';
    at -= 2;
    for (uint64_t rest = number; rest > 0; rest /= 10)
        *--at = (char)('0' + rest % 10);
    at -= 6;
    __builtin_memcpy(at, writes ? "write " : " read ", 6);
    at += !writes;
    made->length = (size_t)(end - at);
    memmove(made->line, at, made->length);
    changes_in_order();
    made->first = 100 * number;
}

/* ---- The steps of a run that writes a trace or looks ---- */

static uint64_t at_hand[STEPS_AT_HAND];
/* The next one that goes out. Where the run ends meanwhile, as without room on the stack, the rest goes out then. */
static const uint64_t *volatile next_out = at_hand;

/* The line of any record. */
static inline size_t put_line(char *line, uint64_t record) {
    const unsigned kind = record & 7;
    return kind == SPBAGS_READ || kind == SPBAGS_WRITE ? lines_access(line, kind == SPBAGS_WRITE, record >> 3)
                                                       : lines_structure(line, kind);
}

static void write_record(uint64_t record) {
    if (doing.looking) {
        lines_pass_place(record);
        return;
    }
    const size_t length = put_line(output_room(&output_of_run), record & steps_without_site);
    if (doing.keeping_places && (record & 7) != steps_numbers_end)
        places_put((uint16_t)(record >> STEPS_SITE_SHIFT), 1);
    lines_end(length);
}

static uint64_t *write_out(const uint64_t *end) {
    for (const uint64_t *at = next_out; at < end; next_out = ++at)
        write_record(*at);
    next_out = at_hand;
    return at_hand;
}

void lines_begin(void) {
    for (int number = 0; number < 100; number++) {
        lines_two_digits[number][0] = (char)('0' + number / 10);
        lines_two_digits[number][1] = (char)('0' + number % 10);
    }
    steps_begin(at_hand, write_out);
}

void lines_drop(void) {
    for (; next_out < steps_next; next_out++)
        frames_procedures -= frames_procedures_opened_by(*next_out & 7);
    next_out = at_hand;
    steps_begin(at_hand, write_out);
}
