/* A strand is what runs between two records of the structure. Each granule of the stack has a mark, which says what was
   done there last: twice the number of the strand, and one more where it wrote. */
#ifndef SPBAGS_SHADOW_MARKS_H
#define SPBAGS_SHADOW_MARKS_H

#include "shadow/granules.h"
#include "shadow/stacks.h"

enum { MARK_UNTOUCHED = 0, MARK_TOUCHED = 1, MARK_FIRST_READ = 4 };
/* So many marks are cleared at once. */
enum { MARK_CLEARED = 16 };
/* The greatest number of a strand. */
#ifndef MARK_MOST_STRANDS
#define MARK_MOST_STRANDS 0x7ffffffeu
#endif

/* What the current strand has read has this mark, and what it has written one more. Like all whose names in the
   assembler's text stand here, this is of use beside the accesses too. */
extern uint32_t marks_read __asm__("__spbags_has_read");
/* How often the numbers of strands have begun again. */
extern uint32_t marks_again;

/* What is a thread's own isn't shared, so nothing in it is recorded: with this mark all that is done there counts as a
   repeat. No other mark is above that of a write in the current strand. */
static const uint32_t marks_own = UINT32_MAX;

static inline bool marks_is_repeat(bool writes, uint32_t mark) {
    return writes ? mark > marks_read : mark >= marks_read;
}

static inline uint32_t marks_new(bool writes) { return marks_read + writes; }

/* The strand that runs has this number in the whole run. */
static inline uint64_t marks_strand_now(void) { return (uint64_t)marks_again << 32 | marks_read; }

/* Where the mark of the granule 0 would stand, if those of the stack went on. */
extern uintptr_t marks_of_stack __asm__("__spbags_marks");

static inline uint32_t *marks_at(uintptr_t address) {
    return (uint32_t *)(marks_of_stack + (address >> granules_shift) * sizeof(uint32_t));
}

/* The same of the granule that begins at this address, where it is the usual one. */
static inline uint32_t *marks_at_usual(uintptr_t address) {
    _Static_assert(1 << GRANULE_USUAL_SHIFT == sizeof(uint32_t), "marks are further apart than granules");
    return (uint32_t *)(marks_of_stack + address);
}

/* A granule of the stack that is marked has its number, which stands where twice the address of the mark says. */
extern uintptr_t marks_numbers;
static inline uint64_t *marks_number(const uint32_t *mark) {
    _Static_assert(sizeof(uint64_t) == 2 * sizeof *mark, "a number has the place of another one");
    return (uint64_t *)(marks_numbers + 2 * (uintptr_t)mark);
}

/* Makes the marks and the numbers of the stack, which lies between these. */
void marks_begin(uintptr_t first, uintptr_t end);
/* All numbers are taken: they begin again, and no mark may have an old one, nor may what else has marks: byte-granular
   granules and views of reducers. */
__attribute__((cold)) void marks_begin_again(void);

static inline void marks_begin_strand(void) {
    if (__builtin_expect(marks_read / 2 >= MARK_MOST_STRANDS, 0))
        marks_begin_again();
    marks_read += 2;
}

#endif
