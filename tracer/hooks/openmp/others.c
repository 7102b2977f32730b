#include "openmp/others.h"

#include "base/memory.h"
#include "base/source_line.h"
#include "base/tell.h"

enum { MOST_CONSTRUCTS = 1 << 16 };

bool others_are_named;
/* Those that are named, and those that are noted here, with the first access of each. */
static struct constructs {
    uintptr_t *list, *codes;
    size_t count;
} named, noted;

static bool has(const struct constructs *constructs, uintptr_t construct) {
    size_t at = constructs->count;
    while (at > 0 && constructs->list[at - 1] != construct)
        at--;
    return at > 0;
}

static void add(struct constructs *constructs, uintptr_t construct, uintptr_t code) {
    const size_t size = MOST_CONSTRUCTS * sizeof(uintptr_t);
    if (!constructs->list)
        *constructs = (struct constructs){memory_reserve(size), memory_reserve(size), 0};
    if (constructs->count == MOST_CONSTRUCTS)
        tell_fault("more than %d constructs access variables of their regions", MOST_CONSTRUCTS);
    constructs->list[constructs->count] = construct;
    constructs->codes[constructs->count++] = code;
}

void others_start(void) {
    const char *text = settings_text(SETTING_OTHERS);
    others_are_named = text != NULL;
    for (char *rest = NULL; text && *text; text = rest + (*rest == ','))
        add(&named, strtoull(text, &rest, 10), 0);
}

void others_note(uintptr_t construct, uintptr_t code) {
    if (construct != 0 && !has(&noted, construct))
        add(&noted, construct, code);
}

bool others_do(uintptr_t construct) { return has(&named, construct); }

void others_tell(void) {
    char line[400];
    for (size_t at = 0; at < noted.count; at++)
        tell_unmodelled(tell_numbered("others", noted.list[at]).text,
                        "%s: this accesses a variable of the parallel region that its thread also accesses in a single "
                        "region, a section or an iteration. Where another thread does that, by a pointer, races of "
                        "both aren't seen",
                        source_line(noted.codes[at], line, sizeof line));
}
