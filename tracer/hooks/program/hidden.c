#include "program/hidden.h"

#include "shadow/frames.h"

unsigned hidden_updates;

void hidden_tell_not_run(const char *text) {
    enum { MOST_TEXTS = 1000 };
    static const char *told[MOST_TEXTS];
    static size_t count;
    for (size_t at = 0; at < count; at++)
        if (strcmp(told[at], text) == 0)
            return;
    if (count < MOST_TEXTS)
        told[count++] = text;
    tell_incomplete("%s", text);
}

void __spbags_not_seen(const char *note) {
    if (doing.tracing)
        hidden_tell_not_run(note);
}

void hidden_set(unsigned count) {
    frames_hidden += count - hidden_updates;
    hidden_updates = count;
    if (doing.tracing)
        frames_find_short_way();
}

/* An update of a view that has more memory elsewhere begins and ends. */
void __spbags_hide(void) { hidden_set(hidden_updates + 1); }
void __spbags_show(void) {
    if (hidden_updates > 0)
        hidden_set(hidden_updates - 1);
}

void hidden_tell_child(void) {
    if (hidden_updates > 0)
        hidden_tell_not_run("an update of a reducer spawns, and what its children access isn't seen");
}
