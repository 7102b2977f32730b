#include "base/tell.h"

/* By this spbags-run knows that a program says such records. */
__attribute__((used)) static const char mark[] = "SPBAGS_RECORDS";

int tell_file = STDERR_FILENO;
bool tell_has_told;
char tell_kept[1 << 16];
size_t tell_kept_length;
uint64_t tell_incomplete_lines;

/* No stream and no block of the heap: a signal may come while the program's heap is locked, and a line more moves none
   of its blocks. Where no standard error is read no signal comes of it. */
void tell_text(const char *record, const char *text) {
    char whole[1100], *left = whole;
    tell_has_told = true;
    int length = snprintf(whole, sizeof whole - 1, "%s: %s", tell_by_records() ? record : "spbags", text);
    if (length > (int)sizeof whole - 2)
        length = (int)sizeof whole - 2;
    whole[length++] = '\n';
    while (length > 0) {
        ssize_t wrote = write(tell_file, left, (size_t)length);
        if (wrote == 0 || (wrote < 0 && errno != EINTR))
            return;
        if (wrote > 0) {
            left += wrote;
            length -= (int)wrote;
        }
    }
}

/* A line that has no room is where the others about the run are. */
static void keep(const char *text) {
    size_t length = strlen(text);
    if (tell_kept_length + length >= sizeof tell_kept)
        return;
    memcpy(tell_kept + tell_kept_length, text, length);
    tell_kept_length += length;
    tell_kept[tell_kept_length++] = '\n';
}

#define PUT_TEXT(TEXT, SIZE, FORMAT) \
    char TEXT[SIZE]; \
    va_list rest; \
    va_start(rest, FORMAT); \
    vsnprintf(TEXT, SIZE, FORMAT, rest); \
    va_end(rest)

struct tell_name tell_numbered(const char *name, uint64_t number) {
    struct tell_name made;
    snprintf(made.text, sizeof made.text, "%s %llu", name, (unsigned long long)number);
    return made;
}

void tell_record(const char *record, const char *format, ...) {
    PUT_TEXT(text, 400, format);
    tell_text(record, text);
}

bool tell_is_first(uintptr_t place) {
    enum { MOST = 64 };
    static uintptr_t told[MOST];
    static size_t count;
    for (size_t at = 0; at < count; at++)
        if (told[at] == place)
            return false;
    if (count == MOST)
        return false;
    told[count++] = place;
    return true;
}

/* _exit, since the program's own handlers could add to a trace that is broken. */
void tell_fault_by(const char *record, const char *format, ...) {
    PUT_TEXT(text, 400, format);
    tell_text(record, text);
    __real__exit(2);
}

void tell_seeming(const char *format, ...) {
    PUT_TEXT(text, 1000, format);
    tell_text("seeming", text);
    keep(text);
}

void tell_unmodelled(const char *record, const char *format, ...) {
    PUT_TEXT(text, 1000, format);
    tell_text(record, text);
    keep(text);
    tell_incomplete_lines++;
}

void tell_unseen(const char *name, const char *shown, const char *library, uint64_t calls) {
    char text[1000], record[1000];
    snprintf(text, sizeof text, "not seen: %.700s (%.200s), called %llu time%s", shown, library,
             (unsigned long long)calls, calls == 1 ? "" : "s");
    snprintf(record, sizeof record, "unseen %llu %.200s", (unsigned long long)calls, library);
    tell_text(record, tell_by_records() ? name : text);
    keep(text);
    tell_incomplete_lines++;
}
