/* Lines about the run. A user reads them on standard error, as `spbags: TEXT`. For spbags-run each is a record,
   `NAME [WORD ..]: TEXT`, in the file that SPBAGS_SAYS names: it goes by the name and the words, which messages.py
   lists, and the text is for people alone. */
#ifndef SPBAGS_BASE_TELL_H
#define SPBAGS_BASE_TELL_H

#include "base/common.h"

/* Where the lines go; spbags-run has another file than standard error. And whether there was one. */
extern int tell_file;
extern bool tell_has_told;
static inline bool tell_by_records(void) { return tell_file != STDERR_FILENO; }

/* A record's name and the number behind it. */
struct tell_name {
    char text[40];
};
struct tell_name tell_numbered(const char *name, uint64_t number);

/* A record that has this text, as it is. */
void tell_text(const char *record, const char *text);
__attribute__((format(__printf__, 2, 3))) void tell_record(const char *record, const char *format, ...);
#define tell(...) tell_record("note", __VA_ARGS__)

/* Whether nothing was told of this place so far. Of very many places the first ones are told. */
bool tell_is_first(uintptr_t place);

/* The run ends here, without an answer. */
__attribute__((noreturn, format(__printf__, 2, 3))) void tell_fault_by(const char *record, const char *format, ...);
#define tell_fault(...) tell_fault_by("fault", __VA_ARGS__)

/* ---- Lines of the report ---- */

/* What the report has to say beside the races, a line each: for a trace that is kept they stand behind its places. */
extern char tell_kept[1 << 16];
extern size_t tell_kept_length;
/* How many say that something wasn't seen or modelled. */
extern uint64_t tell_incomplete_lines;

/* Of use where there are races: some of them may be none. */
__attribute__((format(__printf__, 1, 2))) void tell_seeming(const char *format, ...);
/* One sentence for the user: something may have touched memory, or may run in parallel, and wasn't seen or modelled. */
#define tell_incomplete(...) tell_unmodelled("incomplete", __VA_ARGS__)
/* The same by a record of this name: another run may model it. */
__attribute__((format(__printf__, 2, 3))) void tell_unmodelled(const char *record, const char *format, ...);
/* A function that nothing is known of was called so often; SHOWN is its name in the source. */
void tell_unseen(const char *name, const char *shown, const char *library, uint64_t calls);

#endif
