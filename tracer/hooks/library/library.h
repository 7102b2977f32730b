/* What functions of the library access, as library.table says it or as it is written by hand. */
#ifndef SPBAGS_LIBRARY_LIBRARY_H
#define SPBAGS_LIBRARY_LIBRARY_H

#include "library/formats.h"
#include "library/words.h"
#include "program/accesses.h"

/* The inner state of functions, which stands for what they read and write inside. */
#define state(NAME) (&library_state_of_##NAME)
extern int library_state_of_hsearch, library_state_of_locale;

enum { KIND_READ = false, KIND_WRITE = true };

/* What the formats of printf and scanf say of their arguments. */
void library_note_argument(bool writes, uintptr_t at, size_t size, const void *by);
#define NARROW(FORMAT) formats_narrowed(FORMAT, (char[1000]){0}, 1000)
#define NOTE_STRINGS(FORMAT, LIST, SELF) formats_printed(FORMAT, &LIST, library_note_argument, &BY(SELF))
#define NOTE_FIELDS(FORMAT, LIST, STORED, SELF) formats_scanned(FORMAT, &LIST, STORED, library_note_argument, &BY(SELF))

/* A variable of the library that functions set, by its name. They do so one after the other, and unseen by all programs
   but those that use it themselves. */
void library_note_variable(bool writes, const char *name, size_t size, __spbags_function self, uintptr_t stack_pointer,
                           uintptr_t code);
#define NOTE_VARIABLE(KIND, NAME, SELF) \
    library_note_variable(KIND_##KIND, #NAME, sizeof NAME, (__spbags_function)SELF, STACK_POINTER, CODE)

/* Ends a run that starts a thread. */
void library_refuse_thread(void);

#endif
