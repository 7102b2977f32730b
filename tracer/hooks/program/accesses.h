/* Accesses that no code of the program's makes itself, as those of a function of the library. They are noted for who
   called the hook. */
#ifndef SPBAGS_PROGRAM_ACCESSES_H
#define SPBAGS_PROGRAM_ACCESSES_H

#include "base/caller.h"

/* A function of the library that is a child itself says so by its name, SELF; no other one has any. */
void accesses_note(bool writes, uintptr_t at, size_t size, __spbags_function self, uintptr_t stack_pointer,
                   uintptr_t code);
/* Constants as a format aren't noted. */
void accesses_note_read(uintptr_t at, size_t size, __spbags_function self, uintptr_t stack_pointer, uintptr_t code);
void accesses_note_write(uintptr_t at, size_t size, __spbags_function self, uintptr_t stack_pointer, uintptr_t code);

#define NOTE(WRITES, AT, SIZE) accesses_note(WRITES, (uintptr_t)(AT), SIZE, NULL, STACK_POINTER, CODE)
#define NOTE_READ(AT, SIZE, SELF) \
    accesses_note_read((uintptr_t)(AT), SIZE, (__spbags_function)SELF, STACK_POINTER, CODE)
#define NOTE_WRITE(AT, SIZE, SELF) \
    accesses_note_write((uintptr_t)(AT), SIZE, (__spbags_function)SELF, STACK_POINTER, CODE)

static inline void accesses_note_by(bool writes, uintptr_t at, size_t size, struct caller by) {
    accesses_note(writes, at, size, by.self, by.stack_pointer, by.code);
}

#endif
