/* What the other folders ask of OpenMP. Its own is compiled where a program needs it, and stands in for the runtimes of
   gcc and clang. */
#ifndef SPBAGS_BASE_OPENMP_H
#define SPBAGS_BASE_OPENMP_H

#include "base/common.h"

#ifdef SPBAGS_OPENMP
enum { openmp_is_here = true };
/* Whether accesses are looked at beside, as those after an ordered region. They come here all. */
extern bool openmp_watches;
void openmp_watch_access(bool writes, uintptr_t address, size_t size, uintptr_t code);
/* An access near what a thread has of its own, which may be another one's. */
__attribute__((cold)) void openmp_note_other(uintptr_t address, uintptr_t code);
/* An access of another stack, or above the running one's quick end; whether the strand has done the same before. Then
   part of the granule was accessed. */
__attribute__((cold)) bool openmp_note_stack(bool writes, uintptr_t address, uint32_t *mark, uintptr_t code);
__attribute__((cold)) void openmp_note_part(uintptr_t granule);
/* Whether pointers to variables of a region are looked for in what its threads read, as in a run for others: of a strand
   that goes out in these granules of a block, if they are wanted now; and in a granule of the stack. */
extern bool openmp_seeks;
bool openmp_seeks_in_blocks(void);
void openmp_seek_in_block(uintptr_t address, uint64_t granules);
void openmp_seek_in_stack(uintptr_t address);
/* Whether a task or a thread may run beside what the program does now; for code that may have something in any
   register. */
__attribute__((no_caller_saved_registers, target("general-regs-only"))) bool openmp_has_beside(void);
/* The stacks of a team's members lie below the program's own, where the system leaves room for that to grow. */
size_t openmp_room_for_members(size_t *own_size);
/* A file that says which tasks are waited for as parts of their parents. */
void openmp_open_waited(int file);
void openmp_tell_notes(void);
#else
enum { openmp_is_here = false, openmp_watches = false, openmp_seeks = false };
static inline void openmp_watch_access(bool writes, uintptr_t address, size_t size, uintptr_t code) {
    (void)writes, (void)address, (void)size, (void)code;
}
static inline void openmp_note_other(uintptr_t address, uintptr_t code) { (void)address, (void)code; }
static inline bool openmp_note_stack(bool writes, uintptr_t address, uint32_t *mark, uintptr_t code) {
    (void)writes, (void)address, (void)mark, (void)code;
    return false;
}
static inline void openmp_note_part(uintptr_t granule) { (void)granule; }
static inline bool openmp_seeks_in_blocks(void) { return false; }
static inline void openmp_seek_in_block(uintptr_t address, uint64_t granules) { (void)address, (void)granules; }
static inline void openmp_seek_in_stack(uintptr_t address) { (void)address; }
static inline bool openmp_has_beside(void) { return false; }
static inline size_t openmp_room_for_members(size_t *own_size) {
    (void)own_size;
    return 0;
}
static inline void openmp_open_waited(int file) { close(file); }
static inline void openmp_tell_notes(void) {}
#endif

#endif
