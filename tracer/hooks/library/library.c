#include "library/library.h"

#include "base/doing.h"
#include "records/guards.h"
#include "library/streams.h"
#include "base/tell.h"

int library_state_of_hsearch, library_state_of_locale;
static int library_state_of_rand, library_state_of_drand48, library_state_of_mblen, library_state_of_mbtowc,
    library_state_of_wctomb, library_state_of_mbrlen, library_state_of_mbrtowc, library_state_of_wcrtomb,
    library_state_of_mbrtoc16, library_state_of_c16rtomb, library_state_of_mbsrtowcs, library_state_of_wcsrtombs,
    library_state_of_textdomain, library_state_of_getpwent, library_state_of_getgrent, library_state_of_setlogmask;

/* ---- Accesses of several pieces ---- */

/* A row of so many, each `stride` bytes behind the one before. A piece that lies nowhere isn't touched. */
static void note_every(bool writes, uintptr_t at, size_t size, size_t count, size_t stride, __spbags_function self,
                       uintptr_t stack_pointer, uintptr_t code) {
    for (; count > 0; count--, at += stride)
        accesses_note(writes, at, size, self, stack_pointer, code);
}

/* So many bytes, which these pieces hold one after the other. */
static void note_pieces(bool writes, const struct iovec *piece, size_t count, ssize_t bytes, __spbags_function self,
                        uintptr_t stack_pointer, uintptr_t code) {
    for (; count > 0 && bytes > 0; piece++, count--) {
        size_t size = least(piece->iov_len, (size_t)bytes);
        accesses_note(writes, (uintptr_t)piece->iov_base, size, self, stack_pointer, code);
        bytes -= (ssize_t)size;
    }
}

/* A list that a function is handed is the caller's: arguments are taken out of it. */
static void note_list(va_list list, __spbags_function self, uintptr_t stack_pointer, uintptr_t code) {
    if (!doing.tracing)
        return;
    accesses_note(false, (uintptr_t)list, sizeof(va_list), self, stack_pointer, code);
    accesses_note(true, (uintptr_t)list, sizeof(va_list), self, stack_pointer, code);
}

#define NOTE_EVERY(KIND, AT, SIZE, COUNT, STRIDE, SELF) \
    note_every(KIND_##KIND, (uintptr_t)(AT), SIZE, COUNT, STRIDE, (__spbags_function)SELF, STACK_POINTER, CODE)
#define NOTE_PIECES(KIND, AT, COUNT, BYTES, SELF) \
    note_pieces(KIND_##KIND, AT, (size_t)(COUNT), BYTES, (__spbags_function)SELF, STACK_POINTER, CODE)

void library_note_argument(bool writes, uintptr_t at, size_t size, const void *with) {
    const struct caller *by = with;
    if (writes)
        accesses_note_by(true, at, size, *by);
    else
        accesses_note_read(at, size, by->self, by->stack_pointer, by->code);
}

/* The linker's names for the end of the program's variables, where its copies of the library's are, and for what the
   system needs to know of the program. */
extern char _end[];
__attribute__((weak)) extern ElfW(Dyn) _DYNAMIC[];

static uintptr_t of_system(ElfW(Sxword) tag) {
    const ElfW(Dyn) *at = _DYNAMIC;
    while (at && at->d_tag != DT_NULL && at->d_tag != tag)
        at++;
    return at && at->d_tag == tag ? at->d_un.d_ptr : 0;
}

/* Whether the program names this without a copy: names of others come before those that have a hash. */
static bool is_named(const char *name) {
    const ElfW(Sym) *symbols = (const ElfW(Sym) *)of_system(DT_SYMTAB);
    const char *strings = (const char *)of_system(DT_STRTAB);
    const uint32_t *hashes = (const uint32_t *)of_system(DT_GNU_HASH);
    for (uint32_t at = 1; hashes && at < hashes[1]; at++)
        if (strcmp(strings + symbols[at].st_name, name) == 0)
            return true;
    return false;
}

/* Its address, or 0 where the program doesn't use it. */
static uintptr_t variable_of_program(const char *name) {
    const uintptr_t at = (uintptr_t)dlsym(RTLD_DEFAULT, name), first = (uintptr_t)__executable_start;
    return at - first < (uintptr_t)_end - first || is_named(name) ? at : 0;
}

void library_note_variable(bool writes, const char *name, size_t size, __spbags_function self, uintptr_t stack_pointer,
                           uintptr_t code) {
    enum { MOST_VARIABLES = 8 };
    static struct {
        const char *name;
        uintptr_t at;
    } known[MOST_VARIABLES];
    size_t number = 0;
    while (number < MOST_VARIABLES - 1 && known[number].name && known[number].name != name)
        number++;
    if (known[number].name != name) {
        known[number].at = variable_of_program(name);
        known[number].name = name;
    }
    if (known[number].at != 0)
        accesses_note(writes, known[number].at, size, self, stack_pointer, code);
}

/* ---- The functions ---- */

#ifndef __clang__
#pragma GCC push_options
#pragma GCC optimize("O1")
#endif
#include "library_wrappers.h"
#ifndef __clang__
#pragma GCC pop_options
#endif

void library_refuse_thread(void) {
    if (doing.tracing)
        tell_fault("the program starts a thread, and only a serial run can be traced");
}

int __wrap_pthread_create(pthread_t *thread, const pthread_attr_t *attributes, void *(*start)(void *), void *with) {
    library_refuse_thread();
    return __real_pthread_create(thread, attributes, start, with);
}

int __real_thrd_create(thrd_t *, thrd_start_t, void *);
int __wrap_thrd_create(thrd_t *thread, thrd_start_t start, void *with) {
    library_refuse_thread();
    return __real_thrd_create(thread, start, with);
}
